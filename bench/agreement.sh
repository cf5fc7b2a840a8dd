#!/bin/bash
# bench/agreement.sh [FOLDER..]: how often the expander, with the grammar of Rust, gives what rustc gives.
# It cuts definitions of macros, and calls of them, out of the Rust sources in these folders, has both
# expand each call by one level, and compares the tokens. With no FOLDER it takes those of Debian's packages
# (`apt-get install librust-*-dev rust-src`), of cargo, and bench/agreement/cases. What differs is in the
# file that the last line names. YEAR, by default 2021, is the edition. It needs rustc 1.95 and python3.
. "$(dirname "$(readlink -f "${BASH_SOURCE[0]}")")/common.sh"
parts=$top/bench/agreement
year=${YEAR:-2021}
folders=("$@")
if [ $# = 0 ]; then
    for folder in "$parts/cases" /usr/share/cargo/registry /usr/src/rustc-* ~/.cargo/registry/src; do
        [ -d "$folder" ] && folders+=("$folder")
    done
fi

command -v rustc >/dev/null || { echo 'agreement: there is no rustc' >&2; exit 2; }
rustc --version
python3 "$parts/cut.py" "$work/pairs" "${folders[@]}" || exit 2
python3 "$parts/judge.py" "$work/pairs" "$year" || exit 2
build agreement rustc_lexer bare_box byte_buffer symbols tt_data token_bytes tt fragment_grammar small_grammar rust_grammar bridge mbe_rules mbe_matcher mbe_transcriber mbe expander_model expander_reparse expander_scope expander_session expander_run expander
python3 "$parts/ours.py" "$work/pairs" "$year" "$program" || exit 2
python3 "$parts/compare.py" "$work/pairs" || exit 2
differs=$(mktemp) && python3 "$parts/compare.py" "$work/pairs" -v >"$differs" && echo "differs: $differs"
