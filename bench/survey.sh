#!/bin/bash
# bench/survey.sh [FOLDER..]: how many calls of macros in real files the expander can expand: by the file alone,
# behind the macros of std, and behind those and the ones of the file's crate that are in scope. For each it prints
# the calls that have a definition in sight by bench/survey/scope.py, and those that the program expands. Of each call
# that has a definition in sight and is not expanded it tells what the program reports and what rustc says, and a file
# has them all. It then holds calls of std's macros, expanded by one level, beside rustc's under the same text of the
# definitions, and some texts behind std beside the right answers.
# With no FOLDER it takes those of Debian's packages (`apt-get install librust-*-dev rust-src`) and of cargo; rustc's
# own tests, of which many are meant to be wrong, are counted apart. STD is the folder `library` of an installed
# rust-src: by default that of rustc's own, else of /usr/src/rustc-*. FILGORDD is the program, by default that of
# bin/filgordd, which is proved and built first. YEAR, by default 2021, is the edition beside rustc; a file's is that
# of its package. It needs rustc 1.95 and python3 3.11.
# shellcheck source=bench/common.sh
. "$(dirname "$(readlink -f "${BASH_SOURCE[0]}")")/common.sh"
parts=$top/bench/survey
export PYTHONPATH=$parts:$top/bench/agreement PYTHONDONTWRITEBYTECODE=1
year=${YEAR:-2021}
folders=("$@")
for folder in "$@"; do
    [ -d "$folder" ] || { echo "survey: there is no folder $folder" >&2; exit 2; }
done
if [ $# = 0 ]; then
    for folder in /usr/share/cargo/registry /usr/src/rustc-* ~/.cargo/registry/src; do
        [ -d "$folder" ] && folders+=("$folder")
    done
fi

command -v rustc >/dev/null || { echo 'survey: there is no rustc' >&2; exit 2; }
std=${STD-}
if [ -z "$std" ]; then
    for std in "$(rustc --print sysroot)/lib/rustlib/src/rust/library" /usr/src/rustc-*/library; do
        [ -d "$std" ] && break
    done
fi
[ -f "$std/core/src/macros/mod.rs" ] || { echo 'survey: there is no source of std; STD can name it' >&2; exit 2; }
program=${FILGORDD-}
if [ -z "$program" ]; then
    "$top/bin/filgordd" expand </dev/null || exit 2
    program=$top/crates/filgordd/out/filgordd
fi

rustc --version
echo "std: $std"
python3 "$parts/count.py" "$program" "$std" "$work/out" "${folders[@]}" || exit 2
python3 "$parts/beside_rustc.py" cut "$work/out" "$std" || exit 2
python3 "$top/bench/agreement/judge.py" "$work/out/std" "$year" || exit 2
for folder in "$work/out/stays"/*; do
    [ ! -d "$folder" ] || python3 "$top/bench/agreement/judge.py" "$folder" "${folder##*/}" || exit 2
done
python3 "$parts/beside_rustc.py" stays "$work/out" || exit 2
python3 "$parts/beside_rustc.py" std "$work/out" "$std" "$program" "$year" || exit 2
python3 "$parts/rows.py" "$program" "$std" || exit 2
differs=$(mktemp) && cp "$work/out/differs" "$differs" && echo "differs: $differs"
