#!/bin/bash
# bench/begin.sh [COUNT [SEED]]: how often the expander, with the grammar of Rust, takes the rule that rustc takes.
# It makes COUNT random inputs, 400 without one, for macros of two rules: `($x:KIND ..)`, and one that takes all tokens.
# It asks rustc and the program `filgordd`, which is compiled without its proof, and prints by kind and by edition for
# how many of those that rustc takes both take the same rule, and the first others. A full run has 20,000 and more.
# It needs rustc 1.95 and python3.
. "$(dirname "$(readlink -f "${BASH_SOURCE[0]}")")/common.sh"
parts=$top/bench/begin
count=${1:-400} seed=${2:-1}

command -v rustc >/dev/null || { echo 'begin: there is no rustc' >&2; exit 2; }
rustc --version
python3 "$parts/make.py" "$work/rows" "$count" "$seed" || exit 2
python3 "$parts/ask.py" rustc "$work/rows" || exit 2
python3 "$parts/ask.py" texts "$work/rows" "$work/texts" || exit 2
echo 'begin: compiling the program, which takes some minutes' >&2
(cd "$top/crates/filgordd" && rt try --cases "$work/texts" -- expand --depth 1 '{}') >"$work/said" 2>"$work/told"
python3 "$parts/ask.py" read "$work/rows" "$work/said" || { cat "$work/told" >&2; exit 2; }
python3 "$parts/compare.py" "$work/rows"
