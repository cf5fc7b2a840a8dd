#!/bin/bash
# bench/layout.sh FOLDER..: expands all files of Rust in these folders, but those over 400 kB, and lays out what is printed.
# A lexer of its own, in Python, says whether the lines have the printed tokens; status 1 where some have not. It prints
# how many texts stay as printed, the share of lines over 120 columns, and the milliseconds a MB, of the processor.
# EVERY, by default 1, takes each such file. FILGORDD is the program that expands, by default that of bin/filgordd.
# It needs python3.
# shellcheck source=bench/common.sh
. "$(dirname "$(readlink -f "${BASH_SOURCE[0]}")")/common.sh"
[ $# != 0 ] || { echo 'usage: bench/layout.sh FOLDER..' >&2; exit 2; }
expander=${FILGORDD-}
if [ -z "$expander" ]; then
    "$top/bin/filgordd" expand </dev/null || exit 2
    expander=$top/crates/filgordd/out/filgordd
fi
build layout code_layout

mkdir "$work/printed"
find "$@" -name '*.rs' -size -400k | sort | awk -v every="${EVERY:-1}" 'NR % every == 0' >"$work/files"
n=0
while IFS= read -r file; do
    n=$((n + 1))
    timeout 60 "$expander" expand "$file" >"$work/printed/$n" 2>/dev/null
done <"$work/files"
find "$work/printed" -size 0 -delete
export PYTHONDONTWRITEBYTECODE=1
python3 "$top/bench/layout/compare.py" "$program" "$work/printed"
