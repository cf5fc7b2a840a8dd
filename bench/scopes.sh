#!/bin/bash
# bench/scopes.sh [FOLDER..]: what the scope rules change in real files, each expanded by itself, by `--scope top` and
# by `--scope rust`: the files with a fault, the faults by kind, and the calls whose definition stands in a list around
# them, with those that stay. Then how many of the files that rustfmt accepts have an expansion that it accepts too.
# It prints what stays and what rustfmt refuses to the file whose path stands in the last line.
# With no FOLDER it takes those of Debian's packages (`apt-get install librust-*-dev rust-src`) and of cargo, without
# rustc's own tests, of which many are meant to be wrong. EVERY, by default 1, takes each such file. FILGORDD is the
# program, by default that of bin/filgordd, which is proved and built first. It needs rustfmt and python3 3.11.
# shellcheck source=bench/common.sh
. "$(dirname "$(readlink -f "${BASH_SOURCE[0]}")")/common.sh"
export PYTHONPATH=$top/bench/survey:$top/bench/agreement PYTHONDONTWRITEBYTECODE=1
folders=("$@")
for folder in "$@"; do
    [ -d "$folder" ] || { echo "scopes: there is no folder $folder" >&2; exit 2; }
done
if [ $# = 0 ]; then
    for folder in /usr/share/cargo/registry /usr/src/rustc-* ~/.cargo/registry/src; do
        [ -d "$folder" ] && folders+=("$folder")
    done
fi
command -v rustfmt >/dev/null || { echo 'scopes: there is no rustfmt' >&2; exit 2; }
program=${FILGORDD-}
if [ -z "$program" ]; then
    "$top/bin/filgordd" expand </dev/null || exit 2
    program=$top/crates/filgordd/out/filgordd
fi
python3 "$top/bench/scopes/examine.py" "$program" "${EVERY:-1}" "$work/out" "${folders[@]}" || exit 2
out=$(mktemp) && cp "$work/out" "$out" && echo "differs: $out"
