#!/bin/bash
# bench/explain.sh [SEED..]: random calls of random macros, each with a slip, by one seed after another. Of the calls that
# rustc refuses it prints in how many `filgordd explain` names the place that rustc names, and of which it does not.
# Without a seed it takes 1 to 12. FILGORDD is the program, by default that of bin/filgordd, which is proved and built
# first. VERBOSE=1 shows each call of which the two differ. It needs rustc 1.95 and python3.
# shellcheck source=bench/common.sh
. "$(dirname "$(readlink -f "${BASH_SOURCE[0]}")")/common.sh"
export PYTHONDONTWRITEBYTECODE=1
program=${FILGORDD-}
if [ -z "$program" ]; then
    "$top/bin/filgordd" expand </dev/null || exit 2
    program=$top/crates/filgordd/out/filgordd
fi
command -v rustc >/dev/null || { echo 'explain: there is no rustc' >&2; exit 2; }
rustc --version
[ $# != 0 ] || set -- {1..12}
python3 "$top/bench/explain/places.py" "$program" "$work" "$@"
