#!/bin/bash
# bench/trace.sh [FOLDER..]: the steps of the calls in whole crates, as rustc tells them by -Ztrace-macros and as
# `filgordd trace --json` does. Of rustc's steps it prints for how many the expander has a definition, and in how many of
# these it tells the same: what is expanded, and to what. Each file is traced by itself, behind the files whose macros it
# sees of its crate, and std.
# FOLDER, PACKAGES, STD and FILGORDD are as in bench/real.sh. VERBOSE=1 shows each step that differs. It needs rustc 1.95,
# which here stops before types, and python3 3.11.
# shellcheck source=bench/common.sh
. "$(dirname "$(readlink -f "${BASH_SOURCE[0]}")")/common.sh"
# shellcheck source=bench/packages.sh
. "$top/bench/packages.sh"
export PYTHONPATH=$top/bench/real:$top/bench/survey:$top/bench/agreement PYTHONDONTWRITEBYTECODE=1
crates_in "$@"
program=${FILGORDD-}
if [ -z "$program" ]; then
    "$top/bin/filgordd" expand </dev/null || exit 2
    program=$top/crates/filgordd/out/filgordd
fi
rustc --version
python3 "$top/bench/trace/steps.py" "$program" "$std" "${folders[@]}"
