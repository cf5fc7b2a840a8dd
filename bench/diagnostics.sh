#!/bin/bash
# bench/diagnostics.sh [FOLDER..]: what an editor is told by `filgordd lsp` of the files of whole crates, each from its root. It
# prints each diagnostic with its line, and how many files were opened. With no FOLDER it downloads packages of Debian, as
# bench/real.sh does; PACKAGES, STD, FILGORDD and RUSTFMT are those of bench/real.sh too. It needs rustc, rustfmt and python3 3.11.
# shellcheck source=bench/common.sh
. "$(dirname "$(readlink -f "${BASH_SOURCE[0]}")")/common.sh"
# shellcheck source=bench/packages.sh
. "$top/bench/packages.sh"
export PYTHONPATH=$top/bench/survey:$top/bench/agreement PYTHONDONTWRITEBYTECODE=1
crates_in "$@"
program=${FILGORDD-}
if [ -z "$program" ]; then
    "$top/bin/filgordd" expand </dev/null || exit 2
    program=$top/crates/filgordd/out/filgordd
fi
rustc --version
echo "std: ${std##*/unpacked}"
python3 "$top/bench/real/diagnostics.py" "$program" "$std" "${folders[@]}"
