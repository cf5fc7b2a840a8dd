#!/bin/bash
# bench/real.sh [FOLDER..]: whole crates, each from its root. Of the calls of macros in their files it prints which have a
# definition that `filgordd macros` lists, by where that is from, and which have none, by why. Then, of the files
# expanded by `filgordd expand --crate`, how many have no fault, how many calls of these macros are still printed, and how
# many of those that rustfmt accepts have an expansion that it accepts too.
# With no FOLDER it downloads packages of Debian into a folder for the while, and rust-src, by apt-get; PACKAGES names
# others. STD is the folder `library` of an installed rust-src; a downloaded one is used where it is not said. FILGORDD is
# the program, by default that of bin/filgordd, which is proved and built first. FILES, by default 100000, is how many
# files are expanded at most: with 0 none is. RUSTFMT names the rustfmt, best that of the same version as STD: macros of
# std may use what a later one refuses, as `vec!` of 1.63 does. It needs rustc, rustfmt and python3 3.11.
# shellcheck source=bench/common.sh
. "$(dirname "$(readlink -f "${BASH_SOURCE[0]}")")/common.sh"
# shellcheck source=bench/packages.sh
. "$top/bench/packages.sh"
export PYTHONPATH=$top/bench/survey:$top/bench/agreement PYTHONDONTWRITEBYTECODE=1
crates_in "$@"
program=${FILGORDD-}
if [ -z "$program" ]; then
    "$top/bin/filgordd" expand </dev/null || exit 2
    program=$top/crates/filgordd/out/filgordd
fi
rustc --version
echo "std: ${std##*/unpacked}"
python3 "$top/bench/real/kinds.py" "$program" "$std" "${FILES:-100000}" "${folders[@]}"
