#!/usr/bin/env bash
# What conditions leave out, beside rustc: bench/conditions.sh PROGRAM [SEED]. PROGRAM is a built `filgordd`; rustc 1.88 or
# later is on the machine.
set -eu
exec python3 "$(dirname "$0")/conditions/compare.py" "$@"
