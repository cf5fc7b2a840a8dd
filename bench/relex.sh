#!/bin/bash
# Times edits of one character at 10,000 places of about 10 MB of Rust source that look random, beside
# lexing the whole text: a letter written over another; a letter put in, and taken out again. The
# source is the toolchain's own.
. "$(dirname "$(readlink -f "${BASH_SOURCE[0]}")")/common.sh"
build relex rustc_lexer
source_text

for mode in o i; do
    { printf '%s' "$mode"; cat "$work/text"; } >"$work/in"
    "$program" <"$work/in" >"$work/out" || exit 2
    awk -v mode="$mode" '{
        what = mode == "o" ? "a letter over another" : "a letter in, and out again"
        printf "%s: %d edits of %d tokens, %.1f us each; the whole %.1f ms; %.0f times as fast\n", what, $3, $1, $4 / 1000, $2 / 1e6, $2 / $4 }' "$work/out"
done
