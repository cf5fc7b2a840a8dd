#!/bin/bash
# Times calls of macros, in processor time, each at two sizes of which the larger is sixteen times the
# smaller, with as many tokens in all: a muncher that takes one token a step, a table of rules of which the
# last fits, a table of assignments, a long template, a list of any trees, and a pattern with very many
# readings, which no call fits. The time to build the trees and to read the rules is taken off.
. "$(dirname "$(readlink -f "${BASH_SOURCE[0]}")")/common.sh"
build mbe rustc_lexer bare_box byte_buffer symbols tt_data token_bytes tt fragment_grammar test_grammars mbe_rules mbe_matcher mbe_transcriber mbe

# The milliseconds of processor time of a run in this mode; the least of three.
run() {
    local turn least= taken
    for turn in 1 2 3; do
        taken=$( { TIMEFORMAT=%3U; time printf '%s' "$1" | "$program" >"$work/out"; } 2>&1 ) || return 2
        taken=$(( 10#${taken/./} ))
        if [ -z "$least" ] || [ "$taken" -lt "$least" ]; then least=$taken; fi
    done
    echo "$least"
}

for shape in 'm a muncher, steps' 't a table of rules' 'b assignments' 'p a long template' 'r any trees' 'a many readings'; do
    echo "${shape#* }:"
    for size in s l; do
        build=$(run "n${shape%% *}$size") || exit 2
        all=$(run "y${shape%% *}$size") || exit 2
        read -r count tokens <"$work/out"
        awk -v n="$count" -v k="$tokens" -v t="$(( all - build ))" \
            'BEGIN { printf "  %d: %.1f million tokens/s\n", n, (t > 0 ? k / t / 1000 : 0) }'
    done
done
