#!/bin/bash
# Times the answers of both grammars, in processor time, on the trees of 100 KB and of 1.6 MB: an
# expression, a type whose arguments have arguments, a pattern with many alternatives, and casts whose
# types go on with arguments that break off, so that they are read again as operands. Ten million bytes
# are asked about in all; the time to build the trees is taken off.
. "$(dirname "$(readlink -f "${BASH_SOURCE[0]}")")/common.sh"
build grammar bare_box byte_buffer symbols tt_data token_bytes tt fragment_grammar small_grammar rust_grammar

# The milliseconds of processor time of a run in this mode; the least of three.
run() {
    local turn least= taken
    for turn in 1 2 3; do
        taken=$( { TIMEFORMAT=%3U; time printf '%s' "$1" | "$program" >"$work/out"; } 2>&1 ) || return 2
        taken=$(( 10#${taken/./} ))
        if [ -z "$least" ] || [ "$taken" -lt "$least" ]; then least=$taken; fi
    done
    echo "$least"
}

for grammar in 's the small grammar' 'r that of Rust'; do
    for shape in 'e an expression' 't a type' 'p a pattern' 'f casts that break off'; do
        for size in 's 100 KB' 'l 1.6 MB'; do
            words=${shape%% *}${size%% *}${grammar%% *}
            build=$(run "n$words") || exit 2
            all=$(run "a$words") || exit 2
            read -r steps <"$work/out"
            awk -v what="${grammar#* }, ${shape#* }, ${size#* }" -v n="$steps" -v t="$(( all - build ))" \
                'BEGIN { printf "%s: %d steps, %.1f million steps/s\n", what, n, n / t / 1000 }'
        done
    done
done
