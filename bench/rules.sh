#!/bin/bash
# Times reading the rules of a definition, in processor time: a body of 20,000 rules with repetitions in
# one another, and one of 2,000, read as often as makes the same bytes in all. The time to build the trees
# is taken off. Bytes are those of the text that is spelled with a space between all words.
. "$(dirname "$(readlink -f "${BASH_SOURCE[0]}")")/common.sh"
build rules bare_box byte_buffer symbols tt_data token_bytes tt mbe_rules

# The milliseconds of processor time of a run in this mode; the least of three.
run() {
    local turn least= taken
    for turn in 1 2 3; do
        taken=$( { TIMEFORMAT=%3U; time printf '%s' "$1" | "$program" >"$work/out"; } 2>&1 ) || return 2
        taken=$(( 10#${taken/./} ))
        if [ -z "$least" ] || [ "$taken" -lt "$least" ]; then least=$taken; fi
    done
    echo "$least"
}

for size in 's 2,000' 'l 20,000'; do
    build=$(run "n${size%% *}") || exit 2
    all=$(run "a${size%% *}") || exit 2
    read -r rules bytes <"$work/out"
    awk -v what="${size#* }" -v r="$rules" -v b="$bytes" -v t="$(( all - build ))" \
        'BEGIN { printf "%s rules in a body: %d rules read, %.1f MB/s\n", what, r, b / t / 1000 }'
done
