#!/bin/bash
# Times what is done with a tree of two million tokens, ten turns each: walks tree by tree, by flat
# tokens and by a cursor, and comparing it; first over groups in one another, with eight trees in each
# list, then over one list of 666,667 groups. What a mode begins with is taken off. Tells also the time
# of building.
. "$(dirname "$(readlink -f "${BASH_SOURCE[0]}")")/common.sh"
build trees bare_box byte_buffer symbols tt_data token_bytes tt

# The microseconds of a run in this mode; the least of three.
run() {
    local turn least= before taken
    for turn in 1 2 3; do
        before=$EPOCHREALTIME
        printf '%s' "$1" | "$program" >"$work/out" || return 2
        taken=$(( ${EPOCHREALTIME/./} - ${before/./} ))
        if [ -z "$least" ] || [ "$taken" -lt "$least" ]; then least=$taken; fi
    done
    echo "$least"
}

for shape in ' nested' 'l in one list'; do
    build=$(run "n${shape%% *}") || exit 2
    read -r tokens _ <"$work/out"
    awk -v what="${shape#* }" -v n="$tokens" -v t="$build" \
        'BEGIN { printf "%s: %d tokens; built: %.1f million tokens/s\n", what, n, n / t }'
    for mode in 'in tree by tree' 'fn flat tokens' 'cn cursor' 'eE compared'; do
        begun=$(run "${mode:1:1}${shape%% *}") && all=$(run "${mode:0:1}${shape%% *}") || exit 2
        awk -v what="${mode#* }" -v n="$tokens" -v t="$(( all - begun ))" \
            'BEGIN { printf "  %s: %.1f million tokens/s\n", what, 10 * n / t }'
    done
done
