#!/bin/bash
# Times `tokenize` on 10 MB of Rust of real make-up and on 10 MB of the toolchain's own source, ten
# turns, beside a plain pass over the characters, and on texts of 1 MB that invite a lexer to look far
# ahead. Ends with status 1 where one of the latter takes more than a second for one turn. All times are
# of the processor, so other work beside it matters less.
. "$(dirname "$(readlink -f "${BASH_SOURCE[0]}")")/common.sh"
build lexer rustc_lexer
source_text
awk -v bytes=10000000 -f "$top/bench/lexer/rust.awk" >"$work/rust"

# The milliseconds of ten turns over a text, those of reading it taken off; the least of seven runs.
TIMEFORMAT=%3U
turns() {
    local mode=$1 text=$2 run least= taken
    { printf '%s' "$mode"; cat "$text"; } >"$work/in"
    for run in 1 2 3 4 5 6 7; do
        taken=$({ time "$program" <"$work/in" >"$work/out"; } 2>&1) || return 2
        taken=$((10#${taken/./}))
        if [ -z "$least" ] || [ "$taken" -lt "$least" ]; then least=$taken; fi
    done
    echo "$least"
}

net() {
    local all none
    all=$(turns "$1" "$2") && met=$(cat "$work/out") && none=$(turns n "$2") || return 2
    echo "$(( all - none )) $met"
}

for what in 'rust of real make-up' 'text of the toolchain'; do
    text=$work/${what%% *}
    read -r tokens met <<<"$(net t "$text")"
    read -r chars _ <<<"$(net c "$text")"
    echo "Rust ${what#* }:"
    awk -v bytes="$(stat -c %s "$text")" -v t="$tokens" -v c="$chars" -v met="$met" 'BEGIN {
        printf "  tokenize: %.3f s a turn, %.0f MB/s, %.1f million tokens/s\n", t / 1e4, bytes / t / 100, met / t / 1000
        printf "  chars: %.3f s a turn, %.0f MB/s\n", c / 1e4, bytes / c / 100
        printf "  ratio %.2f\n", t / c }'
done

status=0
for word in '/*' '"' 'r###' "'" '#' '1.' 'b' '\\"'; do
    awk -v word="$word" 'BEGIN { while (done < 1000000) { printf "%s", word; done += length(word) } }' >"$work/bad"
    read -r taken met <<<"$(net t "$work/bad")"
    awk -v word="$word" -v t="$taken" 'BEGIN { printf "1 MB of %s: %.3f s a turn\n", word, t / 1e4; exit t > 1e4 }' || status=1
done
exit $status
