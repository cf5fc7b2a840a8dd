#!/bin/bash
# Times lexing, reading over held tokens and printing, in processor time, and tells the most memory that
# each takes: on about 10 MB of the toolchain's own source, and on a text nested a million deep, which is
# cut as a piece too. Lines of the source with other characters than ASCII stand as comments, since they
# are contracts that have no Rust tokens. Every line ends in a lifetime, a string or a comment in turn,
# so that with the source's own these are about a tenth of the lexemes.
. "$(dirname "$(readlink -f "${BASH_SOURCE[0]}")")/common.sh"
build bridge rustc_lexer bare_box byte_buffer symbols tt_data token_bytes tt bridge

# What the program prints of a text, where each of the four is done so often: lexed, read, printed, cut.
try() {
    { printf '%s' "$1"; cat "$2"; } >"$work/in"
    "$program" <"$work/in" >"$work/out"
}

# The milliseconds of processor time of the same; the least of three.
run() {
    local turn least= user system
    try "$1" "$2" || return 2
    for turn in 1 2 3; do
        read -r user system <<<"$( { TIMEFORMAT='%3U %3S'; time "$program" <"$work/in" >"$work/out"; } 2>&1 )"
        user=$(( 10#${user/./} + 10#${system/./} ))
        if [ -z "$least" ] || [ "$user" -lt "$least" ]; then least=$user; fi
    done
    echo "$least"
}

# The most kilobytes that the same takes.
memory() {
    { printf '%s' "$1"; cat "$2"; } >"$work/in"
    /usr/bin/time -f %M "$program" <"$work/in" 2>&1 >"$work/out" | tail -1
}

# A file as it is read here.
prepared() {
    sed 's|^\(.*[\x80-\xff].*\)$|// \1|' "$1" |
        awk -v quote="'" '{ print $0 (NR % 3 == 0 ? " // so" : NR % 3 == 1 ? " " quote "a" : " \"a b\"") }'
}

kit=$(dirname "$(rt doc)")
while read -r file; do
    [ "$(stat -c %s "$work/text" 2>/dev/null || echo 0)" -lt 10000000 ] || break
    prepared "$file" >"$work/one"
    try 1110 "$work/one" || exit 2
    # a file that has a reading fault is left out
    grep -q ' 0 0$' "$work/out" || cat "$work/one" >>"$work/text"
done < <(find "$kit/rattle" -name '*.rt' | sort)
awk 'BEGIN { for (n = 0; n < 1000000; n++) printf "("; for (n = 0; n < 1000000; n++) printf ")" }' >"$work/deep"

for shape in 'text source' 'deep nested a million deep'; do
    text=$work/${shape%% *}
    lexed=$(run 1000 "$text") && lexed_more=$(run 5000 "$text") || exit 2
    read=$(run 1100 "$text") && read_more=$(run 1500 "$text") || exit 2
    printed=$(run 1110 "$text") && printed_more=$(run 1150 "$text") || exit 2
    read -r lexemes tokens bytes <"$work/out"
    try 1111 "$text" || { echo "${shape#* }: not cut"; exit 1; }
    awk -v what="${shape#* }" -v n="$lexemes" -v m="$tokens" -v b="$bytes" \
        -v l="$(( lexed_more - lexed ))" -v r="$(( read_more - read ))" -v p="$(( printed_more - printed ))" 'BEGIN {
        printf "%s: %d lexemes, %d tokens printed in %d bytes\n", what, n, m, b
        printf "  lexed: %.1f million lexemes/s\n", 4 * n / l / 1000
        printf "  read over held tokens: %.1f million lexemes/s\n", 4 * n / r / 1000
        printf "  printed: %.1f million tokens/s\n", 4 * m / p / 1000
        printf "  all three: %.1f million lexemes/s\n", 4 * n / (l + r + p) / 1000 }'
    awk -v n="$lexemes" -v m="$tokens" -v l="$(memory 1000 "$text")" -v r="$(memory 1100 "$text")" -v p="$(memory 1110 "$text")" 'BEGIN {
        printf "  most memory: %d bytes a lexeme lexed, %d more a token read, %d more a token printed\n", 1024 * l / n, 1024 * (r - l) / m, 1024 * (p - r) / m }'
done
