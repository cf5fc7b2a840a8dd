#!/bin/bash
# bench/expand.sh: times the whole way from text to text, in processor time, and tells the most memory that
# it takes, on the toolchain's own sources (lines with other characters than ASCII stand as comments there,
# since they are contracts that have no Rust tokens), on Rust of real make-up, and on texts full of calls
# (`bench/expand/calls.awk`), each of 250 KB and of 16 times as much. A text that takes more than 18 times
# the time of its sixteenth, or more than 60 bytes of memory for each byte of text and output, ends it with
# status 1. A second table has the cost by stage: `cut` is what a session takes over the text with its `!`
# made `.`, so that it has no call, beyond lexing, reading and printing it; `print` prints the trees of the
# output; `expand` is the rest.
. "$(dirname "$(readlink -f "${BASH_SOURCE[0]}")")/common.sh"
build expand rustc_lexer bare_box byte_buffer symbols tt_data token_bytes tt fragment_grammar small_grammar bridge mbe_rules mbe_matcher mbe_transcriber mbe expander_model expander_reparse expander_scope expander_session expander_run expander
small=250000
large=$(( 16 * small ))

# The milliseconds of processor time of a command over the input; the least of three runs.
least() {
    local turn taken least=
    for turn in 1 2 3; do
        taken=$(milliseconds "$@")
        if [ -z "$least" ] || [ "$taken" -lt "$least" ]; then least=$taken; fi
    done
    echo "$least"
}

# The program itself over a text, so many times.
expand() {
    local turn
    for ((turn = 0; turn < $1; turn++)); do "$top/crates/expand/out/expand" <"$2"; done
}

# A part of the way over a text, so many times.
part() { { printf '%s%s' "$1" "$2"; cat "$3"; } >"$work/in"; least stage; }
stage() { "$program" <"$work/in"; }

# The kit's sources that are read without fault, up to so many bytes.
sources() {
    local kit file
    kit=$(dirname "$(rt doc)")
    find "$kit/rattle" -name '*.rt' | sort | while read -r file; do
        [ "$(stat -c %s "$work/all" 2>/dev/null || echo 0)" -lt "$1" ] || break
        sed 's|^\(.*[\x80-\xff].*\)$|// \1|' "$file" >"$work/one"
        { printf 'r1'; cat "$work/one"; } >"$work/in"
        if "$program" <"$work/in" >"$work/out"; then cat "$work/one" >>"$work/all"; fi
    done
    cat "$work/all"
    rm "$work/all"
}

text() {
    case $1 in
        sources) sources "$2" ;;
        *) text_of "$@" ;;
    esac
}

# The first use builds the program.
"$top/bin/expand" </dev/null || exit 2
status=0
printf '%-8s %9s %9s %7s %9s %6s\n' text bytes output MB/s memory times >"$work/first"
printf '%-8s %9s %6s %6s %6s %6s %6s %6s\n' text bytes lex read cut expand print all >"$work/second"
for kind in sources rust munch nested table crate all; do
    last=
    for size in $small $large; do
        turns=$(( size == small ? 9 : 1 ))
        text $kind $size >"$work/$kind"
        tr '!' '.' <"$work/$kind" >"$work/plain"
        memory=$({ /usr/bin/time -f %M "$top/crates/expand/out/expand" <"$work/$kind" 2>&1 >"$work/$kind.out"; } | tail -1)
        bytes=$(wc -c <"$work/$kind") output=$(wc -c <"$work/$kind.out")
        whole=$(least expand $turns "$work/$kind")
        taken=$(part t $turns "$work/$kind") all=$(part e $turns "$work/$kind")
        lex=$(part l $turns "$work/$kind") read=$(part r $turns "$work/$kind")
        cut=$(( $(part e $turns "$work/plain") - $(part p $turns "$work/plain") ))
        print=$(( $(part p $turns "$work/$kind.out") - $(part r $turns "$work/$kind.out") ))
        awk -v kind=$kind -v b="$bytes" -v o="$output" -v m="$memory" -v n=$turns -v t="$whole" -v last="$last" 'BEGIN {
            printf "%-8s %9d %9d %7.1f %9.1f %6s\n", kind, b, o, b * n / t / 1000, 1024 * m / (b + o), last == "" ? "" : sprintf("%.1f", t / n / last)
            exit (last != "" && t / n > 18 * last) || 1024 * m > 60 * (b + o) }' >>"$work/first" || status=1
        awk -v kind=$kind -v b="$bytes" -v n=$turns -v t="$taken" -v l="$lex" -v r="$read" -v c="$cut" -v p="$print" -v a="$all" 'BEGIN {
            printf "%-8s %9d %6.1f %6.1f %6.1f %6.1f %6.1f %6.1f\n", kind, b, (l - t) / n, (r - l) / n, c / n, (a - r - c - p) / n, p / n, (a - t) / n }' >>"$work/second"
        last=$(awk -v t="$whole" -v n=$turns 'BEGIN { print t / n }')
    done
done
echo 'MB of text a second, the most memory in bytes for each byte of text and output, and how many times the time:'
cat "$work/first"
echo 'milliseconds by stage:'
cat "$work/second"
exit $status
