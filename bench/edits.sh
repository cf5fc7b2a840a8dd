#!/bin/bash
# Times a session over edits, in processor time: the answer after each, beside an answer from scratch, on a text of about
# 1 MB with 12,000 pieces, of which 2,000 are definitions. A letter is typed and taken out again in a function without
# calls, in a call's argument and in a definition that ten calls use, all in the middle of the text; and a line feed in
# front of everything. It tells the most memory of an answer from scratch and of all answers of a session, too.
. "$(dirname "$(readlink -f "${BASH_SOURCE[0]}")")/common.sh"
turns=${1:-40}
[ -n "$program" ] || build edits rustc_lexer bare_box byte_buffer symbols tt_data token_bytes tt fragment_grammar small_grammar bridge mbe_rules mbe_matcher mbe_transcriber mbe expander_model expander_reparse expander_scope expander_session expander_run expander

awk 'BEGIN {
    for (i = 0; i < 2000; i++) {
        called = i >= 1000 && i < 1005 ? 1000 : i
        printf "macro_rules! m%d { ($a:ident $b:tt) => { fn $a() { let x = $b; } } }\n", i
        for (k = 0; k < 2; k++) {
            printf "m%d!{ g%d_%d (one, two) }\n", called, i, k
            printf "/// Adds up, unless there is nothing to add.\n"
            printf "fn f%d_%d(x: &T, y: U) -> U { let y = x + z; if y { a::b(&y, 1)? } else { y.c(d, \"e\") } }\n", i, k
        }
        printf "struct S%d { one: Vec<u8>, two: a::T<U>, three: Option<&'"'"'a str> }\n", i
    }
}' >"$work/text"

# The byte behind these words, where they stand first.
behind() {
    local at
    at=$(grep -boF -m1 "$1" "$work/text" | head -1)
    echo $(( ${at%%:*} + ${#1} ))
}

# The microseconds of processor time of so many turns of a kind, with the memory in kB in the file `memory`.
run() {
    local user system least= turn taken
    { printf '%s %s %s %s\n' "$1" "$2" "$3" "$4"; cat "$work/text"; } >"$work/in"
    for turn in 1 2 3; do
        read -r user system <<<"$( { TIMEFORMAT='%3U %3S'; time /usr/bin/time -o "$work/memory" -f %M "$program" <"$work/in" >"$work/out"; } 2>&1 )"
        taken=$(( 10#${user/./} + 10#${system/./} ))
        if [ -z "$least" ] || [ "$taken" -lt "$least" ]; then least=$taken; fi
    done
    echo "$least"
}

once=$(run e 0 0 +) || exit 2
memory=$(cat "$work/memory")
scratch=$(( ($(run s 4 0 +) - once) * 1000 / 4 ))
awk -v b="$(stat -c %s "$work/text")" -v s=$scratch -v m="$memory" 'BEGIN { printf "%.2f MB: from scratch %.1f ms, %.0f MB of memory\n", b / 1e6, s / 1000, m / 1024 }'
while read -r what at word; do
    all=$(run e "$turns" "$at" "$word") || exit 2
    awk -v what="$what" -v n="$turns" -v t="$(( (all - once) * 1000 ))" -v s=$scratch -v m="$(cat "$work/memory")" -v e="$(cut -d' ' -f2 "$work/out")" \
        'BEGIN { a = t / n; printf "  %-12s %.2f ms an answer, %.1f times as fast, %d pieces expanded, %.0f MB\n", what ":", a / 1000, s / a, e, m / 1024 }'
done <<EDITS
function $(behind 'fn f1000_0(x: &T, y: U) -> U { let y') a
argument $(behind 'm1000!{ g1000_0') a
definition $(behind 'macro_rules! m1000 { ($a:ident $b:tt) => { fn $a() { let x') a
front 0 +
EDITS
