#!/bin/bash
# What calls through C cost: bench/bindings/turns.c opens, expands and closes a text again and again, or types a letter
# and takes it out again, and each time expands the text. First it tells the instructions of each call, by callgrind where
# valgrind is installed, which other work on the machine does not change. Then it compares with the program of bench/edits,
# which does the same in Rattle with the same input and has to tell the same, also in processor time, the least of five
# runs. With CALLS_ALONE=1 it leaves that out. FILGORDD_ARCHIVES may name the folders of the archives, as for
# .ci/bindings: then none is built before.
. "$(dirname "$(readlink -f "${BASH_SOURCE[0]}")")/common.sh"
turns=${1:-2000}
if [ -z "${FILGORDD_ARCHIVES-}" ]; then
    (cd "$top/crates/filgordd_c" && rt lib >&2) || exit 2
    FILGORDD_ARCHIVES=$top/crates/filgordd_c/out:$(dirname "$(rt doc)")/c
fi
IFS=: read -ra folders <<<"$FILGORDD_ARCHIVES"
archives=()
for folder in "${folders[@]}"; do
    for name in filgordd_c libc_c; do
        [ ! -f "$folder/lib$name.a" ] || archives+=("$folder/lib$name.a")
    done
done
gcc -std=c11 -Wall -Wextra -O2 "-I$top/bindings/c" "$top/bench/bindings/turns.c" "${archives[@]}" "${archives[@]}" -o "$work/turns" || exit 2
echo "the archive has $(stat -c %s "${archives[0]}") bytes"

# The input of so many turns of a kind: in the call's argument of the row of the README.
input() {
    printf '%s %s 53 a\n%s' "$1" "$2" 'macro_rules! p { ($a:ident $b:tt) => { $b $a } } p!{ x y }' >"$work/in"
}

# How many instructions a program takes for so many turns, or one of its functions if that is named.
instructions() {
    input "$1" "$2"
    valgrind --tool=callgrind --callgrind-out-file=/dev/null ${4:+--toggle-collect="$4"} "$3" <"$work/in" 2>&1 >"$work/out" |
        awk '/Collected/ { print $NF }'
}

# What a call of a kind of turn takes.
call() {
    local none many
    none=$(instructions "$1" 0 "$work/turns" "filgordd_raw_$2")
    many=$(instructions "$1" "$turns" "$work/turns" "filgordd_raw_$2")
    echo "  $3: $(( (many - none) / turns )) instructions"
}
if command -v valgrind >/dev/null; then
    call s open 'opening'
    call s expand 'the first answer'
    call s close 'closing'
    call e edit 'an edit'
    call e expand 'the answer after it'
    call e counts 'its counts'
fi
[ -z "${CALLS_ALONE-}" ] || exit 0
[ -n "$program" ] || build edits rustc_lexer bare_box byte_buffer symbols tt_data token_bytes tt fragment_grammar small_grammar bridge mbe_rules mbe_matcher mbe_transcriber mbe expander_model expander_reparse expander_scope expander_session expander_run expander

# The microseconds of processor time of them.
time_of() {
    local user system least= turn taken
    input "$1" "$2"
    for turn in 1 2 3 4 5; do
        read -r user system <<<"$( { TIMEFORMAT='%3U %3S'; time "$3" <"$work/in" >"$work/out"; } 2>&1 )"
        taken=$(( (10#${user/./} + 10#${system/./}) * 1000 ))
        if [ -z "$least" ] || [ "$taken" -lt "$least" ]; then least=$taken; fi
    done
    echo "$least"
}

while read -r kind what; do
    told=()
    for one in "$program" "$work/turns"; do
        many=$((turns * 10))
        time=$(( ($(time_of "$kind" "$many" "$one") - $(time_of "$kind" 0 "$one")) ))
        told+=("$(cat "$work/out") $time")
        if command -v valgrind >/dev/null; then
            told+=($(( ($(instructions "$kind" "$turns" "$one") - $(instructions "$kind" 0 "$one")) / turns )))
        else
            told+=(0)
        fi
    done
    awk -v what="$what" -v n="$many" -v r="${told[0]##* }" -v ri="${told[1]}" -v c="${told[2]##* }" -v ci="${told[3]}" \
        'BEGIN { printf "  %s: Rattle %d instructions, %.2f us; C %d instructions, %.2f us; C takes %+d instructions, %+.2f us\n", what, ri, r / n, ci, c / n, ci - ri, (c - r) / n }'
    [ "${told[0]% *}" = "${told[2]% *}" ] || { echo "the two do not tell the same: ${told[0]% *}, ${told[2]% *}"; exit 2; }
done <<KINDS
s opening, an answer, closing
e an edit and its answer
KINDS
