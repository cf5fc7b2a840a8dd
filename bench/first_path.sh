#!/bin/bash
# Times the program on texts of about 1 MB and 4 MB, made of many definitions and calls of various
# lengths. Ends with status 1 where the longer one takes more than 5 times as long, or 10 seconds.
export LC_ALL=C
top=$(cd "$(dirname "$(readlink -f "${BASH_SOURCE[0]}")")/.." && pwd) || exit 2
work=$(mktemp -d) || exit 2
trap 'rm -rf "$work"' EXIT
rounds=3

# A text of at least so many bytes.
text() {
    awk -v size="$1" '
        function put(line) { print line; done += length(line) + 1 }
        # The word again and again, so many times.
        function run(word, times,   all) { while (times-- > 0) all = all word; return all }
        BEGIN {
            for (i = 0; done < size; i++) {
                k = i % 7
                name = "m" run("_long", i % 5) i
                if (k == 0) put("macro_rules! " name " { ($a:ident $b:tt) => { $b $a } }")
                if (k == 1) put("macro_rules! " name " { ($a:tt, $b:tt) => { fn $a($b) -> U { x += $b; } }; () => { } }")
                if (k == 2) put("#[a] macro_rules! " name " ( (" run("a ", i % 40) "$x:tt) => { (" run("[$x] b ", i % 20) ") } );")
                if (k == 3) put("macro_rules! " name " { (" run("(", i % 30) "$a:tt" run(")", i % 30) ") => { { $a } y } }")
                if (k == 4) put("struct " name " { " run("field: a::T<U>, ", i % 25) "}")
                if (k == 5) put("fn " name "(x: &T) -> U { let y = x + z; y }")
                if (k == 6) put("let " name " = " run("(a ..= b) + ", i % 15) "c;")
                # Calls of what was defined before, long ago or lately.
                for (j = 0; j < i % 4; j++) {
                    pick = (pick * 16807 + 7) % 2147483647
                    at = pick % (i + 1)
                    of = "m" run("_long", at % 5) at
                    k = at % 7
                    if (k == 0) put(of "!{ x { " run("y; ", i % 50) "} }")
                    if (k == 1) put(of "!{ f, (" run("x <<= y ", i % 30) ") }")
                    if (k == 2) put(of "!(" run("a ", at % 40) "+=);")
                    if (k == 3) put(of "!{" run("(", at % 30) "z" run(")", at % 30) "} z;")
                    if (k == 4) put("a::" of "![u];")
                    if (k == 5) put(of "!{}")
                    if (k == 6) put("[" of "; " run("w, ", i % 60) "];")
                }
            }
        }'
}

# The microseconds that the program takes on a file.
once() {
    local before=$EPOCHREALTIME
    "$top/crates/expand/out/expand" <"$1" >"$work/printed" || return 2
    echo $(( ${EPOCHREALTIME/./} - ${before/./} ))
}

# The least of a few rounds.
least() {
    local round taken least=
    for ((round = 0; round < rounds; round++)); do
        taken=$(once "$1") || return 2
        if [ -z "$least" ] || [ "$taken" -lt "$least" ]; then least=$taken; fi
    done
    echo "$least"
}

# Says how long the text took.
report() {
    awk -v bytes="$1" -v taken="$2" 'BEGIN {
        printf "%.2f MB: %.3f s, %.2f MB/s\n", bytes / 1e6, taken / 1e6, bytes / taken }'
}

text 1000000 >"$work/one"
text 4000000 >"$work/four"
# The first use builds the program.
if ! "$top/bin/expand" </dev/null; then
    echo "first_path: there is no program" >&2
    exit 2
fi
one=$(least "$work/one") && four=$(least "$work/four") || {
    echo "first_path: the program ended with a fault" >&2
    exit 2
}
report "$(stat -c %s "$work/one")" "$one"
report "$(stat -c %s "$work/four")" "$four"
awk -v one="$one" -v four="$four" 'BEGIN {
    printf "ratio %.2f\n", four / one
    exit four > 5 * one || four >= 1e7 }'
