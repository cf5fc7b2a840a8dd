#!/bin/bash
# bench/sources.sh: what definitions of other texts cost. It tells the processor time, the least of five runs, and the
# instructions by callgrind where valgrind is installed, which other work on the machine does not change:
#   - of a whole run of `filgordd expand`, with its most memory: of a short text by itself, behind the macros of std and
#     behind 1,000 definitions of a file;
#   - of each call of a session through the library for C, by bench/sources/steps.c: reading the sources, picking their
#     definitions, the first answer, an answer after an edit of a letter, and the answer after an edit in a source.
# STD is the folder `library` of an installed rust-src, as for bench/survey.sh. FILGORDD is the program, by default that
# of bin/filgordd. FILGORDD_ARCHIVES may name the folders of the archives, as for .ci/bindings. What is not named is
# proved and built first.
# shellcheck source=bench/common.sh
. "$(dirname "$(readlink -f "${BASH_SOURCE[0]}")")/common.sh"
std=${STD-}
if [ -z "$std" ]; then
    for std in "$(rustc --print sysroot 2>/dev/null)/lib/rustlib/src/rust/library" /usr/src/rustc-*/library; do
        [ -d "$std" ] && break
    done
fi
[ -f "$std/core/src/macros/mod.rs" ] || { echo 'sources: there is no source of std; STD can name it' >&2; exit 2; }
program=${FILGORDD-}
if [ -z "$program" ]; then
    "$top/bin/filgordd" expand </dev/null || exit 2
    program=$top/crates/filgordd/out/filgordd
fi
if [ -z "${FILGORDD_ARCHIVES-}" ]; then
    (cd "$top/crates/filgordd_c" && rt lib >&2) || exit 2
    FILGORDD_ARCHIVES=$top/crates/filgordd_c/out:$(dirname "$(rt doc)")/c
fi
IFS=: read -ra folders <<<"$FILGORDD_ARCHIVES"
archives=()
for folder in "${folders[@]}"; do
    for name in filgordd_c libc_c; do
        [ ! -f "$folder/lib$name.a" ] || archives+=("$folder/lib$name.a")
    done
done
has_valgrind=$(command -v valgrind)
words=("-I$top/bindings/c")
[ -n "$has_valgrind" ] || words+=(-DNO_CALLGRIND)
gcc -std=gnu11 -Wall -Wextra -O2 "${words[@]}" "$top/bench/sources/steps.c" "${archives[@]}" "${archives[@]}" -o "$work/steps" || exit 2

# Texts: 2,000 pieces that each call the macro of this name, functions without calls, and definitions of two rules
# with a comment, of which the text calls one.
calls() { awk -v n="$1" -v name="$2" 'BEGIN { for (i = 0; i < n; i++) printf "%s!{ fn g%d (one, two) }\n", name, i }'; }
functions() { awk -v n="$1" 'BEGIN { for (i = 0; i < n; i++) printf "fn f%d(x: &T, y: U) -> U { let z = x + y; a::b(&z, %d)? }\n", i, i }'; }
definitions() {
    awk -v n="$1" -v called="$2" 'BEGIN { for (i = 0; i < n; i++) {
        printf "/// Makes a function of a name and a type, and one more where a second name is given; %06d.\n", i
        printf "#[macro_export]\nmacro_rules! m%d {\n", i
        printf "    (fn $name:ident ($($argument:ident),*)) => { fn $name() -> %s { $(take($argument);)* } };\n", i == 7 ? called : "T"
        printf "    ($name:ident : $kind:ty = $value:expr) => { const $name: $kind = $value; $crate::note($name); };\n}\n"
    } }'
}
cd "$work" || exit 2
printf 'fn f() { println!("a"); vec![1] }\n' >short
calls 2000 m7 >calling
functions 2000 >plain
for n in 1 27 1000 10000; do definitions "$n" T >"defs$n"; done
definitions 27 U >changed
sed 's/m3 /m99 /' defs27 >other
cat defs27 calling >whole

# Millions of instructions of a run.
instructions() {
    [ -z "$has_valgrind" ] && { echo 0; return; }
    valgrind --tool=callgrind --callgrind-out-file=/dev/null "$@" 2>&1 >out | awk '/Collected/ { print $NF / 1e6 }'
}

# A whole run of the program.
whole_run() {
    local user system least= turn taken what=$1
    shift
    for turn in 1 2 3 4 5; do
        read -r user system <<<"$( { TIMEFORMAT='%3U %3S'; time "$@" >out; } 2>&1 )"
        taken=$(( 10#${user/./} + 10#${system/./} ))
        if [ -z "$least" ] || [ "$taken" -lt "$least" ]; then least=$taken; fi
    done
    /usr/bin/time -o memory -f %M "$@" >out
    awk -v what="$what" -v t="$least" -v m="$(cat memory)" -v i="$(instructions "$@")" \
        'BEGIN { printf "  %-44s %6d ms %8.1f MB %10.2f million instructions\n", what, t, m / 1024, i }'
}

# The calls of a script on standard input: the microseconds are the least of five runs.
steps() {
    local turn
    cat >script
    for turn in 1 2 3 4 5; do ./steps <script >"told.$turn" || { cat "told.$turn" >&2; exit 2; }; done
    rm -f dump*
    [ -z "$has_valgrind" ] || valgrind --tool=callgrind --callgrind-out-file=dump ./steps <script >/dev/null 2>&1
    awk -F '\t' 'FILENAME ~ /^dump/ { if (/^desc: Trigger: Client/) n++; else if (/^totals:/) { split($0, w, " "); if (n) i[n] = w[2]; } next }
        { if (FNR == 1) runs++; if (runs == 1 || $2 < t[FNR]) t[FNR] = $2; name[FNR] = $1; tokens[FNR] = $3; anew[FNR] = $4; last = FNR }
        END { for (k = 1; k <= last; k++) printf "  %-44s %9.3f ms %10.3f million instructions%s\n", name[k], t[k] / 1000, i[k] / 1e6,
            tokens[k] == "" ? "" : "; " tokens[k] " tokens, " anew[k] " expanded" }' $(ls dump.* 2>/dev/null | sort -t. -k2n) told.?
}

echo "std: $std"
echo 'A run of filgordd expand:'
whole_run 'a line, by itself' "$program" expand short
whole_run 'a line, with --std' "$program" expand "--std=$std" short
whole_run 'a line, behind 1,000 definitions' "$program" expand --with defs1000 short
whole_run 'a line, behind 10,000 definitions' "$program" expand --with defs10000 short

echo "A session over $(stat -c %s plain) bytes of functions:"
steps <<'STEPS'
o plain #opening
x #the first answer
e 3 3 a #a letter
x #the answer after it
STEPS
echo 'The same behind std:'
steps <<STEPS
o plain #opening
s 1 core $std/core/src/macros/mod.rs #reading core/src/macros/mod.rs
s 2 alloc $std/alloc/src/macros.rs #reading alloc/src/macros.rs
s 3 std $std/std/src/macros.rs #reading std/src/macros.rs
s 4 std $std/std/src/thread/local.rs #reading std/src/thread/local.rs
p 1 2 3 4 #picking
x #the first answer
e 3 3 a #a letter
x #the answer after it
STEPS
for n in 1 1000 10000; do
    echo "The same behind definitions of a source: $n"
    steps <<STEPS
o plain #opening
s 1 - defs$n #reading them
p 1 #picking
x #the first answer
e 3 3 a #a letter
x #the answer after it
STEPS
done
echo '2,000 calls of one of 27 definitions, in the text itself:'
at=$(( $(grep -boF -m1 'fn $name() -> T { $(take' <(sed -n '/m7 /,$p' defs27) | head -1 | cut -d: -f1) + $(grep -boF 'macro_rules! m7 ' defs27 | cut -d: -f1) + 14 ))
steps <<STEPS
o whole #opening
x #the first answer
e $at $((at + 1)) U #a letter in the definition
x #the answer after it
STEPS
echo 'The same, of a source:'
steps <<'STEPS'
o calling #opening
s 1 - defs27 #reading the source
p 1 #picking
x #the first answer
s 1 - changed #reading it with the letter
p 1 #picking
x #the answer after it
s 1 - changed #reading the same again
p 1 #picking
x #the answer after it
STEPS
echo 'The same, where another definition changes:'
steps <<'STEPS'
o calling #opening
s 1 - defs27 #reading the source
p 1 #picking
x #the first answer
s 1 - other #reading it with another name
p 1 #picking
x #the answer after it
STEPS
