# For the scripts beside it, which read it: a folder for the while, a program that is proved and built
# over crates of this repository, and Rust source to read.
export LC_ALL=C
top=$(cd "$(dirname "$(readlink -f "${BASH_SOURCE[0]}")")/.." && pwd) || exit 2
work=$(mktemp -d) || exit 2
trap 'rm -rf "$work"' EXIT

# The program `bench/FOLDER/main.rt.in`, over these crates and all that they need, in a workspace of its
# own: its path is then in `program`.
build() {
    local folder=$1 name="$1_speed" crate
    shift
    mkdir -p "$work/root/crates/$name/src" || exit 2
    for crate in $("$top/bin/crates" "$@"); do
        mkdir "$work/root/crates/$crate"
        cp -r "$top/crates/$crate"/{src,specs,proofs} "$work/root/crates/$crate" || exit 2
        # what was proved before need not be proved again
        if [ -d "$top/crates/$crate/out/rlib" ]; then
            mkdir "$work/root/crates/$crate/out" && cp -r "$top/crates/$crate/out/rlib" "$work/root/crates/$crate/out" || exit 2
        fi
        grep "^$crate:" "$top/crates.txt" >>"$work/root/crates.txt" || exit 2
    done
    cp "$top/bench/$folder/main.rt.in" "$work/root/crates/$name/src/main.rt" || exit 2
    echo "$name: $*" >>"$work/root/crates.txt"
    echo "$folder: proving and building the program, which takes some minutes" >&2
    (cd "$work/root/crates/$name" && printf 'n' | rt run >"$work/log" 2>&1)
    program=$work/root/crates/$name/out/$name
    [ -x "$program" ] || { cat "$work/log" >&2; exit 2; }
}

# Ten million bytes of the toolchain's own source, less what is cut off at the end, in `$work/text`.
source_text() {
    local kit
    kit=$(dirname "$(rt doc)")
    while [ "$(stat -c %s "$work/source" 2>/dev/null || echo 0)" -lt 10000000 ]; do
        find "$kit" -name '*.rt' | sort | xargs cat >>"$work/source"
    done
    head -c 10000000 "$work/source" | iconv -f utf-8 -t utf-8 -c >"$work/text"
}

# A text of at least so many bytes, always the same: Rust without calls, or full of calls of a kind.
text_of() {
    case $1 in
        rust) awk -v bytes="$2" -f "$top/bench/lexer/rust.awk" ;;
        *) awk -v bytes="$2" -v kind="$1" -f "$top/bench/expand/calls.awk" ;;
    esac
}

# The milliseconds of processor time of a command; what it writes is then in `$work/out` and `$work/told`.
milliseconds() {
    local user system
    read -r user system <<<"$( { TIMEFORMAT='%3U %3S'; time "$@" >"$work/out" 2>"$work/told"; } 2>&1 )"
    echo $(( 10#${user/./} + 10#${system/./} ))
}
