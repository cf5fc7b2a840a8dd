# shellcheck shell=bash
# For the commands beside it: `run_on_text` and `run_with_words` run a program and end with its status. The first run,
# and the first after a source changed, proves and builds the program before.
# Bytes that the input and the output of a run before the proof may have.
limit=1048576
# What the program is run with.
words=()
top=$(cd "$(dirname "$(readlink -f "${BASH_SOURCE[0]}")")/.." && pwd) || exit 2
version=$(<"$top/VERSION") || exit 2

usage() {
    echo "usage: bin/$command [--quick] $arguments"
}

help() {
    usage
    cat <<END

$about

  --quick      run the program now, before any proof, if it is not built yet. This compiles it
               anew, for one or two minutes each time. Input and output may have 1 MiB each
  --help, -h   print this
  --version    print the version

The first run without --quick proves and builds the program: one to two hours on 4 cores. It
shows how far it is. After an interruption the next run goes on from there. Later runs start
at once.

Status: $statuses
END
}

fail() {
    echo "$command: $*" >&2
    exit 2
}

misused() {
    echo "$command: $*" >&2
    usage >&2
    exit 2
}

# A word for a message. One with bytes that are not printable ASCII is quoted, so that none of them reaches a terminal.
shown() {
    local LC_ALL=C
    if [[ $1 == *[!\ -~]* ]]; then
        printf '%q' "$1"
    else
        printf '%s' "$1"
    fi
}

# Reads the arguments: sets `quick`, and opens the file as standard input.
read_arguments() {
    local file=- files=0
    quick=
    while [ $# != 0 ]; do
        case $1 in
            --quick) quick=yes ;;
            -h | --help) help && exit 0 ;;
            --version) echo "$command (Filgordd) $version" && exit 0 ;;
            --) shift && break ;;
            -?*) misused "there is no option $(shown "$1")" ;;
            *) file=$1 files=$((files + 1)) ;;
        esac
        shift
    done
    [ $# = 0 ] || file=$1
    [ $((files + $#)) -le 1 ] || misused 'more than one file'
    [ "$file" = - ] || open_file "$file"
}

check_file() {
    [ -e "$1" ] || fail "there is no file $(shown "$1")"
    [ ! -d "$1" ] || fail "$(shown "$1") is a folder"
    [ -r "$1" ] || fail "$(shown "$1") cannot be read"
}

open_file() {
    check_file "$1"
    exec <"$1" || exit 2
}

# Reads the words for a program that has its own options: sets `quick`, and keeps the others in `words`.
read_words() {
    quick=
    while [ $# != 0 ]; do
        case $1 in
            --quick) quick=yes ;;
            --std) find_library && words+=("--std=$library") ;;
            --cfg-host) take_host ;;
            --) words+=("$@") && return ;;
            *) words+=("$1") ;;
        esac
        shift
    done
}

# Takes the options that rustc sets on this machine.
take_host() {
    local option found
    found=$(rustc --print cfg) || fail '--cfg-host asks rustc, which is not there'
    while IFS= read -r option; do
        words+=("--cfg=$option")
    done <<<"$found"
}

# Finds the source of the installed library, beside rustc or where Debian has it: sets `library`.
find_library() {
    local beside folder
    beside=$(rustc --print sysroot 2>/dev/null)
    while IFS= read -r folder; do
        library=$folder
        [ ! -f "$library/core/src/macros/mod.rs" ] || return 0
    done < <(echo "${beside:-/usr}/lib/rustlib/src/rust/library" && printf '%s\n' /usr/src/rustc-*/library | sort -rV)
    fail "the source of the library is not installed: 'rustup component add rust-src' does that, or on Debian the package rust-src"
}

# Whether the words ask for help or the version, which takes no text.
ask_for_help() {
    local word
    for word in "${words[@]}"; do
        case $word in
            -h | --help | -V | --version) return 0 ;;
            --) return 1 ;;
        esac
    done
    return 1
}

# Refuses words that the program refuses, before anything is compiled or proved for them. Sets `file_at` to the index
# of the file among `words`, if they name one.
check_words() {
    local i=1
    file_at= root=
    find_root
    case ${words[0]-} in
        expand | explain | lsp | macros | replay | trace | view) ;;
        '') misused 'there is no command' ;;
        *) misused "there is no command $(shown "${words[0]}")" ;;
    esac
    while [ $i -lt ${#words[@]} ]; do
        case ${words[i]} in
            --) check_rest $((i + 1)); return ;;
            --grammar=* | --edition=* | --scope=* | --depth=* | --most-calls=* | --most-tokens=* | --std=* | --with=* | --cfg=* | --crate=* | --extern=* | --diagnostics=* | --to=*) check_value "${words[i]%%=*}" "${words[i]#*=}" ;;
            --grammar | --edition | --scope | --depth | --most-calls | --most-tokens | --with | --cfg | --crate | --extern | --diagnostics | --to)
                [ $((i + 1)) -lt ${#words[@]} ] || misused "${words[i]} has no value"
                check_value "${words[i]}" "${words[i + 1]}"
                i=$((i + 1))
                ;;
            --layout | --files) [ "${words[0]}" = expand ] || misused "${words[0]} has no option ${words[i]}" ;;
            --json) [[ " expand explain replay " == *" ${words[0]} "* ]] || misused "${words[0]} has no option --json" ;;
            -?*) misused "there is no option $(shown "${words[i]}")" ;;
            *) take_file $i ;;
        esac
        i=$((i + 1))
    done
    [ "${words[0]}" != lsp ] || [ -z "$quick" ] || fail 'lsp takes the built program: leave --quick out'
}

# The words from this index on are no options.
check_rest() {
    local i
    for ((i = $1; i < ${#words[@]}; i++)); do
        take_file "$i"
    done
}

# Sets `root` where the words name the root of a crate, whose files may be more than one.
find_root() {
    local word
    for word in "${words[@]}"; do
        case $word in
            --) return ;;
            --crate | --crate=*) root=yes ;;
        esac
    done
    [ "${words[0]-}" != macros ] || [ -n "$root" ] || misused 'macros takes --crate'
}

# Takes the word at this index as the file.
take_file() {
    [ "${words[0]}" != lsp ] || misused 'lsp takes no file'
    if [ -n "$root" ]; then
        check_file "${words[$1]}"
        return
    fi
    [ -z "$file_at" ] || misused 'more than one file'
    file_at=$1
    split_place "${words[$1]}"
    [ "$path" = - ] || check_file "$path"
}

# Sets `path` to the file that a word names, and `place` to the line and column behind it, which `expand`, `explain`
# and `trace` take; `trace` takes a line alone too.
split_place() {
    path=$1 place=
    case ${words[0]} in expand | explain | trace) ;; *) return 0 ;; esac
    [[ $1 =~ ^(.*)(:[0-9]+:[0-9]+)$ ]] || [[ ${words[0]} = trace && $1 =~ ^(.*)(:[0-9]+)$ ]] || return 0
    path=${BASH_REMATCH[1]} place=${BASH_REMATCH[2]}
}

# Refuses a value that the option does not take.
check_value() {
    case $1=$2 in
        --std=*) check_library "$2" && return ;;
        --with=*) check_other "$2" && return ;;
        --cfg=*) return ;;
        --crate=*) check_root "$2" && return ;;
        --extern=?*@?*=?*) check_other "$2" && return ;;
        --grammar=rust | --grammar=small | --edition=2015 | --edition=2018 | --edition=2021 | --edition=2024) return ;;
        --scope=rust | --scope=top) return ;;
        --diagnostics=all | --diagnostics=likely | --diagnostics=none) [ "${words[0]}" != lsp ] || return ;;
        --depth=*) [[ $2 =~ ^\+?0*([0-9]{1,3})$ ]] && [ "${BASH_REMATCH[1]}" -le 255 ] && return ;;
        --to=*) [ "${words[0]}" = trace ] && [[ $2 =~ ^\+?0*[0-9]{1,19}$ ]] && return ;;
        --most-calls=* | --most-tokens=*) [[ $2 =~ ^\+?0*[0-9]{1,19}$ ]] && return ;;
    esac
    misused "$1 does not take $(shown "$2")"
}

# A folder of the library, which an unproved run cannot be lent.
check_library() {
    [ -d "$1" ] || fail "there is no folder $(shown "$1")"
    [ -z "$quick" ] || fail '--std takes the built program: leave --quick out'
}

# The root of a crate, whose files an unproved run cannot be lent.
check_root() {
    case ${words[0]} in expand | macros) ;; *) misused "${words[0]} has no option --crate" ;; esac
    check_file "$1"
    [ -z "$quick" ] || fail '--crate takes the built program: leave --quick out'
}

# The file of definitions of `FILE` or `ROOT@EDITION=FILE`.
other_file() {
    local front=${1%%=*}
    if [[ $1 == *=* && $front == *@* ]]; then
        printf '%s' "${1#*=}"
    else
        printf '%s' "$1"
    fi
}

# A file of definitions, which may stand behind the crate that they are of.
check_other() {
    local file front=${1%%=*}
    file=$(other_file "$1")
    if [ "$file" != "$1" ]; then
        case ${front#*@} in 2015 | 2018 | 2021 | 2024) ;; *) misused "there is no edition $(shown "${front#*@}")" ;; esac
    fi
    check_file "$file"
}

# Lends a file to an unproved run, which sees no other files, as a copy under its name, which is then in `name`; fails
# where the toolchain takes no copy of that name.
lend_copy() {
    local file
    file=$(readlink -f "$1")
    name=${1##*/}
    case $name in program | stdin | stdout | stderr | .* | *[!a-zA-Z0-9._+-]* | -*) return 1 ;; esac
    [ -f "$file" ] || return 1
    [[ " ${lent[*]-} " != *" $name="* ]] || return 1
    [ "$(wc -c <"$file")" -le "$limit" ] || fail "$(shown "$1") has more than 1 MiB: leave --quick out"
    lent+=(--data "$name=$file")
}

# Lends the files of definitions that the words name.
lend_others() {
    local i value file name
    for i in "${!words[@]}"; do
        case ${words[i]} in
            --) return ;;
            --with=*) value=${words[i]#--with=} ;;
            *) [ "$i" != 0 ] && [ "${words[i - 1]}" = --with ] || continue; value=${words[i]} ;;
        esac
        file=$(other_file "$value")
        lend_copy "$file" || fail "$(shown "$file") cannot be lent to an unproved run: leave --quick out"
        words[i]=${words[i]%"$file"}$name
    done
}

# Lends the files that the words name. The text is standard input where it cannot be lent by its name; else sets `text_lent`.
lend_files() {
    local LC_ALL=C name
    lent=() text_lent=
    lend_others
    [ -n "${file_at-}" ] || return 0
    split_place "${words[file_at]}"
    [ "$path" != - ] || return 0
    if lend_copy "$path"; then
        words[file_at]=$name$place text_lent=yes
    else
        exec <"$path" && words[file_at]=-$place
    fi
}

# Sets `crates`: these and those that they need, in the order in which the toolchain proves them.
list_crates() {
    local -A below=() listed=()
    local name needs
    while IFS=: read -r name needs; do
        case $name in '' | '#'*) ;; *) below[${name%% *}]=$needs ;; esac
    done <"$top/crates.txt"
    crates=()
    for name in "$@"; do
        list_crate "$name"
    done
}

# Puts a crate into that list, behind those that it needs. Crates of the toolchain have no line.
list_crate() {
    local name
    [ -n "${below[$1]+line}" ] || return 0
    [ -z "${listed[$1]-}" ] || return 0
    listed[$1]=yes
    for name in ${below[$1]}; do
        list_crate "$name"
    done
    crates+=("$1")
}

# Which of the program's crates this is, from 1.
number_of() {
    local i
    for i in "${!crates[@]}"; do
        [ "${crates[i]}" = "$1" ] && break
    done
    echo $((i + 1))
}

is_built() {
    local name sources=("$top/crates.txt")
    [ -x "$binary" ] && [ -e "$built" ] || return 1
    for name in "${crates[@]}"; do
        sources+=("$top/crates/$name"/{src,specs,proofs})
    done
    [ -z "$(find "${sources[@]}" -newer "$built" -print -quit 2>/dev/null)" ]
}

need_rt() {
    command -v rt >/dev/null || fail 'there is no rt on PATH: put the bin folder of the Rattle kit there'
}

# On a terminal, how many of the crates are proved, over the line that was there.
draw() {
    local width=24 full empty
    printf -v full '%*s' $((width * (at > 0 ? at - 1 : 0) / ${#crates[@]})) ''
    printf -v empty '%*s' $((width - ${#full})) ''
    printf '\r\033[K%.79s' "$command: [${full// /#}${empty// /.}] $1" >&2
}

# On a terminal in the bar, elsewhere in a line.
tell() {
    if [ -t 2 ]; then
        draw "$1"
    else
        echo "$command: proving: $1" >&2
    fi
}

clear_bar() {
    [ ! -t 2 ] || printf '\r\033[K' >&2
}

# Copies what the toolchain says to the log, and shows how far it is: on a terminal a bar, elsewhere a line a crate.
show() {
    local line name=
    tell "reading the sources of ${#crates[@]} crates"
    while IFS= read -r line; do
        printf '%s\n' "$line" >>"$log"
        case $line in
            'rt: chose '*' for '*)
                name=${line##* }
                at=$(number_of "$name")
                tell "crate $at of ${#crates[@]}: $name"
                ;;
            'so far: '*' of '* | 'checked '*', '*' of '*)
                [[ $line =~ [0-9]+\ of\ [0-9]+ ]]
                [ ! -t 2 ] || draw "crate $at of ${#crates[@]}: $name, ${BASH_REMATCH[0]-} functions"
                ;;
        esac
    done
    clear_bar
}

# Ends the proof where the run is interrupted.
interrupted() {
    trap '' INT TERM HUP
    kill "$prover" 2>/dev/null
    clear_bar
    echo "$command: stopped; what is proved is kept, and the next run goes on from there" >&2
    exit 130
}

build() {
    local status
    need_rt
    echo "$command: proving and building the program, one to two hours on 4 cores from nothing" >&2
    mkdir -p "$crate/out" && touch "$built.next" && : >"$log" || exit 2
    at=0
    # It is run once, on an empty text, whose status is 0.
    exec 3< <(cd "$crate" && exec rt run -- "${first_words[@]}" </dev/null 2>&1)
    prover=$!
    trap interrupted INT TERM HUP
    show <&3
    wait "$prover"
    status=$?
    trap - INT TERM HUP
    exec 3<&-
    if [ "$status" != 0 ] || [ ! -x "$binary" ]; then
        fail "the program was not built: $log says why"
    fi
    mv "$built.next" "$built"
}

# Runs the program without a proof, and ends with its status.
run_unproved() {
    local last status
    need_rt
    lend_files
    room=$(mktemp -d) || exit 2
    trap 'rm -rf "$room"' EXIT
    trap 'exit 130' INT TERM HUP
    echo "$command: unproved run, one or two minutes; bin/$command without --quick proves the program first" >&2
    if [ -n "$text_lent" ]; then
        : >"$room/in"
    else
        head -c $((limit + 1)) >"$room/in"
    fi
    [ "$(wc -c <"$room/in")" -le "$limit" ] || fail "the input has more than 1 MiB: leave --quick out"
    (cd "$crate" && exec rt try "${lent[@]}" -- "${words[@]}" <"$room/in" >"$room/out" 2>"$room/told")
    last=$(tail -n 1 "$room/told")
    case $last in
        'run=ended status='*) ;;
        run=no-answer*) fail 'no answer within 60 seconds and 1 MiB of output: leave --quick out' ;;
        *) cat "$room/told" >&2 && fail 'the program was not run, as the toolchain says above' ;;
    esac
    status=${last#run=ended status=}
    cat "$room/out"
    # What the toolchain says of the run comes behind what the program says.
    sed '/^\(interpreter\|checked\): /,$d' "$room/told" >&2
    exit "${status%% *}"
}

# Sets where a program is, and what it is made of.
set_program() {
    program=$1
    crate=$top/crates/$program
    binary=$crate/out/$program
    # As old as the sources of which the program was built.
    built=$crate/out/built
    # All that the toolchain says while it proves and builds.
    log=$crate/out/log
    list_crates "$program"
}

# Runs the program with `words`.
run_program() {
    ulimit -s hard 2>/dev/null
    if ! is_built; then
        [ -z "$quick" ] || run_unproved
        build
    fi
    exec "$binary" "${words[@]}"
}

# Runs a command's program on a text: `run_on_text COMMAND PROGRAM ABOUT STATUSES ARGUMENT..`, where the help says
# what the command is about and its statuses. The program gets `words`, and the text on standard input.
run_on_text() {
    command=$1 about=$3 statuses=$4 arguments='[--] [FILE]'
    local name=$2
    shift 4
    first_words=("${words[@]}")
    read_arguments "$@"
    set_program "$name"
    run_program
}

# Runs a program that has options of its own, and the command's name: `run_with_words PROGRAM ABOUT STATUSES WORD..`.
run_with_words() {
    command=$1 about=$2 statuses=$3 arguments='COMMAND [OPTION].. [FILE]'
    shift 3
    first_words=(expand)
    read_words "$@"
    set_program "$command"
    if ! is_built; then
        if ask_for_help; then
            [ -n "$quick" ] || { help && exit 0; }
            exec </dev/null
        else
            check_words
        fi
    fi
    run_program
}
