# What the commands of this folder have in common. A command sets `name` to that of its program and sources this.
# shellcheck shell=bash disable=SC2154
set +o posix
set -u
shopt -s globstar lastpipe nullglob
top=$(cd "$(dirname "$(readlink -f "${BASH_SOURCE[0]}")")/.." && pwd -P)
program=$top/target/bin/$name

# ---- messages

note() { printf '%s: %s\n' "$name" "$*" >&2; }

die() {
    note "$*"
    exit 2
}

misused() {
    note "$*"
    printf "Try '%s --help'.\n" "$name" >&2
    exit 2
}

# print COMMAND..: what it writes, to standard output. Both bash and cat end their messages with the reason.
print() {
    local out said status
    exec {out}>&1
    said=$("$@" 2>&1 >&"$out") && return
    status=$?
    [ "$status" -lt 128 ] || exit "$status"
    die "standard output: ${said##*: }"
}

version() {
    local line
    while IFS= read -r line; do
        [[ $line == 'version = "'* ]] || continue
        line=${line#*'"'}
        printf '%s %s\n' "$name" "${line%'"'*}"
        return
    done <"$top/rlnc-rattle/Cargo.toml"
}

# ---- descriptors, arguments and files

is_open() {
    local copy
    exec {copy}>&"$1" && exec {copy}>&-
}

# A closed descriptor is opened on nothing, as the next pipe would take its number; bash has the script itself for a closed standard error.
# `no_input` is set where standard input was closed: it may not be needed.
descriptors() {
    no_input=
    { is_open 2 && [ ! /dev/fd/2 -ef "$0" ]; } || exec 2>/dev/null
    is_open 1 2>/dev/null || die "standard output is closed"
    is_open 0 2>/dev/null || { no_input=yes; exec </dev/null; }
}

# among WORD WORDS..
among() {
    local word=$1 each
    shift
    for each; do
        [ "$each" != "$word" ] || return 0
    done
    return 1
}

# arguments WORDS..: options, which may stand behind files, go to `options`, each once, and files to `files`. `known` has the options that the
# program takes, `most` says how many files, and the function `help_text` writes the help.
arguments() {
    options=() files=()
    while [ $# -gt 0 ]; do
        case $1 in
        --)
            shift
            files+=("$@")
            break
            ;;
        --help) print help_text && exit 0 ;;
        --version) print version && exit 0 ;;
        - | '' | [!-]*) files+=("$1") ;;
        *)
            among "$1" "${known[@]}" || misused "unknown option '$1'"
            among "$1" "${options[@]}" || options+=("$1")
            ;;
        esac
        shift
    done
    [ "${#files[@]}" -le "$most" ] || misused "a FILE too many: '${files[most]}'"
}

# input [FILE]: FILE as standard input, which stays as it is for - and for none
input() {
    local file=${1--} path said
    case $file in
    '') misused "a FILE without a name" ;;
    -)
        [ -z "$no_input" ] || die "standard input is closed"
        return
        ;;
    /*) path=/.$file ;; # else bash would take /dev/tcp/.. for the network
    *) path=./$file ;;
    esac
    { exec <"$path"; } 2>/dev/null && return
    said=$({ : <"$path"; } 2>&1)
    die "$file: ${said##*: }"
}

# ---- building

# stale FILE CRATE: whether the file that is made from the crate is missing or older than its source: crates.txt, and the code of the crate and
# of those that it names in its line there
stale() {
    local words crate source
    [ -f "$1" ] || return 0
    while read -ra words; do
        [ "${words[0]-}" != "$2:" ] && [ "${words[0]-}" != "$2" ] || break
    done <"$top/crates.txt"
    [ ! "$top/crates.txt" -nt "$1" ] || return 0
    for crate in "$2" "${words[@]:1}"; do
        for source in "$top/crates/$crate"/src/**/*.rt; do
            [ ! "$source" -nt "$1" ] || return 0
        done
    done
    return 1
}

# prove VERB CRATE: rt VERB in the crate's folder, of which each crate that it proves is told as it comes, and the end of the rest where it fails.
# What it builds is in the crate's folder out/ then.
prove() {
    local line crate='' said=() status
    (cd "$top/crates/$2" && exec rt "$1" </dev/null 2>&1) | while IFS= read -r line; do
        said+=("$line")
        case $line in
        'crate '*' checked=0') crate='' ;;
        'crate '*': '*) crate=${line#crate } crate=${crate%%:*} ;;
        logic=proved*)
            [ -z "$crate" ] || note "building: $crate proved"
            crate=''
            ;;
        esac
    done
    status=${PIPESTATUS[0]}
    [ "$status" = 0 ] || printf '%s\n' "${said[@]}" | tail -n 20 >&2
    return "$status"
}

# Builds the program where it has to. crates.txt is what two calls at once lock, and rt holds the lock too: what it started may outlive this.
build() {
    local lock
    stale "$program" "$name" || return 0
    if [ -f "$program" ]; then
        command -v rt >/dev/null || die "it is older than its source, and the tool 'rt' that would build it anew is not to be found"
    else
        command -v rt >/dev/null || die "it is not built, and the tool 'rt' that builds it is not to be found"
    fi
    exec {lock}<"$top/crates.txt"
    if command -v flock >/dev/null && ! flock -n "$lock"; then
        note "waiting for another call, which is building"
        flock "$lock"
    fi
    if stale "$program" "$name"; then
        note "proving and building it; the first time takes minutes"
        # rt run proves and builds it, and runs it once, on no input
        prove run "$name" || die "it could not be built"
        [ -f "$top/crates/$name/out/$name" ] || die "it is not a program"
        mkdir -p "${program%/*}"
        # in one step, as another call may be running it
        cp "$top/crates/$name/out/$name" "$program.$$" && mv "$program.$$" "$program" || die "it could not be put in its place"
    fi
    exec {lock}<&-
}

# ---- running

# The words that run the program, to `words`. It is for x86-64; elsewhere the kit's emulator runs it, with the kit's C library.
command_words() {
    local machine guide tools
    words=("$program")
    machine=$(uname -m)
    [ "$machine" != x86_64 ] || return 0
    guide=$(rt doc) || die "the tool 'rt' is not to be found"
    tools=$(dirname "$guide")/on/$machine/toolchain
    [ -x "$tools/bin/qemu-x86_64" ] || die "the kit has no emulator for this machine"
    words=("$tools/bin/qemu-x86_64" "$tools/lib/ld-linux-x86-64.so.2" --library-path "$tools/lib" "$program")
}

# run ARGUMENTS..: runs the program and exits with the status that it reports, a digit on descriptor 3; where a signal ended it, with the
# shell's number for that. Nothing else is opened for it, and nothing stands between it and its input and output.
run() {
    local words told pid='' caught='' status digit='' signal
    command_words
    # both ends of a pipe
    exec {told}<> <(:)
    # a signal that ends this ends the program too
    for signal in HUP INT TERM; do
        # shellcheck disable=SC2064
        trap "caught=$signal"'; [ -z "$pid" ] || kill -s "$caught" "$pid" 2>/dev/null' "$signal"
    done
    # behind & bash would take the input away, and Ctrl-C but for exec
    (exec "${words[@]}" --status-fd=3 "$@" 3>&"$told" {told}>&-) <&0 &
    pid=$!
    [ -z "$caught" ] || kill -s "$caught" "$pid"
    { wait "$pid"; status=$?; } 2>/dev/null
    if [ -n "$caught" ]; then
        wait "$pid"
        trap - "$caught"
        kill -s "$caught" $$
    fi
    if [ "$status" -gt 128 ]; then
        [ "$status" = 141 ] || note "ended by SIG$(kill -l "$status")"
        exit "$status"
    fi
    read -t 0 -u "$told" && read -r -n 1 -u "$told" digit
    case $digit in
    [012]) exit "$digit" ;;
    3) # nobody reads what it writes: the end that the signal makes, but where that is ignored
        (kill -s PIPE "$BASHPID")
        [ $? != 141 ] || exit 141
        die "standard output: Broken pipe"
        ;;
    esac
    die "it ended without a word on how"
}
