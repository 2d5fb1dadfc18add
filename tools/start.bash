# Runs a program of Capriccio for the scripts ./capriccio and ./report, which set `top` and source
# this file. tools/try sources it too.
#
# usage: start NAME WORD ..     NAME is the crate of the program, capriccio_cli or report
#
# The program is built/NAME, which `rt ci` leaves as it is. If it is missing, or if a source may have
# changed since its last good build, tools/build_program comes first: it builds what has changed and
# then calls the script again. If CAPRICCIO_PROGRAMS is set, the program is NAME in that folder, and
# nothing is built; nor is it where there are no sources, as where tools/install has put it. A call
# that takes no program (no words, help, --help, --version) builds nothing.
# shellcheck disable=SC2154  # (the caller sets `top`)

MINUTE=60 # seconds between two looks at all sources
# What the programs say if they are called so and nobody looks on. (dev/check_messages holds both to the programs.)
USAGE_OF_CAPRICCIO="usage: capriccio serve SRC, run SRC IMG CRT, build SRC IMG CRT, check SRC IMG CRT, graph SRC, demo N, audit SRC LOG, budget SRC IMG CRT"
USAGE_OF_REPORT="usage: report [--timeline FILE] [--graph FILE] [--log LOG] [--answers first|value] [--from CLOCK] [--to CLOCK] [--request N] [--why] [--help] serve SRC .. | run SRC IMG CRT .."

# Finds a Python: the system's, which starts faster than a version manager's.
find_python() {
    python=/usr/bin/python3
    [ -x "$python" ] || python=$(command -v python3)
    [ -x "$python" ]
}

# Ends with a sentence and the status of a program that can't be had.
fail() {
    echo "capriccio: $1" >&2
    exit 70
}

# Prints a source file that was touched since the program's last good build, if there is one. The time
# of the last change of a file's state counts: no copy or checkout sets it back. Whether the content
# has changed is for tools/build_program to say. Code is looked at at each call; definitions and
# proofs, which are most of the files and no part of the program, at most once a minute.
touched_file() {
    local now looked=0 found
    printf -v now '%(%s)T' -1
    { read -r looked <"$program.looked"; } 2>/dev/null
    if [[ $looked =~ ^[0-9]+$ ]] && ((looked <= now && now < looked + MINUTE)); then
        find "$top/crates.txt" "$top"/crates/*/src -cnewer "$built" -print -quit 2>/dev/null
        return
    fi
    found=$(find "$top/crates.txt" "$top"/crates/*/{src,specs,proofs} -cnewer "$built" -print -quit 2>/dev/null)
    if [ "$found" ]; then
        echo "$found"
    else
        { echo "$now" >"$program.looked"; } 2>/dev/null
    fi
}

# Has the program built, and the script called again behind that.
build_first() {
    find_python || fail "python3 is missing, which the Rattle toolchain and the build need"
    exec "$python" "$top/tools/build_program" "$name" --then "$top/$script" "$@"
}

# Whether the words ask for the help or the version, which take no program.
asks_for_help() {
    local word
    case ${1:-} in
        help | --version) return 0 ;;
    esac
    for word; do
        case $word in
            -h | --help) return 0 ;;
        esac
    done
    return 1
}

# Answers a call that takes no program: on a terminal with the help or the version, and else as the
# program does, whose usage line is given here if there is none. The report's help needs no terminal.
answer_without_program() {
    if [ "$explains" ] && { [ "$looks_on" ] || [ $# -gt 0 ]; }; then
        exec "$python" -I -S "$top/tools/help" "$name" "$@"
    fi
    [ -x "$program" ] && exec "$program" "$@"
    if [ "$name" = report ]; then
        echo "$USAGE_OF_REPORT" >&2
        exit 2
    fi
    echo "$USAGE_OF_CAPRICCIO" >&2
    exit 1
}

start() {
    local name=$1 script=capriccio program built explains="" looks_on="" touched=-
    [ "$name" = report ] && script=report
    shift
    program=${CAPRICCIO_PROGRAMS:-$top/built}/$name
    built=$program.made
    # Where somebody looks on, what is refused is explained; the report explains always. Else
    # nothing is added. (Python doesn't start where standard input is a folder.)
    if [ -t 2 ] || [ -n "${CAPRICCIO_EXPLAIN:-}" ]; then
        looks_on=yes
    fi
    if [ "$looks_on" ] || [ "$name" = report ]; then
        [ ! -d /dev/stdin ] && find_python && explains=yes
    fi
    if [ $# -eq 0 ] || asks_for_help "$@"; then
        answer_without_program "$@"
    fi
    if [ -n "${CAPRICCIO_PROGRAMS:-}" ] || [ ! -d "$top/crates" ]; then
        [ -x "$program" ] || fail "there is no program $program"
    elif [ -n "${CAPRICCIO_IS_BUILT:-}" ]; then
        unset CAPRICCIO_IS_BUILT
    elif [ ! -x "$program" ] || [ ! -e "$built" ]; then
        build_first "$@"
    elif [ "$explains" ]; then
        # (tools/explain starts meanwhile, and reads what was found before it starts the program)
        exec {touched}< <(touched_file)
    elif [ -n "$(touched_file)" ]; then
        build_first "$@"
    fi
    if [ "$explains" ]; then
        exec "$python" -I -S "$top/tools/explain" "$touched" "$0" "$name" "$program" "$@"
    fi
    exec "$program" "$@"
}
