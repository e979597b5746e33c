# shellcheck shell=bash
# Runs that aren't proved.

# Says each second how long it has been going, until it is ended or this script is gone.
tick() { # WHAT
    local begin=$SECONDS
    while sleep 1 && kill -0 "$$" 2>/dev/null; do
        printf '\r\033[Kflr: %s, %d s so far' "$1" "$((SECONDS - begin))" >&2
    done
}

# Has the toolchain compile and run the program without a proof; `out` and `log` in the folder get what it wrote
# and what was said. While standard error is a terminal it is told how far it is.
compile_and_run() { # FOLDER WORDS .. for rt try
    local room=$1 ticker='' status
    shift
    if [ -t 2 ]; then
        tick "compiling, which takes a minute or two, and running" &
        ticker=$!
    fi
    (cd "$crate" && exec rt try "$@") >"$room/out" 2>"$room/log"
    status=$?
    if [ -n "$ticker" ]; then
        kill "$ticker"
        wait "$ticker" 2>/dev/null
        printf '\r\033[K' >&2
    fi
    return "$status"
}

# Runs the program unproved. What it wrote is handed on once it has ended.
try() {
    local status last
    is_ready || return 1
    left=$(mktemp -d) || return 1
    trap 'rm -rf "$left"' EXIT
    say "this run is unproved; ./flr build (about $(minutes) minutes) or bash .ci/run makes the proved program"
    compile_and_run "$left" -- "$@"
    status=$?
    last=$(tail -n 1 "$left/log")
    case $last in
    "run=ended status=$status "*)
        cat "$left/out"
        if [ "$status" -eq 3 ] && is_file; then
            explain_file "$1" "$(head -n 1 "$left/out")"
        fi
        return "$status"
        ;;
    esac
    case $status in
    4) say "the unproved run stopped at a fault: $(last_of_log)" ;;
    6) say "the unproved run was cut off: it wrote more than 1 MiB or took too long; ./flr build makes a program without these limits" ;;
    *) say "the unproved run failed: $(last_of_log)" ;;
    esac
    return 1
}

last_of_log() {
    grep -v '^run=' "$left/log" | tail -n 1
}
