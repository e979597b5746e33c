# shellcheck shell=bash
# Which program runs, and its run.

kind=
program=
# a folder to be cleared away behind the run
left=

# Sets `kind` to built, shipped or unproved, and `program` to the file that runs.
choose() {
    if is_built; then
        kind=built
        program=$built
    elif is_shipped && unpack; then
        kind=shipped
    else
        kind=unproved
        program=
    fi
}

# Unpacks the shipped program if need be, checks its sum, and sets `program`.
unpack() {
    local sum to
    sum=$(told program)
    program=$shipped/flr
    if [ -f "$shipped/flr.gz" ]; then
        to=$shipped/out
        program=$to/flr
        [ ! -x "$program" ] || [ "$(sum_of "$program")" != "$sum" ] || return 0
        if ! mkdir -p "$to" 2>/dev/null || [ ! -w "$to" ]; then
            # the folder can't be written to, so the program lies elsewhere for as long as it runs
            left=$(mktemp -d) || return 1
            trap 'rm -rf "$left"' EXIT
            to=$left
            program=$to/flr
        fi
        gzip -dc "$shipped/flr.gz" >"$to/flr.$$" && chmod +x "$to/flr.$$" && mv "$to/flr.$$" "$program" || return 1
    fi
    if [ ! -x "$program" ] || [ "$(sum_of "$program")" != "$sum" ]; then
        say "what lies in dist/ isn't the program of which dist/flr.txt tells"
        return 1
    fi
}

# Runs the program. Where it refuses what a file has, it is said what may stand there.
run() { # WORDS ..
    local status
    if [ "$kind" = unproved ]; then
        try "$@"
        return
    fi
    if [ "$1" != soak ] && is_whole_file; then
        "$program" "$@"
        status=$?
        [ "$status" -ne 3 ] || explain_file "$1" "$("$program" "$@" </dev/stdin 2>/dev/null | head -n 1)"
        return "$status"
    fi
    # in place of this script, but where something is to be cleared away behind it
    [ -n "$left" ] || exec "$program" "$@"
    "$program" "$@"
}

# whether standard input is a file that is read from its first byte on
is_whole_file() {
    local key value
    [ -f /dev/stdin ] || return 1
    while read -r key value; do
        [ "$key" != pos: ] || [ "$value" = 0 ] || return 1
    done </proc/self/fdinfo/0
}
