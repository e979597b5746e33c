# shellcheck shell=bash
# What is said beside the line by which the program refuses an input.

# the most bytes of an input that is looked at again
most_looked_at=4194304

is_file() {
    [ -f /dev/stdin ]
}

# Says on standard error what may stand where the program refused standard input, a file, by this line.
explain_file() { # COMMAND LINE
    [ "$(stat -Lc %s /dev/stdin)" -le "$most_looked_at" ] || return 0
    explain "$1" "$2" </dev/stdin >&2
    if [ "$1" = replay ] && [ -n "$program" ] && [[ $2 =~ ^'flr: schedule: client '([0-9]+)' unfinished'$ ]]; then
        left_steps "${BASH_REMATCH[1]}" </dev/stdin >&2
    fi
}

# Says what may stand where the program refused standard input by this line.
explain() { # COMMAND LINE
    LC_ALL=C awk -v command="$1" -v text="$2" -v sentences="$root/launcher/sentences" -f "$root/launcher/explain.awk"
}
