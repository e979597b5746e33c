# shellcheck shell=bash
# How a schedule that ends too early can be ended.

# the most tries that are made
most_tries=100

# Says which runs behind the schedule end the run of standard input, a script with a schedule, where this
# client has a command left; and how many steps each client then makes. Each try is one replay.
left_steps() { # CLIENT
    local client=$1 input line first=0 all made runs='' try
    local -A steps=()
    input=$(cat)
    all=$(places_of <<<"$input")
    for ((try = 0; try < most_tries; try++)); do
        line=$(longer "$runs $client*4294967295" <<<"$input" | "$program" replay | head -n 1)
        [[ $line =~ ^'flr: schedule: place '([0-9]+)': client '([0-9]+)' '(finished|'blocked by '([0-9]+))$ ]] || return 0
        first=${BASH_REMATCH[1]}
        made=$((first - 1 - all))
        all=$((first - 1))
        if [ "$made" -gt 0 ]; then
            runs="$runs $client*$made"
            steps[$client]=$((${steps[$client]-0} + made))
        fi
        if [ -n "${BASH_REMATCH[4]}" ]; then
            client=${BASH_REMATCH[4]}
            continue
        fi
        line=$(longer "$runs" <<<"$input" | "$program" replay | head -n 1)
        if [[ $line =~ ^'flr: schedule: client '([0-9]+)' unfinished'$ ]]; then
            client=${BASH_REMATCH[1]}
            continue
        fi
        [ "$line" = "flr-report 1" ] && say_longer "$runs" && return 0
        return 0
    done
}

say_longer() { # RUNS
    local client list=
    for client in $(printf '%s\n' "${!steps[@]}" | sort -n); do
        list="$list${list:+, }client $client ${steps[$client]}"
    done
    sentence steps-left STEPS "$list"
    sentence longer RUNS "${1# }"
}

# prints one of the sentences with its part filled in
sentence() { # KEY PART VALUE
    local said
    said=$(sed -n "s/^$1|//p" "$root/launcher/sentences")
    printf 'flr: %s\n' "${said//"{$2}"/$3}"
}

# how many places the schedule of standard input has
places_of() {
    awk '$1 == "schedule" && !done {
        done = 1
        for (k = 2; k <= NF; k++) { count = split($k, half, "*"); all += count == 2 ? half[2] : 1 }
    } END { printf "%d\n", all }'
}

# standard input with these runs behind its schedule
longer() { # RUNS
    awk -v runs="$1" '$1 == "schedule" && !done { done = 1; print $0 " " runs; next } { print }'
}
