# shellcheck shell=bash
# Runs the examples and shows their outcomes.

# Runs these examples, or all, and shows of each the sentence that explains it, the lines of its report to
# look at, and whether the report is the one that lies beside it.
examples() { # NAME ..
    local name wrong=0
    left=$(mktemp -d) || return 1
    trap 'rm -rf "$left"' EXIT
    are_examples "$@" || return 2
    mapfile -t names < <(if [ $# -gt 0 ]; then printf '%s\n' "$@"; else all_examples; fi)
    choose
    if [ "$kind" = unproved ]; then
        run_all_unproved || return 1
    else
        for name in "${names[@]}"; do
            "$program" "$(command_of "$name")" <"$root/examples/$name.flr" >"$left/$name"
        done
    fi
    for name in "${names[@]}"; do
        show_example "$name" || wrong=$((wrong + 1))
    done
    say "${#names[@]} examples, $wrong of them with another outcome"
    [ "$wrong" -eq 0 ]
}

all_examples() {
    (cd "$root/examples" && printf '%s\n' *.flr) | sed 's/\.flr$//' | sort -n
}

are_examples() {
    local name
    for name in "$@"; do
        [ ! -f "$root/examples/$name.flr" ] || continue
        say "there is no example $name; there are $(all_examples | paste -sd ' ')"
        return 1
    done
}

# an example without a schedule is run on threads
command_of() { # NAME
    if grep -q '^schedule' "$root/examples/$1.flr"; then echo replay; else echo run; fi
}

# compiles once, and runs all of them
run_all_unproved() {
    local name
    is_ready || return 1
    say "these runs are unproved; ./flr build (about $(minutes) minutes) or bash .ci/run makes the proved program"
    mkdir "$left/cases"
    for name in "${names[@]}"; do
        cp "$root/examples/$name.flr" "$left/cases/$name"
        command_of "$name" >"$left/cases/$name.args"
    done
    compile_and_run "$left" --cases "$left/cases" || { [ ! -s "$left/out" ] && say "the unproved run failed: $(last_of_log)" && return 1; }
    awk -v to="$left/" '/^== / { file = to $2; printf "" > file; next } file { print > file }' "$left/out"
}

# the sentence and the lines to look at in examples/README.md, each behind a letter for which of them it is
said_of() { # NAME
    awk -v name="$1" '
        index($0, "**" name "**: ") == 1 { inside = 1; print "S" substr($0, length(name) + 7); next }
        inside && /^    / { print "L" substr($0, 5); next }
        inside && /^\*\*|^#/ { exit }
        inside && NF { print "S" $0 }' "$root/examples/README.md"
}

show_example() { # NAME
    local line wanted=$root/examples/$1.stdout bad=0
    echo "$1: $(command_of "$1")"
    while IFS= read -r line; do
        case $line in
        S*) echo "  ${line#S}" ;;
        L*)
            if grep -qxF -- "${line#L}" "$left/$1"; then
                echo "    ${line#L}"
            else
                echo "    not there: ${line#L}"
                bad=1
            fi
            ;;
        esac
    done < <(said_of "$1")
    if [ -f "$wanted" ]; then
        if cmp -s "$wanted" "$left/$1"; then
            echo "  the report is examples/$1.stdout"
        else
            echo "  the report isn't examples/$1.stdout:"
            diff "$wanted" "$left/$1" | sed 's/^/    /'
            bad=1
        fi
    else
        grep -E '^flr-report|^call|^schedule|^flr:' "$left/$1" | sed 's/^/    /'
    fi
    return "$bad"
}
