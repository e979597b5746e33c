# shellcheck shell=bash
# What is said of the program without running it.

# Which words the program takes: WORD, its further words, what it reads, what it writes, an example.
commands() {
    cat <<'TABLE'
run||a script|the report of a run in which each client steps on a thread of its own|./flr run < examples/race.flr
replay||a script with its schedule|the report of that run|./flr replay < examples/first-path.flr
soak|SEED CLIENTS CALLS|nothing|one line on a script and a run that these numbers make|./flr soak 1 4 20
migrate||a script, of either version|that script in the newest version|./flr migrate < examples/race.flr
random|SEED|a script|the report of its run along a schedule that the numbers of a seed make|./flr random 7 < examples/race.flr
TABLE
}

help() {
    cat <<'TEXT'
usage: ./flr COMMAND [NUMBER ..] < INPUT

What a command reads is standard input. Reports, and the line by which an input is refused, come on standard
output; all else comes on standard error.

TEXT
    commands | awk -F '|' '{
        printf "  %s\n      reads %s; writes %s\n      %s\n", ($2 == "" ? $1 : $1 " " $2), $3, $4, $5
    }'
    cat <<'TEXT'

  examples [NAME ..]
      runs all examples, or these, and shows each outcome beside the line that explains it
  build
      proves and builds the program here
  ship
      puts the program that was built here into dist/, which the repository carries
  compare
      whether that one and the program that was built here are the same bytes
  help, --version

status 0: done; 2: other words; 3: the input is refused, by one line; 4: it can't be read; 5: the output can't be
written; 6: memory ran out. docs/FORMATS.md has the texts, examples/README.md worked inputs.
TEXT
}

version() {
    choose
    echo "sources $(sum_of_sources)"
    case $kind in
    built) echo "program built here, proved" ;;
    shipped) echo "program shipped in dist/, proved: built with $(told kit)" ;;
    unproved) echo "program not built: a run goes through rt try, unproved" ;;
    esac
    if command -v rt >/dev/null 2>&1; then
        echo "kit here $(rt version)"
    else
        echo "kit here: none, rt isn't on the path"
    fi
}

# whether nothing stands behind a word of the launcher's own
alone() {
    [ $# -eq 1 ] && return 0
    say "$1 takes no further word"
    return 2
}

# Whether these are words that the program takes; else it is said at once which are.
are_words() {
    local row more
    row=$(commands | awk -F '|' -v word="$1" '$1 == word')
    if [ -z "$row" ]; then
        say "unknown command: $1"
        commands | awk -F '|' '{ line = line (NR > 1 ? " | " : "") $1 ($2 == "" ? "" : " " $2) }
            END { print "flr: commands: " line " | examples | build | ship | compare | help" }' >&2
        return 2
    fi
    more=$(cut -d '|' -f 2 <<<"$row")
    if [ "$1" = soak ]; then
        are_soak_numbers "${@:2}" && return 0
        say "soak takes three numbers: $more, with SEED below 2147483648, CLIENTS from 1 to 16, CALLS from 1 to 255"
        return 2
    fi
    if [ "$1" = random ]; then
        [ $# -eq 2 ] && is_number "$2" 0 2147483647 && return 0
        say "random takes one number: $more, below 2147483648; its input is standard input: ./flr random 7 < FILE"
        return 2
    fi
    [ $# -eq 1 ] && return 0
    say "$1 takes no further word; its input is standard input: ./flr $1 < FILE"
    return 2
}

are_soak_numbers() {
    [ $# -eq 3 ] && is_number "$1" 0 2147483647 && is_number "$2" 1 16 && is_number "$3" 1 255
}

is_number() { # WORD LEAST MOST
    [[ $1 =~ ^(0|[1-9][0-9]{0,9})$ ]] && [ "$1" -ge "$2" ] && [ "$1" -le "$3" ]
}
