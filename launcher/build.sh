# shellcheck shell=bash
# Proves and builds the program here.

# Proves and builds the program, crate by crate, and says how far it is.
build() {
    local names name done=0 begin
    is_ready || return 1
    if is_built; then
        say "built already"
        return 0
    fi
    if ! mkdir -p "$crate/out" 2>/dev/null || [ ! -w "$crate/out" ]; then
        say "can't write to $crate/out"
        return 1
    fi
    left=$(mktemp -d) || return 1
    trap 'rm -rf "$left"' EXIT
    mapfile -t names < <(crates)
    say "proving and building ${#names[@]} crates, from nothing in about $(minutes) minutes"
    begin=$SECONDS
    : >"$left/begin"
    for name in "${names[@]}"; do
        say_how_far "$done" "${#names[@]}" "$(((SECONDS - begin) / 60))" "$name"
        if ! prove_one "$name"; then
            [ -t 2 ] && printf '\n' >&2
            tail -n 5 "$left/log" >&2
            say "$name isn't proved, so there is no program"
            return 1
        fi
        done=$((done + 1))
    done
    [ -t 2 ] && printf '\r\033[K' >&2
    # as old as the sources that were read: what changed in the meantime counts as newer
    touch -r "$left/begin" "$built"
    say "built in $(((SECONDS - begin + 59) / 60)) minutes"
}

say_how_far() { # DONE ALL MINUTES NAME
    if [ -t 2 ]; then
        printf '\r\033[Kflr: %d of %d crates, %d minutes: %s' "$@" >&2
    else
        say "$1 of $2 crates, $3 minutes: $4"
    fi
}

# Proves a crate. The program is built where it runs: asked without words it says which words it takes.
prove_one() { # NAME
    if [ "$1" = flr ]; then
        (cd "$crate" && rt run -- </dev/null) >"$left/answer" 2>"$left/log"
        grep -q '^flr: words:' "$left/answer" && [ -x "$built" ]
    else
        (cd "$root/crates/$1" && rt lib) >"$left/log" 2>&1
    fi
}
