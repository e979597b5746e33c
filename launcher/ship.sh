# shellcheck shell=bash
# The program that the repository carries.

# Puts the program that was built here into dist/, with what it was built from.
ship() {
    local size small
    is_ready || return 1
    if ! is_built; then
        say "there is no program here that is newer than its sources: bash .ci/run or ./flr build makes it"
        return 1
    fi
    mkdir -p "$shipped" || return 1
    rm -f "$shipped/flr" "$shipped/flr.gz"
    gzip -9nc "$built" >"$shipped/flr.gz" || return 1
    size=$(stat -c %s "$built")
    small=$(stat -c %s "$shipped/flr.gz")
    if [ $((2 * small)) -gt "$size" ]; then
        # hardly smaller, so it is carried as it is
        rm "$shipped/flr.gz"
        cp "$built" "$shipped/flr" && chmod 755 "$shipped/flr" || return 1
    fi
    printf 'sources %s\nkit %s\nprogram %s\n' "$(sum_of_sources)" "$(rt version)" "$(sum_of "$built")" >"$about" || return 1
    say "dist/ has the program that was built here: $size bytes, $small compressed"
}

# Whether the program that was built here and the shipped one are the same bytes.
compare() {
    local kit
    is_ready || return 1
    kit=$(rt version)
    if [ ! -f "$about" ]; then
        say "no program is shipped: ./flr ship does it. The one that was built here has the checksum $(sum_of "$built")"
    elif [ "$(told kit)" != "$kit" ]; then
        say "the shipped program isn't compared: it was built with $(told kit), and rt here is of $kit"
    elif [ "$(told sources)" != "$(sum_of_sources)" ]; then
        renew "the shipped program was built from other sources"
    elif ! is_built; then
        say "there is no program here that is newer than its sources, so nothing is compared"
        return 1
    elif ! unpack || ! cmp -s "$program" "$built"; then
        renew "the shipped program isn't the one that was built here"
    else
        say "the shipped program and the one that was built here are the same $(stat -c %s "$built") bytes"
    fi
}

renew() { # WHAT
    say "$1: renew it by ./flr ship, and commit dist/"
    return 1
}
