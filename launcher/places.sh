# shellcheck shell=bash
# Where things are, and what the program is made of.

crate=$root/crates/flr
built=$crate/out/flr
shipped=$root/dist
# what says which program is shipped
about=$shipped/flr.txt

say() {
    printf 'flr: %s\n' "$*" >&2
}

# the program's crate and all that it stands on, lowest first, each with those that its line names
crate_lines() {
    awk '{ sub(/#.*/, "") }
        /:/ { split($0, half, ":"); split(half[1], word, " "); deps[word[1]] = half[2] }
        function visit(name, list, count, k, line) {
            if (seen[name]++ || !(name in deps)) return
            count = split(deps[name], list, " ")
            line = name ":"
            for (k = 1; k <= count; k++) { visit(list[k]); line = line " " list[k] }
            print line
        }
        END { visit("flr") }' "$root/crates.txt"
}

crates() {
    crate_lines | cut -d: -f1
}

# the folders and the file that the program and its proofs are made of
sources() {
    local name part
    echo "$root/crates.txt"
    for name in $(crates); do
        for part in src specs proofs; do
            [ ! -d "$root/crates/$name/$part" ] || echo "$root/crates/$name/$part"
        done
    done
}

# the checksum of what compiles: the lines of crates.txt and the code
sum_of_sources() {
    local names
    mapfile -t names < <(crates)
    (
        cd "$root/crates" || exit 1
        crate_lines
        find "${names[@]/%//src}" -type f -name '*.rt' -print0 | LC_ALL=C sort -z | xargs -0 sha256sum
    ) | sha256sum | cut -d ' ' -f 1
}

sum_of() {
    sha256sum "$1" 2>/dev/null | cut -d ' ' -f 1
}

# what stands behind this word in what is said of the shipped program
told() {
    sed -n "s/^$1 //p" "$about" 2>/dev/null | head -n 1
}

# whether the program was built here, and no source is newer
is_built() {
    local places
    [ -x "$built" ] || return 1
    mapfile -t places < <(sources)
    [ -z "$(find "${places[@]}" -type f -newer "$built" -print -quit 2>/dev/null)" ]
}

# whether a program is shipped that was built from these sources, for such a machine
is_shipped() {
    [ -f "$about" ] && [ "$(uname -sm)" = "Linux x86_64" ] && [ -e /lib64/ld-linux-x86-64.so.2 ] &&
        [ "$(told sources)" = "$(sum_of_sources)" ]
}

# whether there is all that an unproved run or a build needs
is_ready() {
    if [ ! -d "$crate/src" ] || [ ! -f "$root/crates.txt" ]; then
        say "the program isn't there: crates/flr or crates.txt is missing"
        return 1
    fi
    if ! command -v rt >/dev/null 2>&1; then
        say "rt, the toolchain's command, isn't on the path"
        return 1
    fi
}

# about how many minutes a build takes from nothing: one for each two thousand lines
minutes() {
    local places
    mapfile -t places < <(sources)
    find "${places[@]}" -type f -exec cat {} + | awk 'END { print int(NR / 2000) + 1 }'
}
