# What ./tzrun and tools/install ask of the folder release/, read by them: which program is that of the sources.
#
# release/sums says what the released program was made of: a line `kit` and a line `version`; the lines of crates.txt of
# the crates that the program stands on, and the sha256 of each file of their src, specs and proofs; then the sha256 of
# the program, and last that of all lines above. tools/release writes it. Sums are made once: that the release is that of
# the sources is noted in release/out, and counts as long as no file changed since.
#
# Expects `top`, the folder of the repository, and `say`. Gives `program`.

released=$top/release/tzrun-x86_64-linux
sums=$top/release/sums
same=$top/release/out/same
built=$top/release/out/tz_main

# No file that a release or the program of these sources depends on changed since $1 was written. A folder changes where
# a file in it is made or removed.
unchanged_since() {
    [ -f "$1" ] &&
        [ -z "$(cd -- "$top" && exec find crates.txt release/sums release/tzrun-x86_64-linux crates/*/{src,specs,proofs} -cnewer "$1" -print -quit 2>&1)" ]
}

# Whether release/ is as it was written.
is_whole() {
    [ -f "$released" ] && [ -f "$sums" ] &&
        [ "$(sed '$d' "$sums" | sha256sum)" = "$(sed -n '$s/^sums \([0-9a-f]*\)$/\1  -/p' "$sums")" ] &&
        [ "$(sha256sum <"$released")" = "$(sed -n 's/^program \([0-9a-f]*\)$/\1  -/p' "$sums")" ]
}

sources_in_sums() { grep -v '^kit \|^version \|^program \|^sums ' "$sums"; }

# What the tree has in their place.
sources_of_tree() (
    cd -- "$top" || exit
    names=$(sed -n 's/^crate \([a-z0-9_]*\):.*/\1/p' "$sums")
    for name in $names; do
        printf 'crate %s\n' "$(grep "^$name:" crates.txt)"
    done
    for name in $names; do
        find "crates/$name/src" "crates/$name/specs" "crates/$name/proofs" -type f -print0 2>/dev/null
    done | LC_ALL=C sort -z | xargs -0 sha256sum
)

# Finds the program of these sources, and builds it where there is none. Gives 1 where it can't be had.
find_program() {
    local begun=$same.$$
    program=$released
    unchanged_since "$same" && return
    program=$built
    unchanged_since "$built" && return
    # (where the folder can't be written, each call looks anew)
    mkdir -p -- "${same%/*}" 2>/dev/null && : 2>/dev/null >"$begun"
    if ! is_whole; then
        rm -f -- "$begun"
        say "release/ isn't as it was released, and isn't run: \`git checkout release\` brings it back"
        return 1
    fi
    if [ "$(sources_of_tree)" = "$(sources_in_sums)" ]; then
        program=$released
        mv -f -- "$begun" "$same" 2>/dev/null
        return 0
    fi
    rm -f -- "$begun"
    build_program
}

build_program() {
    say "the sources aren't those of the release: proving and building the program"
    if ! command -v rt >/dev/null; then
        say "\`rt\` isn't on the PATH: see \"To install\" in README.md"
        return 1
    fi
    python3 "$top/tools/build_program" "$built"
}

# The version of the release, and with which kit it was proved and built.
tell_version() {
    local version kit
    version=$(sed -n 's/^version //p' "$sums")
    kit=$(sed -n 's/^kit //p' "$sums")
    if [ "$(sources_of_tree)" != "$(sources_in_sums)" ]; then
        printf 'tzrun %s with other sources, which %s proves and builds\n' "$version" "$kit"
    elif is_whole; then
        printf 'tzrun %s, proved and built with %s\n' "$version" "$kit"
    else
        printf "tzrun %s, whose release/ isn't as it was released, and isn't run\n" "$version"
    fi
}
