# shellcheck shell=bash disable=SC2154,SC2034
# What ./workbench, ./try, ./hithwelor, tools/program and the installed command share: where the proved program is, and whether
# it was built of the sources that are here. Sourced, with the top of the repository in `top` and the script's name in `script`.
program=$top/crates/bn_main/out/bn_main

# The digests of all sources, in the form of `sha256sum`, a line a file. A source is told by its name, so that what an
# editor leaves beside it is none; a new source counts from when one that is listed names it.
digest_sources() {
    (
        cd -- "$top" >/dev/null || exit 1
        find crates.txt HANDLES crates/*/src crates/*/specs crates/*/proofs -type f \
            \( -name '[!.#]*.rt' -o -name '[!.#]*.antt' -o -name crates.txt -o -name HANDLES \) -print0 2>/dev/null |
            LC_ALL=C sort -z | xargs -0 sha256sum --
    )
}

# The list of the digests that a file in a crate's out/ was built of, and of the file itself.
list_beside() {
    printf '%s\n' "${1%/*}/sources.sha256"
}

# Whether a file was built of the sources that stand: all have the digests of the list beside it. Times of files say
# nothing of it, so a copied or unpacked tree is as well proved as the one that it was copied from.
is_of_sources() {
    local list
    list=$(list_beside "$1")
    [ -f "$1" ] && [ -f "$list" ] && (cd -- "$top" >/dev/null && sha256sum --status --strict --check -- "$list") 2>/dev/null
}

# Notes beside a file that it was built of sources with the digests of a list that was made before the build began.
# Where one of them has changed since, nothing is noted, and what was noted before goes.
note_sources() {
    local list
    list=$(list_beside "$1")
    rm -f -- "$list"
    [ -f "$1" ] && (
        cd -- "$top" >/dev/null && sha256sum --status --strict --check -- "$2" 2>/dev/null &&
            { cat -- "$2" && sha256sum -- "${1#"$top"/}"; } >"$list.$$" && mv -f -- "$list.$$" "$list"
    )
}

# Whether the proved program is here, and that of the sources that stand.
is_current() {
    [ -x "$program" ] && is_of_sources "$program"
}

# What keeps the module from answering: sets `fault`, or leaves it empty.
find_fault_of_module() {
    local version differs
    fault=
    if [ ! -f "$top/bin/hithwelor" ]; then
        fault="bin/hithwelor isn't here"
    elif ! command -v node >/dev/null; then
        fault="node isn't on the path"
    elif ! version=$(node --version 2>/dev/null) || ! [[ $version =~ ^v([0-9]+)\. ]]; then
        fault="node doesn't tell its version"
    elif ((BASH_REMATCH[1] < 18)); then
        fault="node is $version, and the module needs 18 or later"
    elif ! differs=$(cd -- "$top" >/dev/null && grep -E '^[0-9a-f]{64}  [^ ]+$' page/sources.sha256 |
        LC_ALL=C sha256sum --check --quiet 2>/dev/null); then
        differs=${differs%%: FAILED*}
        fault="${differs:-page/sources.sha256} isn't as it was when bin/hithwelor was built"
    fi
}

say() {
    printf '%s: %s\n' "$script" "$*" >&2
}
