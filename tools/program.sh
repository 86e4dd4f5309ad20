# Sourced by ./sparrow in a checkout: which program it runs. It is the checkout's own build where
# that is of these sources, else the release's in dist/ where that is, else what rt builds now. The
# sources are told by their sum, which tools/sources takes. It is kept, since that takes a while.
# `root`, `give_up` and `check_library` are the script's, and `program` is for it.
# shellcheck shell=sh disable=SC2034,SC2154

own=$root/crates/sparrow/out/sparrow

# Sets `place` to the folder in which sums are kept: that of the own build or, where the checkout
# only reads, one in the user's cache. It is empty where neither takes files.
find_place() {
    cache=${XDG_CACHE_HOME:-${HOME-}/.cache}/sparrow$root
    for place in "${own%/*}" "$cache"; do
        # XDG takes whole paths alone, and without HOME there is no cache.
        case $place in /.cache/* | [!/]*) continue ;; esac
        [ -d "$place" ] || mkdir -p "$place" 2>/dev/null || continue
        [ ! -w "$place" ] || return 0
    done
    place=''
}

# Whether a source has changed, come or gone since the sum was kept. Not every find takes a list of
# names; the other way is slower, and stands where a name of the list is gone, too.
has_changed() {
    # shellcheck disable=SC2185
    changed=$(cd "$root" && exec find -files0-from "$place/sources.list" -maxdepth 0 \
        -cnewer "$place/sources.sum" -print -quit 2>/dev/null) ||
        changed=$(cd "$root" &&
            find crates.txt crates -name out -prune -o -cnewer "$place/sources.sum" -print 2>&1)
    [ -n "$changed" ]
}

# Takes the sum of the sources. It is kept under the time at which that began: what changes from
# then on is newer. Where nothing can be written, it is taken each time.
take_sum() {
    check_library
    new=$place/new.$$
    [ -z "$place" ] ||
        { true >"$new.began" && "$root/tools/sources" --list >"$new.list"; } 2>/dev/null || place=''
    sum=$("$root/tools/sources") || give_up 7 "the sum of the sources can't be taken"
    [ -n "$place" ] || return 0
    {
        echo "$sum" >"$new.sum" && touch -r "$new.began" "$new.sum" &&
            mv -f "$new.list" "$place/sources.list" && mv -f "$new.sum" "$place/sources.sum"
    } 2>/dev/null
    rm -f "$new.began" "$new.list" "$new.sum"
}

# Sets `sum` to the sum of the sources.
find_sum() {
    find_place
    if [ -n "$place" ] && [ -f "$place/sources.sum" ] && ! has_changed; then
        IFS= read -r sum <"$place/sources.sum"
    else
        take_sum
    fi
}

# Keeps that the own build is of these sources.
keep_own() {
    [ -z "$place" ] || { echo "$sum" >"$place/built.sum"; } 2>/dev/null
}

# Whether there is an own build, of these sources. One that rt has made since a sum was kept of it
# is of these where no source is newer.
is_own_current() {
    [ -x "$own" ] || return 1
    # The shells of Linux know -nt.
    # shellcheck disable=SC3013
    if [ -n "$place" ] && [ -f "$place/built.sum" ] && [ ! "$own" -nt "$place/built.sum" ]; then
        IFS= read -r built <"$place/built.sum"
        [ "$built" = "$sum" ]
        return
    fi
    # shellcheck disable=SC2016
    newer=$(cd "$root" && tools/sources --list |
        xargs -0 sh -c 'find "$@" -maxdepth 0 -type f -newer "$0"' "$own")
    [ -z "$newer" ] || return 1
    keep_own
    return 0
}

# Prints what dist/BUILT says of a word.
said_of_release() {
    [ -f "$root/dist/BUILT" ] || return 0
    while read -r word value; do
        [ "$word" != "$1" ] || echo "$value"
    done <"$root/dist/BUILT"
}

# Whether the release's program is of these sources.
is_release_current() {
    [ -x "$root/dist/sparrow" ] && [ "$(said_of_release sources)" = "$sum" ]
}

# Has rt prove and build the program.
build() {
    command -v rt >/dev/null 2>&1 ||
        give_up 7 "the program isn't built, and the Rattle kit's command rt isn't on the PATH"
    echo "sparrow: proving and building the program; the first time takes over an hour" >&2
    log=$(mktemp) || give_up 7 "no temporary file can be made"
    # The program's own status, with which rt run ends, says nothing of the build: its stamp does,
    # which rt writes after one that went well.
    rm -f "$own.stamp"
    (cd "${own%/out/*}" && rt run) >"$log" 2>&1 </dev/null
    if [ ! -x "$own" ] || [ ! -f "$own.stamp" ]; then
        cat "$log" >&2
        rm -f "$log"
        give_up 7 "the program was not built"
    fi
    rm -f "$log"
    keep_own
}

# Sets `program` to the one to run.
find_program() {
    find_sum
    program=$own
    is_own_current && return
    if is_release_current; then program=$root/dist/sparrow; else build; fi
}

# Which release the checkout is, for --version.
print_version() {
    find_sum
    release=$(said_of_release release)
    if [ -z "$release" ]; then
        echo "sparrow, no release"
    elif is_release_current; then
        echo "sparrow $release"
    else
        echo "sparrow $release with changed sources"
    fi
}
