#!/usr/bin/env bash
# Runs a copy of ./sparrow over a program, a kit and a machine that are stand-ins: which program it
# runs, when it builds, what it says where that fails, and what it says of each status.
# shellcheck source=tests/lib.sh
. "$(dirname "$0")/lib.sh"
room=$(mktemp -d)
trap 'chmod -R u+w "$room"; rm -rf "$room"' EXIT
chmod 755 "$room"
top_room=$room/top
out=$top_room/crates/sparrow/out
mkdir -p "$top_room/tools" "$room/bin" "$room/fails"
cp sparrow crates.txt "$top_room"
cp tools/program.sh tools/needed tools/sources "$top_room/tools"
sed -n 's/^\([a-z][a-z0-9_]*\):.*/\1/p' crates.txt | while read -r crate; do
    mkdir -p "$top_room/crates/$crate/src"
    touch -d '1 hour ago' "$top_room/crates/$crate/src/lib.rt"
done
touch -d '1 hour ago' "$top_room/crates.txt"

# A program that ends with the status of its first word, or with one more.
stand_in() { # FILE STATUS
    mkdir -p "${1%/*}"
    # shellcheck disable=SC2016
    printf '#!/bin/sh\nexit $((${1:-0} + %s))\n' "$2" >"$1"
    chmod +x "$1"
}
stand_in "$out/sparrow" 0
printf '#!/bin/sh\necho stand-in; touch out/sparrow.stamp\n' >"$room/bin/rt"
printf '#!/bin/sh\necho a false proof; exit 1\n' >"$room/fails/rt"
chmod +x "$room/bin/rt" "$room/fails/rt"
ln -s "$top_room/sparrow" "$room/link"

# The PATH without any rt.
bare=$room/bare
mkdir "$bare"
for command in awk cat cut dirname find getconf grep head mkdir mktemp mv readlink rm sed sh \
    sha256sum sort touch tr uname xargs; do
    ln -s "$(command -v $command)" "$bare/$command"
done

# No row comes to the kit itself.
PATH=$room/bin:$PATH
run() { "$top_room/sparrow" "$@"; }
run_failing() { PATH=$room/fails:$PATH "$top_room/sparrow" "$@"; }
run_bare() { PATH=$bare "$top_room/sparrow" "$@"; }
building='sparrow: proving and building the program; the first time takes over an hour'
below=$top_room/crates/sp_lattice/src

check 'the program is up to date' 1 '' run 1
check 'by a link' 1 '' "$room/link" 1
check 'where the program is' 0 "$out/sparrow"$'\n' run --program
commands='sparrow: the commands are: analyse [--values] [--nodes] [--sharp] FILE..,'
commands+=' dense [--values] [--nodes] [--sharp] FILE.., calls FILE..,'
commands+=' source [--values] [--strict] [--keep DIR] [CPP-OPTION..] FILE.c..,'
commands+=' source --compile-commands FILE [--target NAME] ..; sparrow --help tells more'
check_said 'status 3' "$commands" run 3
for command in source analyse dense calls; do
    for word in --help -h; do
        check "$command $word" 0 "$(run --help)"$'\n' run $command $word
    done
done
# The program that stands in refuses all for a word 2.
printf '#include <a.h>\n' >"$room/text.c"
hint="sparrow: hint: $room/text.c isn't preprocessed; sparrow source does that"
check_said 'a text that is not preprocessed' "$hint" run 2 --values --nodes --sharp "$room/none.c" "$room/text.c"
printf '# 1 "a.c"\n#pragma once\nint x;\n' >"$room/text.c"
check_all() { [ -z "$(run 2 "$room/text.c" 2>&1)" ]; }
check 'a text that is preprocessed' 0 '' check_all
check_said 'status 5' "sparrow: standard output can't be written" run 5
check_said 'status 6' 'sparrow: out of memory' run 6
check_said 'status 7' "sparrow: the words of the command line can't be read" run 7

# When it builds.
touch "$top_room/crates/sp_octagon/src/lib.rt"
check_said 'a crate beside the program is newer' 'sparrow: out of memory' run 6
echo '//' >>"$top_room/crates/sp_octagon/src/lib.rt"
check_said 'a crate beside the program has changed' 'sparrow: out of memory' run 6
touch "$below/lib.rt"
check_said 'a crate below the program is newer' 'sparrow: out of memory' run 6
echo '//' >>"$below/lib.rt"
check_said 'a crate below the program has changed' "$building" run 1
check_said 'it was built' 'sparrow: out of memory' run 6
touch -d '2 hours ago' "$below/old.rt"
check_said 'an old source has come' "$building" run 1
mv "$below/old.rt" "$below/new.rt"
check_said 'a source has another name' "$building" run 1
rm "$below/new.rt"
check_said 'a source has gone' "$building" run 1
sed -i 's/^sp_lattice:/& sp_tree/' "$top_room/crates.txt"
check_said 'its line of crates.txt has changed' "$building" run 1
echo 'sp_new: sp_tree' >>"$top_room/crates.txt"
check_said 'another line has' 'sparrow: out of memory' run 6
echo '//' >>"$below/lib.rt"
check 'a build that fails' 7 '' run_failing 1
check 'it still fails' 7 '' run_failing 1
check_said 'there is no kit' \
    "sparrow: the program isn't built, and the Rattle kit's command rt isn't on the PATH" run_bare 1
check 'and then goes well' 1 '' run 1
echo '//' >>"$below/lib.rt"
# Files of the same moment aren't newer than one another, and no build is that fast.
sleep 0.1
touch "$out/sparrow"
check_said 'rt has built it by itself' 'sparrow: out of memory' run 6

# The release, which ends with one more.
release() {
    stand_in "$top_room/dist/sparrow" 1
    printf 'release 7\nkit a kit\nsources %s\nprogram none\n' "$("$top_room/tools/sources")" \
        >"$top_room/dist/BUILT"
}
check 'no release' 0 $'sparrow, no release\n' run_bare --version
release
check 'the own build comes first' 1 '' run_bare 1
rm -r "$out"
check 'no own build' 2 '' run_bare 1
check_said 'it says nothing else' 'sparrow: out of memory' run_bare 5
check 'where the release is' 0 "$top_room/dist/sparrow"$'\n' run_bare --program
check 'its number' 0 $'sparrow 7\n' run_bare --version
touch "$below/lib.rt"
check 'a source is newer than the release' 2 '' run_bare 1
cp "$below/lib.rt" "$room/kept.rt"
echo '//' >>"$below/lib.rt"
check 'a source has changed since' 7 '' run_bare 1
check 'it is said' 0 $'sparrow 7 with changed sources\n' run_bare --version
stand_in "$out/sparrow" 0
check 'the own build of what has changed' 1 '' run_bare 1
cp "$room/kept.rt" "$below/lib.rt"
check 'the change is taken back' 2 '' run_bare 1

# A checkout that only reads. Root writes everywhere, so there another user runs it.
reader() {
    if [ "$(id -u)" -eq 0 ]; then
        setpriv --reuid=65534 --regid=65534 --clear-groups env "$@"
    else
        env "$@"
    fi
}
rm -r "$out"
chmod -R a+rX,a-w "$top_room"
mkdir -m 777 "$room/cache"
without_cache() { reader -u XDG_CACHE_HOME HOME=/proc/none "$top_room/sparrow" "$@"; }
with_cache() { reader XDG_CACHE_HOME="$room/cache" "$top_room/sparrow" "$@"; }
check_said 'a checkout that only reads' 'sparrow: out of memory' without_cache 5
check_said 'its sum is kept in the cache' 'sparrow: out of memory' with_cache 5
check 'its place' 0 "$("$top_room/tools/sources")"$'\n' \
    cat "$room/cache/sparrow$top_room/sources.sum"
chmod u+w "$top_room/tools/sources"
printf '#!/bin/sh\nexit 1\n' >"$top_room/tools/sources"
check 'it is taken once' 2 '' with_cache 1
check_said 'it can no longer be taken' "sparrow: the sum of the sources can't be taken" \
    without_cache 1

# What the script tells of itself needs no program.
mkdir "$room/alone"
cp sparrow "$room/alone"
alone() { "$room/alone/sparrow" "$@" 2>&1; }
for word in help --help -h; do
    check "$word" 0 "$(./sparrow --help)"$'\n' alone "$word"
done
full() { ./sparrow --help >/dev/full; }
check 'help that is not written' 5 '' full
check_said 'it is said' "sparrow: standard output can't be written" full
check_said 'no program is beside it' "sparrow: there is no program $room/lib/sparrow/sparrow" \
    "$room/alone/sparrow" analyse

# Machines that the program isn't built for.
machine() { # COMMAND TEXT: the command prints the text
    mkdir -p "$room/machine"
    printf '#!/bin/sh\necho "%s"\n' "$2" >"$room/machine/$1"
    chmod +x "$room/machine/$1"
}
on_machine() { PATH=$room/machine:$PATH "$room/old/sparrow" "$@"; }
mkdir "$room/old"
sed "s,/proc/cpuinfo,$room/cpuinfo,; s,^loader=.*,loader=$room/loader," sparrow \
    >"$room/old/sparrow"
touch "$room/loader"
chmod +x "$room/old/sparrow"
stand_in "$room/lib/sparrow/sparrow" 0
flags='fpu cx16 lahf_lm popcnt pni ssse3 sse4_1'
printf 'processor\t: 0\nflags\t\t: %s sse4_2\n' "$flags" >"$room/cpuinfo"
check 'a processor of x86-64-v2' 1 '' on_machine 1
printf 'processor\t: 0\nflags\t\t: %s\n' "$flags" >"$room/cpuinfo"
check 'an older processor' 7 '' on_machine 1
check_said 'what it lacks' \
    'sparrow: the program is built for x86-64-v2, and this processor has no sse4_2' on_machine 1
rm "$room/cpuinfo"
check_said 'a processor that tells nothing' 'sparrow: out of memory' on_machine 6
machine getconf 'glibc 2.31'
check 'an older C library' 7 '' on_machine 1
check_said 'which it is' \
    'sparrow: the program needs the GNU C library 2.34, and this is glibc 2.31' on_machine 1
machine getconf 'glibc 2.34'
check 'the C library that is needed' 1 '' on_machine 1
rm "$room/loader"
for other in 'Linux aarch64' 'Darwin x86_64'; do
    machine uname "$other"
    check "$other" 7 '' on_machine 1
    check_said "$other" \
        "sparrow: the program is built for Linux on x86-64, and this is $other" on_machine 1
done
machine uname 'Linux x86_64'
check_said 'another C library' \
    "sparrow: the program needs the GNU C library, and there is no $room/loader" on_machine 1
check 'help on another machine' 0 "$(./sparrow --help)"$'\n' on_machine --help
finish
