#!/usr/bin/env bash
# Runs ./sparrow source on programs over the headers of include/ and compares what it writes, and
# its status, with the file beside each: NAME.expected. The reports are derived from the texts by
# hand; the comments of the programs say why. Then the headers themselves, the options, and what is
# said where there is no report.
. "$(dirname "$0")/lib.sh"
need_gcc
room=$(mktemp -d)
trap 'rm -rf "$room"' EXIT
mkdir "$room/tmp"
export TMPDIR=$room/tmp
unset CPP

# check_source EXPECTED WORD..
check_source() {
    local expected=$1 status bytes
    shift
    status=$(head -n 1 "$expected")
    bytes=$(tail -n +2 "$expected"; printf x)
    check "source $*" "${status#status }" "${bytes%x}" ./sparrow source --format=plain "$@"
}

here=tests/source
check_source examples/source/cut.expected examples/source/cut.c
check_source $here/lengths.expected $here/lengths.c
check_source $here/prices.expected $here/prices.c

# Options with their argument in the same word or the next one, before and behind the files.
check_source $here/calculator.expected -I$here/include -DDEPTH=8 $here/calculator.c $here/stack.c
check_source $here/calculator.expected $here/stack.c -D DEPTH=8 -I $here/include $here/calculator.c
check_source $here/calculator.expected -D DEPTH=9 -U DEPTH -include "$here/eight.h" \
    -isystem $here/include -- $here/calculator.c $here/stack.c
check_source $here/calculator.expected -imacros "$here/eight.h" -iquote $here/include \
    $here/calculator.c $here/stack.c
check_source $here/calculator.expected -DDEPTH=8 -idirafter $here/include \
    $here/calculator.c $here/stack.c
check_source $here/calculator.expected --sharp -DDEPTH=8 -I$here/include \
    $here/calculator.c $here/stack.c
check_source $here/calculator_plain.expected --plain -DDEPTH=8 -I$here/include \
    $here/calculator.c $here/stack.c

# Each header alone, in a unit of its own; then all in one unit, in both orders.
headers() { # c90 or posix
    (cd "include/$1" && find . -name '*.h' ! -path './bits/*' | sed 's,^\./,,' | LC_ALL=C sort)
}
units() { # the header names are read
    local name number=0
    while read -r name; do
        number=$((number + 1))
        printf '#include <%s>\n' "$name" >"$room/$1-$number.c"
    done
}
echo 'int main(void) { return 0; }' >"$room/main.c"
headers c90 | units c90
headers posix | units posix
check 'there are the headers of C90' 0 $'15\n' eval 'headers c90 | grep -c .'
check 'each header of C90' 0 $'0 alarms\n' \
    ./sparrow source --format=plain "$room"/main.c "$room"/c90-*.c
check 'each header of C90 without POSIX' 0 $'0 alarms\n' \
    ./sparrow source --format=plain -D_ANSI_SOURCE "$room"/main.c "$room"/c90-*.c
# A program has at most 64 files.
check 'each header of POSIX' 0 $'0 alarms\n' \
    ./sparrow source --format=plain "$room"/main.c "$room"/posix-*[0-4].c
check 'each other header of POSIX' 0 $'0 alarms\n' \
    ./sparrow source --format=plain "$room"/main.c "$room"/posix-*[5-9].c
{ headers c90 && headers posix; } | sed 's/.*/#include <&>/' >"$room/together.c"
tac "$room/together.c" >"$room/backwards.c"
for order in together backwards; do
    check "all headers $order" 0 $'0 alarms\n' \
        ./sparrow source --format=plain -D_GNU_SOURCE "$room/main.c" "$room/$order.c"
done
check 'what C90 names' 0 $'0 alarms\n' ./sparrow source --format=plain $here/standard.c
check 'what C90 names, without POSIX' 0 $'0 alarms\n' \
    ./sparrow source --format=plain -D_ANSI_SOURCE $here/standard.c
check "the program's own names" 0 $'0 alarms\n' \
    ./sparrow source --format=plain -D_ANSI_SOURCE $here/own_names.c

check 'macros with arguments' 0 $'0 alarms\n' ./sparrow source --format=plain $here/macros.c

# Names with blanks and quotes; a refusal of the whole program names the source.
odd="$room/it's a/b c.c"
mkdir "${odd%/*}"
printf 'int x;\n' >"$odd"
check 'a program without main' 2 "$odd"$':1:1: refused F25: no main\n' \
    ./sparrow source --format=plain -D "A=it's" "$odd"
many() { for _ in $(seq "$1"); do echo "$room/together.c"; done; }
# shellcheck disable=SC2046
check 'the 65th file' 2 "$odd"$':1:1: refused M9: files past 64\n' \
    ./sparrow source --format=plain "$room/main.c" $(many 63) "$odd"
printf 'int main(void) { int a[2]; a[2] = 0; return 0; }\n' >"$room/-a.c"
in_room() { (cd "$room" && "$top/sparrow" "$@"); }
check 'a name that begins with -' 1 $'./-a.c:1:28: overrun: offset [2,2], size [2,2]\n1 alarm\n' \
    in_room source --format=plain -- -a.c
printf 'int main(void) { int a[__SPARROW__];\na[1] = 0; return 0; }\n' >"$room/name.c"
check 'a name that is given' 1 $'name.c:2:1: overrun: offset [1,1], size [1,1]\n1 alarm\n' \
    in_room source --format=plain name.c
check 'comments to the end of the line' 0 $'0 alarms\n' \
    ./sparrow source --format=plain "$here/comments.c"
check 'words that fall away' 0 $'0 alarms\n' ./sparrow source --format=plain "$here/words.c"
printf 'int main(void) { int inline = 0; return inline; }\n' >"$room/inline.c"
check 'a word that is given back' 0 $'0 alarms\n' \
    ./sparrow source --format=plain -Uinline "$room/inline.c"
check 'values' 0 $'0 alarms\nnode 2 '"$room"$'/x.c:1:36: x = [7,7]\n' eval '
    printf "static int x = 7; int main(void) { return x; }" >"$room/x.c"
    ./sparrow source --format=plain --values "$room/x.c"'

# What is kept gives the same report.
check 'what is kept' 0 $'1-main.i\n2-b c.i\n' eval '
    ./sparrow source --keep "$room/kept" "$room/main.c" "$odd" >/dev/null && ls "$room/kept"'
check 'what is kept, analysed' 0 $'0 alarms\n' ./sparrow analyse "$room"/kept/*.i
check 'its first line names the source' 0 "# 0 \"$room/main.c\""$'\n' \
    head -n 1 "$room/kept/1-main.i"
check 'a place that takes no files' 3 '' ./sparrow source --keep "$room/main.c" "$room/main.c"

# Where there is no report.
usage=$'usage: sparrow COMMAND [OPTION] WORD..\n'
check 'no file' 3 "$usage" ./sparrow source -DA
check 'no file behind the end of options' 3 "$usage" ./sparrow source --
check 'an option without its argument' 3 "$usage" ./sparrow source "$room/main.c" -I
check 'a place for what is kept is missing' 3 "$usage" ./sparrow source "$room/main.c" --keep
check 'a missing file' 4 '' ./sparrow source "$room/main.c" "$room/none.c"
check_said 'a missing file' "sparrow: $room/none.c can't be read: no such file" \
    ./sparrow source "$room/none.c"
check_said 'a folder' "sparrow: $room/tmp can't be read: it is a folder" \
    ./sparrow source "$room/tmp"
check_said 'below a file' "sparrow: $room/main.c/a.c can't be read: not a directory" \
    ./sparrow source "$room/main.c/a.c"
if [ "$(id -u)" -ne 0 ]; then
    printf 'int a;\n' >"$room/secret.c"
    chmod 000 "$room/secret.c"
    check_said 'a file of another' "sparrow: $room/secret.c can't be read: permission denied" \
        ./sparrow source "$room/secret.c"
fi
printf '#include "none.h"\n' >"$room/fails.c"
last_said() { ./sparrow source "$room/main.c" "$room/fails.c" 2>&1 >/dev/null | tail -n 2; }
check 'a preprocessor that fails' 3 '' ./sparrow source "$room/main.c" "$room/fails.c"
check 'it is said which file' 0 "sparrow: $room/fails.c was not preprocessed by gcc -E
sparrow: hint: -I tells in which folder none.h is
" last_said
printf '#include <dirent.h>\n#include <linux/limits.h>\n' >"$room/fails.c"
if [ -e /usr/include/linux/limits.h ]; then
    check 'a header of the machine' 0 "sparrow: $room/fails.c was not preprocessed by gcc -E
sparrow: hint: -idirafter /usr/include gives linux/limits.h
" last_said
    check 'the header is found so' 0 $'0 alarms\n' \
        ./sparrow source --format=plain -idirafter /usr/include "$room/main.c" "$room/fails.c"
fi
# A header of Linux that includes others, which are in another folder.
printf '#include <linux/kd.h>\nint main(void) { return KDGKBTYPE == 0; }\n' >"$room/fails.c"
gnu=/usr/include/x86_64-linux-gnu
if [ -e /usr/include/linux/kd.h ] && [ -e $gnu/asm/types.h ]; then
    check 'headers of two folders' 0 "sparrow: $room/fails.c was not preprocessed by gcc -E
sparrow: hint: -idirafter /usr/include -idirafter $gnu gives linux/kd.h and asm/types.h
" last_said
    check 'both are found so' 0 $'0 alarms\n' \
        ./sparrow source --format=plain -idirafter /usr/include -idirafter $gnu "$room/fails.c"
fi
misspelt() { ./sparrow source --no-context "$room/main.c" 2>&1 >/dev/null | tail -n 1; }
check 'an option that is misspelt' 0 "sparrow: hint: source has no option --no-context; sparrow \
--help tells which there are
" misspelt
printf '#error none.h\n' >"$room/fails.c"
hints() { ./sparrow source "$room/main.c" "$room/fails.c" 2>&1 | grep -c hint; }
check 'another error has no hint' 1 $'0\n' hints
without() { CPP='no-such-cpp -E' ./sparrow source "$room/main.c"; }
check 'no preprocessor' 3 '' without
check_said 'no preprocessor' \
    'sparrow: there is no no-such-cpp to preprocess with; CPP names another' without
# The preprocessor may be several words.
printf '#!/bin/sh\nexec gcc -E -DLAST=2 "$@"\n' >"$room/cpp"
chmod +x "$room/cpp"
printf 'int main(void) { int a[SIZE]; a[LAST] = 0; return 0; }\n' >"$room/last.c"
another() { CPP="$room/cpp -DSIZE=2" ./sparrow source --format=plain "$room/last.c"; }
check 'another preprocessor' 1 \
    "$room"$'/last.c:1:28: overrun: offset [2,2], size [2,2]\n1 alarm\n' another
unnamed() { yes | ./sparrow source -; }
check 'a file named - that is missing' 4 '' unnamed
no_folder() { TMPDIR=$room/none ./sparrow source "$room/main.c"; }
check 'no temporary folder' 7 '' no_folder
last_of_folder() { no_folder 2>&1 | tail -n 1; }
check 'it is said what is missing' 0 $'sparrow: no temporary folder can be made\n' last_of_folder
full() { ./sparrow source "$room/main.c" >/dev/full; }
check 'a full device' 5 '' full
check_said 'a full device' "sparrow: standard output can't be written" full
check 'nothing is left behind' 0 '' ls "$TMPDIR"

# A stand-in for an installed program that goes on until it is ended: a signal ends it, and no file is left.
mkdir -p "$room/copy/bin" "$room/copy/lib/sparrow" "$room/copy/share/sparrow"
cp sparrow "$room/copy/bin"
cp -r include source "$room/copy/share/sparrow"
stand_in=$room/copy/lib/sparrow/sparrow
printf '#!/bin/sh\necho $$ >"%s/started"\nexec sleep 300\n' "$room" >"$stand_in"
chmod +x "$stand_in"
for signal in TERM HUP; do
    rm -f "$room/started"
    # Signals that were ignored where the tests began, as HUP is under nohup, would stay so.
    env --default-signal=TERM,HUP "$room/copy/bin/sparrow" source "$room/main.c" >/dev/null 2>&1 &
    script=$!
    for _ in $(seq 600); do [ -s "$room/started" ] && break; sleep 0.1; done
    kill -s $signal $script
    wait $script
    ended=$?
    # What was ended is there until its parent has heard of it, which takes longer on a busy machine.
    for _ in $(seq 600); do kill -0 "$(cat "$room/started")" 2>/dev/null || break; sleep 0.1; done
    check "ended by $signal" 0 "$((128 + $(kill -l $signal)))"$'\n' echo $ended
    check "$signal ends the program" 1 '' kill -0 "$(cat "$room/started")"
    check "$signal leaves nothing behind" 0 '' ls "$TMPDIR"
done
python3 -I tests/source_headers.py || failed=$((failed + 1))
for part in report formats baseline why contexts prepared outside documents; do
    PYTHONDONTWRITEBYTECODE=1 python3 "tests/source_$part.py" || failed=$((failed + 1))
done
bash tests/source_rewriting.sh || failed=$((failed + 1))
bash tests/source_options.sh || failed=$((failed + 1))
finish
