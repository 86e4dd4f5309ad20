#!/usr/bin/env bash
# Options of ./sparrow source for whole programs: compile_commands.json, and what a terminal is
# told.
. "$(dirname "$0")/lib.sh"
need_gcc
room=$(mktemp -d)
trap 'rm -rf "$room"' EXIT
unset CPP

mkdir -p "$room/tree/src" "$room/tree/include" "$room/build"
printf 'extern int twice(int);\n' >"$room/tree/include/twice.h"
printf '#include <twice.h>\nint twice(int a) { return FACTOR * a; }\n' >"$room/tree/src/twice.c"
printf '#include "twice.h"\nint main(void) { int a[SIZE]; a[twice(2)] = 1; return 0; }\n' \
    >"$room/tree/src/main.c"
printf 'int main(void) { return other; }\n' >"$room/tree/src/other.c"

# entry FILE WORD..: one entry of a database, of the target that its output tells.
entry() {
    local file=$1 target=$2
    shift 2
    printf '{"directory": "%s/build", "file": "../tree/src/%s", "output": "%s",\n' \
        "$room" "$file" "CMakeFiles/$target.dir/$file.o"
    printf '"command": "cc -O2 -Wall %s -o x.o -c ../tree/src/%s"}' "$*" "$file"
}
database=$room/compile_commands.json
{
    echo '['
    entry main.c tool -I../tree/include '-DSIZE=4' && echo ,
    entry twice.c tool '-I ../tree/include -D FACTOR=2' && echo ,
    entry main.c wide -I../tree/include '-DSIZE=5' && echo ,
    entry twice.c wide -isystem ../tree/include '-DFACTOR=2' && echo ,
    entry other.c other && echo ']'
} >"$database"
tool=$'overrun: offset [4,4], size [4,4]\n1 alarm\n'
source_of() { ./sparrow source --format=plain --compile-commands "$@"; }
check 'a target, each file by options of its own' 1 "$room/tree/src/main.c:2:28: $tool" \
    source_of "$database" --target tool
check 'another target' 0 $'0 alarms\n' source_of "$database" --target wide
check 'options behind those of the database' 0 $'0 alarms\n' \
    source_of "$database" --target tool -UFACTOR -DFACTOR=1
targets='--target NAME takes one of other, tool, wide'
check_said 'a file of two targets' \
    "sparrow: $room/tree/src/main.c is compiled more than once: $targets" \
    source_of "$database"
other="$room/tree/src/other.c:1:25: refused F8: undeclared name: other"
check 'a file of the database' 2 "$other"$'\n' \
    source_of "$database" "$room/tree/src/other.c"
check_said 'no such target' "sparrow: $database has no target none: $targets" \
    source_of "$database" --target none
check_said 'a file that it does not have' "sparrow: $database has no entry for $room/a.c" \
    source_of "$database" "$room/a.c"
check 'no database' 4 '' source_of "$room/none.json"
bad() { printf '%s' "$1" >"$room/bad.json" && source_of "$room/bad.json"; }
check_said 'no JSON' "sparrow: $room/bad.json is no JSON" bad '['
check_said 'no list' "sparrow: $room/bad.json is no list of commands" bad '{}'
check_said 'no command' "sparrow: $room/bad.json has an entry that is no command" bad '[1]'
check_said 'an entry without a file' \
    "sparrow: $room/bad.json has an entry without directory, file or command" \
    bad '[{"file": "a.c"}]'
check_said 'a quote that is open' "sparrow: $room/bad.json has a command that isn't closed" \
    bad '[{"directory": "/", "file": "a.c", "command": "cc \"a"}]'
check 'a target without a database' 3 $'usage: sparrow COMMAND [OPTION] WORD..\n' \
    ./sparrow source --target tool "$room/tree/src/main.c"
# What is missing is told by its name. Each row: what is said, and the words.
while IFS=';' read -r said words; do
    # shellcheck disable=SC2086
    check_said "source $words" "sparrow: $said; sparrow --help tells more" ./sparrow source $words
done <<'ROWS'
no file is given;
no file is given;-DA --
no file is given;--values
--keep needs a DIR;a.c --keep
--keep needs a DIR;--keep= a.c
--compile-commands needs a FILE;--compile-commands
--target needs a NAME;a.c --target
--target needs --compile-commands;--target=tool a.c
--output needs a FILE;a.c --output
--baseline needs a FILE;--baseline= a.c
--fail-on needs one of any, new;a.c --fail-on
-I needs an argument;a.c -I
-o needs an argument;a.c -o
--sharp or --plain is given once;--sharp a.c --sharp
--sharp or --plain is given once;--plain --plain a.c
--sharp or --plain is given once;--plain a.c --sharp
ROWS
check 'the options with a =' 1 "$room/tree/src/main.c:2:28: $tool" \
    ./sparrow source --format=plain "--compile-commands=$database" --target=tool
check 'a folder with a =' 0 $'1-main.i\n2-twice.i\n' eval '
    source_of "$database" --target=tool "--keep=$room/kept" >/dev/null; ls "$room/kept"'

# Two programs in one database, with their own mains of one type or of two.
two=$room/two.json
printf 'int main(void) { return 0; }\n' >"$room/tree/src/one.c"
printf 'int main(argc, argv) int argc; char **argv; { return argc; }\n' >"$room/tree/src/two.c"
printf 'int main(void) { return 1; }\n' >"$room/tree/src/three.c"
both="sparrow: hint: $room/tree/src/one.c and $room/tree/src"
for other in three two; do
    { echo '[' && entry one.c first && echo , && entry $other.c second && echo ']'; } >"$two"
    last_said() { source_of "$two" 2>&1 >/dev/null | tail -n 1; }
    check "the mains of one and $other" 0 \
        "$both/$other.c have a main each: --target NAME takes one of first, second"$'\n' last_said
    check "one of one and $other" 0 $'0 alarms\n' source_of "$two" --target first
done
check_said 'two mains without a database' \
    "$both/three.c have a main each: give the files of one program" \
    ./sparrow source "$room/tree/src/one.c" "$room/tree/src/three.c"
printf '[{"directory": "%s", "file": "one.c", "arguments": ["cc", "one.c"]}]' \
    "$room/tree/src" >"$two"
check_said 'a file that is given twice' "sparrow: hint: $room/tree/src/one.c is given twice" \
    ./sparrow source "$room/tree/src/one.c" "$room/tree/src/one.c"
check_said 'no output tells a target' "sparrow: $two has no target a: give the files of one \
program, since no output tells a target" source_of "$two" --target a
printf '[{"directory": "%s", "file": "one.c", "output": "../b/c.p/one.o", "command": "cc one.c"},
{"directory": "%s", "file": "three.c", "arguments": ["cc", "-o", "./d/e/three.o"]}]' \
    "$room/tree/src" "$room/tree/src" >"$two"
check_said 'targets of Meson and others' \
    "sparrow: $two has no target a: --target NAME takes one of c, e" source_of "$two" --target a
# Both programs of one folder, by whole names as Bear has them.
one="$room/tree/src/one.c"
printf '[{"directory": "%s", "file": "%s", "output": "%s/one", "command": "cc one.c -o one"},
{"directory": "%s", "file": "%s/three.c", "arguments": ["cc", "-c", "three.c"]}]' \
    "${one%/*}" "$one" "${one%/*}" "${one%/*}" "${one%/*}" >"$two"
last_said() { source_of "$two" 2>&1 >/dev/null | tail -n 1; }
check 'two mains of one folder' 0 "$both/three.c have a main each: give the files of one program; \
--target NAME takes one of src"$'\n' last_said
printf 'int a[SIZE], n;\nint main(void) { return a[SIZE]; }\n' >"$room/tree/include/whole.c"
printf '[{"directory": "/", "file": "%s", "command": "cc -DSIZE=2 -I%s -c %s"}]' \
    "$room/tree/include/whole.c" "$room/tree/include" "$room/tree/include/whole.c" >"$two"
in_tree() { (cd "$room/tree" && "$top/sparrow" source --format=plain --compile-commands "$two"); }
check 'whole names below the current folder' 1 \
    $'include/whole.c:2:25: overrun: offset [2,2], size [2,2]\n1 alarm\n' in_tree
in_build() {
    (cd "$room/build" &&
        "$top/sparrow" source --format=plain --compile-commands ../*_commands.json --target tool)
}
check 'in the folder of the build names are its own' 1 "../tree/src/main.c:2:28: $tool" in_build

# What a compiler's command says of its outputs falls away; nothing is written there.
cd "$room" || exit
printf 'int main(void) { int a[SIZE]; a[4] = 1; return 0; }\n' >"$room/out.c"
for words in '-c -o out.o' '-oout.o' '-MMD -MP -MF out.d -MT out.o' '-MD -MFout.d -MTout.o -MQout' \
    '-M' '-MM -MG' '-E' '-S' '-P' '-Wp,-MD,out.d'; do
    # shellcheck disable=SC2086
    check "source $words" 1 $'out.c:1:28: overrun: offset [4,4], size [4,4]\n1 alarm\n' \
        "$top/sparrow" source --format=plain $words -DSIZE=4 out.c
done
check 'nothing is written there' 0 $'out.c\n' eval 'ls out*'
check 'an output without its name' 3 $'usage: sparrow COMMAND [OPTION] WORD..\n' \
    "$top/sparrow" source out.c -o
check 'a list of macros' 3 '' "$top/sparrow" source -dM out.c
check_said 'a list of macros' "sparrow: -dM asks for another text than the program's" \
    "$top/sparrow" source -dM out.c
cd "$top" || exit

no_program() { SPARROW_PROGRAM=$room/none SPARROW_INCLUDE=$top/include python3 -I source "$@"; }
check 'a program that is missing' 7 '' no_program "$room/tree/src/other.c"
check_said 'it is said so' "sparrow: $room/none: No such file or directory" \
    no_program "$room/tree/src/other.c"

# A stand-in for the program that keeps its words; those before the texts are compared.
printf '#!/bin/sh\necho "$*" >>"%s"\necho 0 alarms\n' "$room/words" >"$room/keeping"
chmod +x "$room/keeping"
printf '#include <stdlib.h>\nvoid *f(size_t n) { return malloc(n); }\n%s\n' \
    'int g(void *(*p)(size_t)) { return p(4) == 0; }' >"$room/indirect.c"
printf 'int main(void) { return 0; }\n' >"$room/a.c"
words_for() {
    rm -f "$room/words"
    SPARROW_PROGRAM=$room/keeping SPARROW_INCLUDE=$top/include python3 -I source "$room/a.c" "$@" \
        >/dev/null
    sed 's/ -- .*//' "$room/words"
}
check 'source is sharp' 0 $'analyse --sharp\n' words_for
check 'it is asked for' 0 $'analyse --sharp\n' words_for --sharp
check 'the plain mode' 0 $'analyse\n' words_for --plain
check 'sharp values' 0 $'analyse --sharp --values\n' words_for --values
check 'plain values' 0 $'analyse --values\n' words_for --values --plain
check 'sharp causes' 0 $'analyse --sharp --values --nodes\n' words_for --why --format=sarif
check 'plain causes' 0 $'analyse --values --nodes\n' words_for --plain --why
check 'a sharp baseline' 0 $'analyse --sharp\n' \
    words_for --baseline "$room/known.json" --update-baseline
check 'it is read in the plain mode' 0 $'analyse\n' words_for --plain --baseline "$room/known.json"
check 'indirect calls have no mode' 0 $'calls\nanalyse --sharp\n' words_for "$room/indirect.c"

# A stand-in for the program that takes three seconds; standard error is a terminal or not.
printf '#!/bin/sh\nsleep 3\necho 0 alarms\n' >"$room/slow"
chmod +x "$room/slow"
slow() {
    SPARROW_PROGRAM=$room/slow SPARROW_INCLUDE=$top/include python3 -I source "$room/a.c" "$@"
}
on_terminal() {
    python3 -I -c 'import pty, sys; pty.spawn(sys.argv[1:])' env "SPARROW_PROGRAM=$room/slow" \
        "SPARROW_INCLUDE=$top/include" python3 -I source "$room/a.c" </dev/null |
        tr -d '\r' | grep -c 'analysing, 2 s'
}
check 'a terminal is told what is done' 0 $'1\n' on_terminal
check 'nothing else is' 0 '' eval 'slow 2>&1 >/dev/null'
steps=$'sparrow: preprocessing 1 of 1\nsparrow: preparing\nsparrow: copying\nsparrow: analysing\n'
check 'plain lines where they are asked for' 0 "$steps" eval 'slow --progress 2>&1 >/dev/null'
check 'standard output has none of them' 0 $'0 warnings\n' slow --progress
repeated() {
    python3 -I -c 'import sys, time
sys.path.insert(0, "source")
from driver import progress
progress.REPEAT = 1.0
progress.Progress.has_lines = True
with progress.Progress("waiting"):
    time.sleep(1.5)' 2>&1
}
check 'a step that goes on is told again' 0 $'sparrow: waiting\nsparrow: waiting, 1 s\n' repeated
finish
