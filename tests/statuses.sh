#!/usr/bin/env bash
# Runs ./sparrow on words that don't fit, on files that can't be read and on outputs that can't be
# written, and compares bytes, status and what is said on standard error.
. "$(dirname "$0")/lib.sh"
room=$(mktemp -d)
trap 'rm -rf "$room"' EXIT

usage=$'usage: sparrow COMMAND [OPTION] WORD..\n'
commands='sparrow: the commands are: analyse [--values] [--nodes] [--sharp] FILE..,'
commands+=' dense [--values] [--nodes] [--sharp] FILE.., calls FILE..,'
commands+=' source [--values] [--strict] [--keep DIR] [CPP-OPTION..] FILE.c..,'
commands+=' source --compile-commands FILE [--target NAME] ..; sparrow --help tells more'
file=examples/overrun.c
check 'no words' 3 "$usage" ./sparrow
check 'a command alone' 3 "$usage" ./sparrow analyse
check 'an option' 3 "$usage" ./sparrow analyse --fast "$file"
check 'the flag twice' 3 "$usage" ./sparrow analyse --values --values "$file"
check 'a value for the flag' 3 "$usage" ./sparrow analyse --values=1 "$file"
check 'the flag without a file' 3 "$usage" ./sparrow dense --values
check 'no file behind the end of options' 3 "$usage" ./sparrow dense --
check 'the other flag twice' 3 "$usage" ./sparrow dense --nodes --nodes "$file"
check 'a part of a flag' 3 "$usage" ./sparrow analyse --node "$file"
check 'the sharp mode twice' 3 "$usage" ./sparrow analyse --sharp --sharp "$file"
check 'a value for the sharp mode' 3 "$usage" ./sparrow dense --sharp=1 "$file"
check 'the sharp mode without a file' 3 "$usage" ./sparrow dense --sharp
check 'the plain mode is of source alone' 3 "$usage" ./sparrow analyse --plain "$file"
check 'a flag of calls' 3 "$usage" ./sparrow calls --nodes "$file"
check 'the sharp mode of calls' 3 "$usage" ./sparrow calls --sharp "$file"
check 'values of calls' 3 "$usage" ./sparrow calls "$file" --values
check 'calls alone' 3 "$usage" ./sparrow calls
check 'help behind a file' 3 "$usage" ./sparrow analyse "$file" --help
check 'an option in place of the file' 3 "$usage" ./sparrow analyse --fast
check 'another command' 3 "$usage" ./sparrow Analyse "$file"
check 'the file first' 3 "$usage" ./sparrow "$file" analyse
check 'a bench of nothing' 3 "$usage" ./sparrow bench 0
check_said 'wrong words' "$commands" ./sparrow Analyse "$file"

check 'a missing file' 4 '' ./sparrow analyse examples/none.c
check 'a dash as a file' 4 '' ./sparrow analyse -
check 'the empty word as a file' 4 '' ./sparrow analyse ''
check 'the flag as a file' 4 '' ./sparrow analyse -- --values
check 'a second file that is missing' 4 '' ./sparrow analyse "$file" examples/none.c
check 'a folder' 4 '' ./sparrow dense examples
check 'a missing file of calls' 4 '' ./sparrow calls examples/none.c
check 'a flag of calls as a file' 4 '' ./sparrow calls -- --nodes
check_said 'a missing file' "sparrow: examples/none.c can't be read: no such file" \
    ./sparrow analyse examples/none.c
check_said 'a missing file behind another' "sparrow: none can't be read: no such file" \
    ./sparrow analyse --values -- examples/two.c none
check_said 'a folder' "sparrow: examples can't be read: it is a folder" ./sparrow dense examples
check_said 'below a file' "sparrow: README.md/a can't be read: not a directory" \
    ./sparrow analyse README.md/a
check_said 'a missing file behind the sharp mode' "sparrow: none can't be read: no such file" \
    ./sparrow dense --sharp none
check_said 'a missing file named as an option' "sparrow: -none can't be read: no such file" \
    ./sparrow analyse -- -none

full() { ./sparrow analyse "$file" >/dev/full; }
shut() { ./sparrow analyse "$file" >&-; }
check 'a full device' 5 '' full
check 'no standard output' 5 '' shut
check_said 'a full device' "sparrow: standard output can't be written" full

endless=$'/dev/zero:1:1: refused M7: text past 16777216 bytes\n'
check 'a file without an end' 2 "$endless" ./sparrow analyse /dev/zero

# The words of two files and the flag, in any order.
printf 'extern int x;int main(void){return x;}' >"$room/a.c"
printf 'int x;' >"$room/b.c"
in_room() { (cd "$room" && "$program" "$@"); }
program=$(./sparrow --program)
values=$'0 alarms\nnode 2 a.c:1:29: x = [0,0]\n'
check 'two files' 0 $'0 alarms\n' in_room analyse a.c b.c
check 'values behind the files' 0 "$values" in_room analyse a.c b.c --values
check 'values before the end of options' 0 "$values" in_room dense --values -- a.c b.c
printf 'int x;int main(void){return 5/x;}' >"$room/div.c"
alarm='div.c:1:30: zero: divisor [0,0]'
behind=$'node 2 div.c:1:22: x = [0,0]\n'
check 'nodes' 1 "$alarm"$'\n1 alarm\nnode 2 '"$alarm"$'\n' in_room analyse div.c --nodes
check 'nodes behind values' 1 "$alarm"$'\n1 alarm\n'"${behind}node 2 $alarm"$'\n' \
    in_room dense --nodes div.c --values
check 'no alarm of a node' 0 "$values" in_room analyse --nodes a.c --values b.c
check 'the sharp mode between the files' 0 "$values" in_room dense --values a.c --sharp b.c
check 'all flags' 1 "$alarm"$'\n1 alarm\n'"${behind}node 2 $alarm"$'\n' \
    in_room analyse --sharp --nodes div.c --values
check 'the sharp mode as a file' 4 '' in_room analyse -- --sharp
printf 'int f(void){return 0;}int(*p)(void)=f;' >"$room/f.c"
printf 'extern int(*p)(void);int main(void){return p();}' >"$room/p.c"
check 'indirect calls' 0 $'p.c:1:44: f\n1 indirect call\n' in_room calls f.c -- p.c
check 'no indirect call' 0 $'0 indirect calls\n' in_room calls b.c a.c
check 'one file twice' 2 $'a.c:1:18: refused F23: second definition\n' in_room analyse a.c b.c a.c
check 'one file twice for calls' 2 $'a.c:1:18: refused F23: second definition\n' in_room calls a.c b.c a.c

# Files may have 16,777,216 bytes together, and there may be 64.
head -c 16777200 /dev/zero | tr '\0' ' ' >"$room/blank.c"
check 'bytes past the limit' 2 $'a.c:1:1: refused M7: text past 16777216 bytes\n' in_room analyse blank.c a.c
printf 'int main(){;;;;}' >"$room/main.c"
check 'the last byte within it' 0 $'0 alarms\n' in_room analyse blank.c main.c
printf 'extern int x;' >"$room/x.c"
many() { for _ in $(seq "$1"); do echo x.c; done; }
check '64 files' 0 $'0 alarms\n' in_room analyse main.c $(many 63)
check '65 files' 2 $'x.c:1:1: refused M9: files past 64\n' in_room analyse main.c $(many 64)

# 1,000 objects and the result are 1,001 locations; 2,000 assignments, start, entry, result and exit
# are 2,004 nodes.
{
    printf 'int x%d;' $(seq 1000)
    printf 'int main(void){'
    printf 'x%d=1;' $(seq 1000) $(seq 1000)
    printf 'return 0;}'
} >"$room/slots.c"
check 'slots past the limit' 2 $'slots.c:1:1: refused M8: 2006004 dense slots\n' in_room dense slots.c
check 'few dependencies' 0 $'0 alarms\n' in_room analyse slots.c

# times N TEXT: the text so many times.
times() { printf "$2%.0s" $(seq "$1"); }
in_main() { printf 'int main(void){%sreturn 0;}' "$1"; }

# 61,681 locations and 17 nodes are 1,048,577 slots, one past the limit; 65,536 and 16 are as many as
# it is. Beside the assignments there are start, entry, result and exit.
{ printf 'int x%d;' $(seq 61680); in_main "$(times 13 'x1=1;')"; } >"$room/slot.c"
check 'one slot past the limit' 2 $'slot.c:1:1: refused M8: 1048577 dense slots\n' in_room dense slot.c
{ printf 'int x%d;' $(seq 65535); in_main "$(times 12 'x1=1;')"; } >"$room/slot.c"
check 'as many slots as the limit' 0 $'0 alarms\n' in_room dense slot.c

# A program may have 500,000 nodes: with three locations the dense engine tells three times as many.
in_main "int x;int y;$(times 499996 'x++;')" >"$room/nodes.c"
check '500,000 nodes' 2 $'nodes.c:1:1: refused M8: 1500000 dense slots\n' in_room dense nodes.c
in_main "int x;int y;$(times 499997 'x++;')" >"$room/nodes.c"
check '500,001 nodes' 2 $'nodes.c:1:1: refused M4: nodes past 500000\n' in_room dense nodes.c

# It may have 200,000 regions: 796 structs of 251 each, 202 ints, main and its result.
regions() { # structs, ints
    printf 'struct s{'
    printf 'int m%d;' $(seq 250)
    printf '};'
    printf 'struct s o%d;' $(seq "$1")
    [ "$2" = 0 ] || printf 'int i%d;' $(seq "$2")
    in_main ''
}
past=$'regions.c:1:1: refused M5: regions past 200000\n'
regions 796 202 >"$room/regions.c"
check '200,000 regions' 0 $'0 alarms\n' in_room analyse regions.c
regions 796 203 >"$room/regions.c"
check '200,001 regions' 2 "$past" in_room analyse regions.c
regions 800 0 >"$room/regions.c"
check 'a struct past the last region' 2 "$past" in_room analyse regions.c

# Each of so many assignments reaches each of so many uses: 7,072 of both are 50,013,184 dependencies.
reached() {
    printf 'int g(void);'
    in_main "int x;switch(g()){$(printf 'case %d:x=1;break;' $(seq "$1"))}$(times "$1" 'x;')"
}
reached 7072 >"$room/reached.c"
check 'dependencies past the limit' 2 $'reached.c:1:1: refused M6: dependencies past 50000000\n' in_room analyse reached.c
reached 1000 >"$room/reached.c"
check '1,000,000 dependencies' 0 $'0 alarms\n' in_room analyse reached.c

# A text may have 2,000,000 tokens beside its end. These declare nothing, and no `main`.
head -c 2000000 /dev/zero | tr '\0' ';' >"$room/tokens.c"
check '2,000,000 tokens' 2 "$room/tokens.c"$':1:1: refused F25: no main\n' ./sparrow analyse "$room/tokens.c"
printf ';' >>"$room/tokens.c"
check '2,000,001 tokens' 2 "$room/tokens.c"$':1:2000001: refused M1: tokens past 2000000\n' ./sparrow analyse "$room/tokens.c"

finish
