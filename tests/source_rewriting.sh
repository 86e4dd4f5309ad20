#!/usr/bin/env bash
# What ./sparrow source rewrites: the table of texts, and what is said of a program.
. "$(dirname "$0")/lib.sh"
need_gcc
program=$(./sparrow --program) || exit 1
room=$(mktemp -d)
trap 'rm -rf "$room"' EXIT
unset CPP

PYTHONDONTWRITEBYTECODE=1 python3 -I tests/source_rewriting.py "$program" ||
    failed=$((failed + 1))
python3 -I tests/source_numbers.py || failed=$((failed + 1))
python3 -I tests/source_layouts.py || failed=$((failed + 1))
python3 -I tests/source_alike.py || failed=$((failed + 1))

# check_all_said NAME BYTES COMMAND..: wants exactly these bytes on standard error.
check_all_said() {
    local name=$1 want=$2 got
    shift 2
    got=$("$@" 2>&1 >/dev/null; printf x)
    if [ "$got" = "$want"x ]; then pass; else fail "$name" "$got"; fi
}

cat >"$room/c99.c" <<'TEXT'
#include <stdarg.h>
static int total(int count, ...)
{
    va_list list;
    int sum = 0;
    va_start(list, count);
    for (int k = 0; k < count; k++)
        sum += va_arg(list, int);
    va_end(list);
    return sum;
}
int main(void)
{
    int room[4];
    room[0] = total(2, 3, 4);
    int last = 4; room[last] = 1;
    return 0;
}
TEXT
check 'a place behind a declaration that was moved' 1 \
    "$room/c99.c:16:19: overrun: offset [4,4], size [4,4]"$'\n1 alarm\n' \
    ./sparrow source --format=plain "$room/c99.c"
check_said 'what was rewritten' "sparrow: rewritten: 1 variadic definition, 1 declaration behind a \
statement, 1 declaration in a for" ./sparrow source "$room/c99.c"
# A static function isn't the variadic one of another file that has its name.
printf 'int say(const char *text, ...) { return text[0]; }\n' >"$room/say.c"
printf 'static int say(a, b) int a, b; { return a / b; }\nint main(void) { return say(1, 0); }\n' \
    >"$room/other.c"
check 'a static function with the name of a variadic one' 1 \
    "$room/other.c:1:43: zero: divisor [0,0]"$'\n1 alarm\n' \
    ./sparrow source --format=plain "$room/say.c" "$room/other.c"

# What is written a second time has the places of the first: each alarm is at a token of the file.
cat >"$room/twice.c" <<'TEXT'
struct s { _Bool b; };
int f(int c, struct s *p, void **v, int n) {
    _Bool b = 0;
    if (c == 1) p->b ^= 2;
    if (c == 2) { b /= n; }
    if (c == 3) return p->b ?: 3;
    if (c == 4) p->b++;
    if (c == 5) --p->b;
    if (c == 6) *v += 4;
    if (c == 7) (
       p
      -> b) ^= 3; if (c == 8) return p->b;
    return b;
}
int main(int c, char **v) { return f(c, 0, 0, c); }
TEXT
check 'what is written twice has its place' 1 "$(sed "s,^,$room/twice.c:," <<'TEXT'
4:17: pointer: value [0,0]
5:21: zero: divisor [-2147483648,2147483647]
6:24: pointer: value [0,0]
7:17: pointer: value [0,0]
8:19: pointer: value [0,0]
9:17: pointer: value [0,0]
11:8: pointer: value [0,0]
12:38: pointer: value [0,0]
TEXT
)"$'\n8 alarms\n' ./sparrow source --format=plain "$room/twice.c"
printf '#include <stdlib.h>\nint h(void) { return abs(1); }\n' >"$room/none.c"
printf 'double f(void);\nint g(void) { return f() > 0; }\n' >"$room/own.c"
printf '#include <stdlib.h>\nint main(void) { return atof("1") > 0; }\n' >"$room/call.c"
check_said 'files with floating numbers of their own' \
    'sparrow: rewritten: 2 files with floating numbers' \
    ./sparrow source "$room/none.c" "$room/own.c" "$room/call.c"
check 'nothing is rewritten' 2 "$room/c99.c:3:1: refused U6: variadic definition"$'\n' \
    ./sparrow source --format=plain --strict "$room/c99.c"
check_said 'a hint' 'sparrow: hint: --strict leaves it as it is; without --strict it is rewritten' \
    ./sparrow source --strict "$room/c99.c"
printf 'int main(void) { int a[2]; a[0] = 0; return a[0]; }\n' >"$room/c90.c"
check_all_said 'C90 stays as it is' '' ./sparrow source "$room/c90.c"
check 'byte for byte' 0 '' eval '
    ./sparrow source --keep "$room/as-is" "$room/c90.c" >/dev/null
    ./sparrow source --strict --keep "$room/strict" "$room/c90.c" >/dev/null
    cmp "$room/as-is/1-c90.i" "$room/strict/1-c90.i"'

# So stay all texts that are accepted. The files include others, of which two aren't found.
unchanged() {
    SPARROW_PROGRAM=$program python3 bench/unchanged.py examples tests/source \
        tests/programs/library.tsv tests/programs/rules.tsv 2>/dev/null |
        sed 's/^[0-9]* texts, [0-9]* accepted/many accepted/'
}
check 'accepted texts stay as they are' 0 $'many accepted as they are, 0 of these change\n' unchanged

# Each file's first fault; and the program's own, where no file has one.
printf 'int f(void) { return missing; }\n' >"$room/missing.c"
printf 'int g(void) { return ({ while (0) ; 1; }); }\n' >"$room/words.c"
check 'the first fault of each file' 2 "$room/missing.c:1:22: refused F8: undeclared name: missing
$room/words.c:1:23: refused U8: GNU word
" ./sparrow source --format=plain "$room/c99.c" "$room/missing.c" "$room/words.c"
# Where a name that isn't declared keeps a form from being rewritten, it is what is told.
# check_undeclared NAME TEXT LINE:COLUMN: it is b_t there.
check_undeclared() {
    printf '%s\n' "$2" >"$room/left.c"
    check "$1" 2 "$room/left.c:$3: refused F8: undeclared name: b_t"$'\n' \
        ./sparrow source --format=plain "$room/left.c"
}
check_undeclared 'a name beside floating numbers' 'double f(double a) { return a + b_t; }' 1:33
check_undeclared 'an argument' 'int f(int); float g(void) { return f(b_t) + .5f; }' 1:38
check_undeclared 'an index in an initialiser' 'int a[3] = { [b_t] = 1 };' 1:15
check_undeclared 'a type in a block' 'int f(void) { int a; a = 1; b_t c; return a; }' 1:29
check_undeclared 'a type at file scope' $'long long a;\nstatic const b_t *c;' 2:14
check_undeclared 'the type of a parameter' 'long long f(int a, b_t *b) { return a; }' 1:20
check_undeclared 'the type of the first one' 'long long f(b_t b) { return 0; }' 1:13
check_undeclared 'the type of a member' 'struct s { int a; b_t b; }; long long c;' 1:19
check_undeclared 'a name behind a type' 'int b_t a; long long c;' 1:5
check_undeclared 'a name in a declarator' $'double a;\nint f(int n, char *b_t *p) { return n; }' 2:20
check 'behind what is not read no name is told' 2 "$room/left.c:1:9: refused F7: unexpected token
" eval 'echo "int a = ; double c; int d[2] = { [e] = 1 };" >"$room/left.c"
    ./sparrow source --format=plain "$room/left.c"'
check 'another fault before it' 2 "$room/left.c:1:15: refused U2: setjmp
" eval 'echo "int f(void) { setjmp(0); return 0; } double g(void) { return b_t; }" \
    >"$room/left.c"; ./sparrow source --format=plain "$room/left.c"'
printf '#define A b +\nint f(void) { return A 1; }\n' >"$room/macro.c"
check 'the name that a macro writes' 2 "$room/macro.c:2:22: refused F8: undeclared name: b"$'\n' \
    ./sparrow source --format=plain "$room/macro.c"
# A fault in a header that two files include is told once; so is what is left as it is there.
printf 'extern int f(int) ODD;\n' >"$room/odd.h"
printf '#include "odd.h"\nint main(void) { return 0; }\n' >"$room/odd.c"
printf '#include "odd.h"\nint b;\n' >"$room/b.c"
check 'a fault in a header' 2 "$room/odd.h:1:19: refused F7: unexpected token"$'\n' \
    ./sparrow source --format=plain "$room/odd.c" "$room/b.c"
check_said 'what is left in a header' "sparrow: left as it is: $room/odd.h:1:19: no ';' there
sparrow: hint: is ODD a macro that no header here and no option defines? -DODD= takes it out" \
    ./sparrow source "$room/odd.c" "$room/b.c"
check 'a fault of the whole' 2 "$room/c90.c:1:5: refused F23: second definition"$'\n' \
    ./sparrow source --format=plain "$room/c90.c" "$room/c90.c"
# check_hint NAME HINT FILE TEXT [FILE TEXT]: a hint is the last line on standard error; before it
# stands at most what is left as it is.
check_hint() {
    local name=$1 want=$2 files=()
    shift 2
    while [ $# -gt 0 ]; do
        printf '%s\n' "$2" >"$room/$1"
        files+=("$room/$1")
        shift 2
    done
    check "$name" 0 "${want:+$want
}" eval './sparrow source "${files[@]}" 2>&1 >/dev/null |
        sed "/^sparrow: left as it is: /d; s/^sparrow: hint: //"'
}
length='a length must be constant: give the greatest'
check_hint 'a length' "$length" l.c 'int n; int main(void) { int a[2 * n]; return 0; }'
check_hint 'a start value is no length' '' l.c 'int n, a[2] = { n }; int main(void) { return 0; }'
check_hint 'nor is a label' '' l.c 'int main(int n, char **v) { switch (n) { case n: return 0; } }'
address="an address isn't a number before the program runs: start with 0, and set it in main"
check_hint 'a text as a number' "$address" \
    n.c 'unsigned long a = (unsigned long)"text"; int main(void) { return 0; }'
check_hint 'an address as a number' "$address" \
    n.c 'int b; long a = (long) &b; int main(void) { return 0; }'
check_hint 'a call is no address' '' n.c 'int f(void); int a = (int)f(); int main(void) { return 0; }'
check_hint 'an escape of GNU C' '\033 is standard in place of \e' e.c 'char *a = "x\e[0m";'
check_hint 'a backslash before an e' '' e.c 'char *a = "\\e \q";'
is_macro='a macro that no header here and no option defines?'
check_hint 'a text' "is VERSION $is_macro '-DVERSION=\"TEXT\"' gives it a text" \
    v.c 'char *a = "version " VERSION;'
check_hint 'a word' "is NORETURN $is_macro -DNORETURN= takes it out" v.c 'int f(void) NORETURN;'
check_hint 'a tag' 'a header or a line before gives this tag to a struct, union or enum already' \
    t.c $'#include <time.h>\nstruct tm { int a; };'
check_hint 'a word of C is no macro' '' v.c 'int f(void) int g(void);'
main='#include <string.h>
int main(void) { return strlen("a") > 1; }'
call='int f(char *a) { return strlen(a); }'
include='#include <string.h> declares strlen'
check_hint 'a call without its header' "$include" m.c "$main" f.c "$call"
check_hint 'a call before the header' "$include" f.c "$call" m.c "$main"
main='int main(void) { return 0; }'
check_hint 'another type in another file' "$room/b.c:1:18 declares a with another type" \
    b.c 'extern const int a[];' a.c "const unsigned a[] = { 1 }; $main"
check_hint 'of several that of another type' "$room/c.c:1:13 declares a with another type" \
    c.c 'extern long a;' b.c 'extern int a;' a.c "long a; $main"
check_hint 'another parameter' "$room/b.c:1:12 declares f with another type" \
    b.c 'extern int f(int *);' a.c "int f(char *a) { return *a; } $main"
check_hint 'a static name is of its file alone' "$room/c.c:2:5 declares a with another type" \
    b.c 'static char a;' c.c $'\nint a;' a.c "long a; $main"
check_hint 'a name of POSIX in a header of C90' \
    '<stdio.h> declares getline, too: -D_ANSI_SOURCE hides what is of POSIX there' \
    a.c $'#include <stdio.h>\nint getline(char *a) { return *a; }'
check_hint 'a name of another header' \
    '<unistd.h> declares access, too: give it another name in the source' \
    a.c $'#include <unistd.h>\nint access(char *a) { return *a; }'
check_hint 'a name twice in a file' "$room/a.c:1:5 declares a with another type" \
    a.c $'int a;\nlong a;'
extern='a header says extern, and one file defines the object'
check_hint 'the object defined before' "$room/b.c:1:5 defines a, too" \
    c.c 'extern int a;' b.c 'int a = 1;' a.c "int a = 2; $main"
check_hint 'an external object with a value' "$room/b.c:1:12 defines a, too" \
    b.c 'extern int a = 1;' a.c "int a = 2; $main"
check_hint 'an object without a value' "$room/b.c:1:5 defines a, too; $extern" \
    b.c 'int a;' a.c "int a; $main"
echo 'int a;' >"$room/h.h"
check_hint 'an object that a header defines' "$extern" \
    b.c '#include "h.h"' a.c $'#include "h.h"\nint main(void) { return 0; }'
check_hint 'the function defined before' "$room/b.c:1:18 defines f, too" \
    c.c 'static int f(void) { return 0; }' b.c 'int f(void); int f(void) { return 0; }' \
    a.c "int f(void) { return 1; } $main"
check_hint 'a name twice in a block' '' a.c 'int f(void) { int a; int a; return 0; }'
gone='it has to go from the source'
takes='takes all out, and sizes differ then'
check_hint 'packed' "$gone; -D'__attribute__(x)=' $takes" a.c 'struct __attribute__((packed)) s { int i; };'
check_hint 'an alignment' "$gone; -D'_Alignas(x)=' $takes" a.c 'struct s { _Alignas(16) char c; };'
check_hint 'a pragma' "$gone; sizes differ then" a.c $'#pragma pack(1)\nstruct s { int i; };'
printf 'struct __attribute__((packed)) s { char c; int i; };\n' >"$room/packed.c"
check 'a word that lays out data' 2 "$room/missing.c:1:22: refused F8: undeclared name: missing
$room/packed.c:1:23: refused: packed changes the layout
" ./sparrow source --format=plain "$room/missing.c" "$room/c99.c" "$room/packed.c"
check 'what is kept is what was analysed' 1 \
    "$room/c99.c:16:19: overrun: offset [4,4], size [4,4]"$'\n1 alarm\n' eval '
    ./sparrow source --keep "$room/kept" "$room/c99.c" >/dev/null
    ./sparrow analyse "$room/kept/1-c99.i"'
finish
