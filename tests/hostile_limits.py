"""Programs at each limit and one past it, and other texts as no one writes them, with the answer that they must get."""
from __future__ import annotations

from dataclasses import dataclass

from hostile_nests import NESTS

ACCEPTED = "accepted"
MAIN = b"int main(void){return 0;}"
FILES, MEMBERS, PARTS = 64, 256, 1000  # M9, M3, M10
MANY = 20000


@dataclass(frozen=True)
class Row:
    """Files, and `accepted` or the code with which they are refused."""

    name: str
    texts: list[bytes]
    wanted: str


def numbered(pattern: bytes, count: int, between: bytes = b"") -> bytes:
    """The pattern for each number from 0, which stands for `@`."""
    return between.join(pattern.replace(b"@", b"%d" % number) for number in range(count))


def in_main(text: bytes) -> bytes:
    return b"int f();int main(void){int x;x=0;" + text + b"return x;}"


def one(name: str, text: bytes, wanted: str = ACCEPTED) -> Row:
    return Row(name, [text], wanted)


def nests() -> list[Row]:
    rows = []
    for nest in NESTS:
        rows.append(one(f"{nest.greatest} {nest.name}", nest.text(nest.greatest)))
        rows.append(one(f"{nest.greatest + 1} {nest.name}", nest.text(nest.greatest + 1), "M2"))
        rows.append(one(f"{MANY} {nest.name}", nest.text(MANY), "M2"))
    return rows


def limits() -> list[Row]:
    """What has a number in docs/REPORT.md, at it and one past it."""
    def record(count: int) -> bytes:
        return b"struct s{" + numbered(b"int m@;", count) + b"}x;" + MAIN
    def function(count: int) -> bytes:
        return b"int g(" + b",".join([b"int"] * count) + b");" + MAIN
    extern = b"extern int x;"
    return [
        Row(f"{FILES} files", [MAIN, *[extern] * (FILES - 1)], ACCEPTED),
        Row(f"{FILES + 1} files", [MAIN, *[extern] * FILES], "M9"),
        Row(f"{FILES} empty files", [b""] * FILES, "F25"),
        Row(f"{FILES + 1} files with a fault in the first", [b"@", *[extern] * FILES], "M9"),
        one(f"{MEMBERS} members", record(MEMBERS)),
        one(f"{MEMBERS + 1} members", record(MEMBERS + 1), "M3"),
        one(f"{PARTS} parts of a type", function(PARTS - 2)),
        one(f"{PARTS + 1} parts of a type", function(PARTS - 1), "M10"),
        one("the longest array", b"char x[2147483647];" + MAIN),
        one("an array past it", b"char x[2147483648];" + MAIN, "F21"),
        one("the greatest number", in_main(b"18446744073709551615;")),
        one("a number past it", in_main(b"18446744073709551616;"), "F5"),
        one("the greatest octal number", in_main(b"01777777777777777777777;")),
        one("an octal number past it", in_main(b"02000000000000000000000;"), "F5"),
        one("a number of 5,000 digits", in_main(b"9" * 5000 + b";"), "F5"),
        one("5,000 zeros before a number", in_main(b"0" * 5000 + b"1;")),
        one("a hexadecimal number of 5,000 digits", in_main(b"0x" + b"f" * 5000 + b";"), "F5"),
        one("an array of 2^40 bytes", b"char x[1048576][1048576];" + MAIN),
        one("an array past 2^40 bytes", b"char x[1048577][1048576];" + MAIN, "F21"),
        one("a length of 0", b"char x[0];" + MAIN, "F21"),
    ]


def sizes() -> list[Row]:
    """Many of one thing, or one thing that is long."""
    name = b"n" * 100000
    return [
        one("a name of 100,000 bytes", b"int " + name + b";int main(void){" + name + b"=1;return " + name + b";}"),
        one("a string of 100,000 bytes", b'char*p="' + b"s" * 100000 + b'";' + MAIN),
        one("5,000 strings in one", b"char*p=" + b'"s"' * 5000 + b";" + MAIN),
        one("a comment of 500,000 bytes", b"/*" + b"*" * 500000 + b"*/" + MAIN),
        one("a comment without its end", MAIN + b"/*" + b"*" * 500000, "F2"),
        one("500,000 spaces", b" " * 500000 + MAIN),
        one("200,000 lines", b"\n" * 200000 + MAIN),
        one("100,000 semicolons at file scope", b";" * 100000 + MAIN),
        one("10,000 empty statements", in_main(b";" * 10000)),
        one("2,000 cases", in_main(b"switch(f()){" + numbered(b"case @:x=@;break;", 2000) + b"}")),
        one("2,000 cases that fall through", in_main(b"switch(f()){" + numbered(b"case @:;", 2000) + b"x=1;}")),
        one("a case twice among 2,000", in_main(b"switch(f()){" + numbered(b"case @:;", 2000) + b"case 7:x=1;}"), "F22"),
        one("500 parameters", b"int g(" + numbered(b"int p@", 500, b",") + b"){return p499;}" + MAIN),
        one("2,000 arguments", in_main(b"x=f(" + b",".join([b"x"] * 2000) + b");")),
        one("5,000 constants", b"enum{" + numbered(b"c@", 5000, b",") + b"};" + MAIN),
        one("5,000 start values", b"int a[]={" + b",".join([b"1"] * 5000) + b"};" + MAIN),
        one("500 functions that call the next",
            numbered(b"int f@(void);", 501) + calls(500) + b"int main(void){return f0();}"),
        one("500 labels and jumps", in_main(numbered(b"l@:if(f())goto l@;", 500))),
        one("1,000 divisions by what may be 0", in_main(b"x=f();" + b"1/x;" * 1000)),
        one("1,000 overruns", b"int a[2];" + in_main(b"a[3];" * 1000)),
        Row("main in two files", [MAIN, MAIN], "F23"),
        Row("1,000 objects in 10 files", [MAIN, *[numbered(b"static int s@;", 100)] * 9], ACCEPTED),
    ]


def calls(count: int) -> bytes:
    bodies = [b"int f%d(void){return f%d();}" % (number, number + 1) for number in range(count)]
    return b"".join(bodies)


def oddities() -> list[Row]:
    """Texts without a program, and ends at odd places."""
    nothing = [
        ("an empty file", b""), ("a space", b" "), ("spaces", b" " * 1000), ("newlines", b"\n" * 1000),
        ("carriage returns", b"\r" * 1000),
        ("other blanks", b"\f\v\t"), ("a comment alone", b"/**/"), ("a line comment alone", b"//"),
        ("a marker line alone", b'# 1 "b.h"'), ("a semicolon", b";"), ("a prototype alone", b"int main(void);")]
    bad = [
        ("a zero byte", b"\0"), ("a zero byte behind", MAIN + b"\0"), ("a byte past ASCII", b"\x80"),
        ("a byte order mark", b"\xef\xbb\xbf" + MAIN), ("bytes of 255", b"\xff" * 1000), ("a backslash", b"\\"),
        ("a backslash at the end", MAIN + b"\\"), ("a joined line", b"int\\\nx;" + MAIN), ("an at sign", b"@")]
    others = [
        ("a quote", b"'", "F3"), ("a double quote", b'"', "F3"), ("a string with a newline", b'char*p="a\n";' + MAIN, "F3"),
        ("no character", in_main(b"'';"), "F4"), ("a number sign", b"#", "F6"),
        ("an open comment", b"/*", "F2"), ("half an end of a comment", b"/**", "F2"),
        ("a brace", b"{", "F7"), ("a closing brace", b"}", "F7"), ("a file that ends in main", MAIN[:-1], "F7"),
        ("main twice", MAIN * 2, "F9"), ("no newline at the end", MAIN, ACCEPTED),
        ("carriage returns between", MAIN.replace(b" ", b"\r"), ACCEPTED)]
    groups = ((nothing, "F25"), (bad, "F1"))
    return [one(name, text, wanted) for found, wanted in groups for name, text in found] + [one(*it) for it in others]


ROWS = nests() + limits() + sizes() + oddities()
