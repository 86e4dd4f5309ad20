"""Texts of each kind of nesting, with the greatest depth that is accepted (docs/LANGUAGE.md, docs/DECISIONS.md).

Expressions, declarators, initialisers, statements and specifiers of structs count one each, up to 200. So the body of a
function, the statement in it and the innermost expression leave 197. In a type 200 pointers, arrays and functions may
lie inside one another, and in a struct 200 structs and arrays.
"""
from __future__ import annotations

from dataclasses import dataclass

DEEPEST = 200
MAIN = "int main(void){return 0;}"


@dataclass(frozen=True)
class Nest:
    """`opened` and `closed` so many times around `middle`. In `opened` `@` is the number of a level, `$` of the one before."""

    name: str
    before: str
    opened: str
    middle: str
    closed: str
    after: str
    greatest: int

    def text(self, depth: int) -> bytes:
        inside, outside = leveled(self.opened, depth), self.closed * depth
        return "".join([self.before, inside, self.middle, outside, self.after]).encode("ascii")


def leveled(part: str, depth: int) -> str:
    """The part for each level from 1."""
    if "@" not in part:
        return part * depth
    return "".join(part.replace("@", str(level)).replace("$", str(level - 1)) for level in range(1, depth + 1))


def expression(name: str, opened: str, middle: str, closed: str = "", each: int = 1) -> Nest:
    """An expression of a statement. Each level of it counts `each`."""
    before = "struct s{struct s*p;int i;};int a[9];int f();int main(void){struct s*p;int x;p=0;x=0;"
    return Nest(name, before, opened, middle, closed, ";return 0;}", (DEEPEST - 3) // each)


def statement(name: str, opened: str, closed: str = "", taken: int = 2) -> Nest:
    """A statement of `main`; what is around it and the empty one within count `taken`."""
    return Nest(name, "int main(void){", opened, ";", closed, "return 0;}", DEEPEST - taken)


def outside(name: str, before: str, opened: str, middle: str, closed: str, greatest: int) -> Nest:
    """A declaration at file scope."""
    return Nest(name, before, opened, middle, closed, ";" + MAIN, greatest)


EXPRESSIONS = [
    expression("parentheses", "(", "0", ")"),
    expression("minus signs", "- ", "1"),
    expression("plus signs", "+ ", "1"),
    expression("nots", "!", "1"),
    expression("complements", "~", "1"),
    expression("addresses and what is there", "*&", "x", each=2),
    expression("sizes", "sizeof ", "0"),
    expression("casts", "(int)", "0"),
    expression("calls inside calls", "f(", "0", ")"),
    expression("calls inside later arguments", "f(0,", "0", ")"),
    expression("indexes inside indexes", "a[", "0", "]"),
    expression("choices in the middle", "1?", "0", ":0"),
    expression("choices at the end", "1?0:", "0"),
    expression("choices as conditions", "(", "1", "?1:0)", each=2),
    expression("assignments", "x=", "0"),
    expression("sums", "", "1", "+1"),
    expression("quotients", "", "1", "/1"),
    expression("shifts", "", "1", "<<1"),
    expression("comparisons", "", "1", "<1"),
    expression("ands", "", "1", "&&1"),
    expression("ors", "", "1", "||1"),
    expression("commas", "", "1", ",1"),
    expression("members of what is pointed to", "", "p", "->p"),
]
STATEMENTS = [
    statement("blocks", "{", "}"),
    statement("ifs", "if(1)"),
    statement("elses", "if(0);else "),
    statement("whiles", "while(0)"),
    statement("dos", "do ", "while(0);"),
    statement("fors", "for(;0;)"),
    statement("switches", "switch(0)"),
    statement("labels", "l@:"),
    statement("ifs that dangle", "if(1)", "else;"),
    Nest("cases", "int main(void){switch(0){", "case @:", ";", "", "}return 0;}", DEEPEST - 4),
    Nest("blocks with objects", "int main(void){", "{int x@;x@=$;", ";", "}", "return 0;}", DEEPEST - 4),
]
DECLARATIONS = [
    outside("pointers", "int ", "*", "x", "", DEEPEST - 1),
    outside("names in parentheses", "int ", "(", "x", ")", DEEPEST - 1),
    outside("arrays", "int x", "", "", "[1]", DEEPEST - 1),
    outside("pointers to functions", "int ", "(*", "x", ")(void)", (DEEPEST - 1) // 3),
    outside("pointers to arrays", "int ", "(*", "x", ")[2]", (DEEPEST - 1) // 3),
    outside("parameters of parameters", "int f", "(int a", "(void)", ")", DEEPEST // 2 - 1),
    Nest("lengths", "int x[", "(", "1", ")", "];" + MAIN, DEEPEST - 2),
    Nest("constants", "enum{A=", "(", "1", ")", "};" + MAIN, DEEPEST - 1),
    outside("structs", "", "struct{", "int a;", "}a;", DEEPEST - 1),
    outside("start values", "int x" + "[1]" * (DEEPEST - 1) + "=", "{", "0", "}", DEEPEST - 2),
    Nest("pointers in casts", "int main(void){return (int)(int ", "*", "", "", ")0;}", DEEPEST - 5),
]
TYPES = [
    outside("pointers by names", "typedef int t0;", "typedef t$*t@;", "int i", "", DEEPEST),
    outside("arrays by names", "typedef int t0;", "typedef t$ t@[1];", "int i", "", DEEPEST),
    outside("functions by names", "typedef int t0;", "typedef t$(*t@)(void);", "int i", "", DEEPEST // 2),
    outside("structs by names", "struct s0{int a;};", "struct s@{struct s$ a;};", "int i", "", DEEPEST - 1),
]
NESTS = EXPRESSIONS + STATEMENTS + DECLARATIONS + TYPES
