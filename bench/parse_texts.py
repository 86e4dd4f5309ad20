"""Writes the texts that bench/parse.sh times: of each kind one, and one of twice the length.

Usage: parse_texts.py FOLDER. A text is a list of trees of one sort, each behind a `;`, or a unit.
"""

import random
import sys

OPERATORS = ["*", "/", "%", "+", "-", "<<", ">>", "<", "<=", ">", ">=", "==", "!=", "&", "^", "|", "&&", "||"]


def mixed(rng, depth):
    """An expression with parts inside one another up to about this depth."""
    if depth <= 1:
        return rng.choice(["a", "b", "17", "'c'", '"text"'])
    form = rng.randrange(9)
    inner = mixed(rng, depth - 1)
    other = mixed(rng, rng.randrange(1, 3))
    return [
        lambda: f"({inner})",
        lambda: f"{other} {rng.choice(OPERATORS)} ({inner})",
        lambda: f"f({inner}, {other})",
        lambda: f"a[{inner}]",
        lambda: f"-({inner})",
        lambda: f"(int)({inner})",
        lambda: f"sizeof({inner})",
        lambda: f"(({inner}) ? {other} : b)",
        lambda: f"(p->m = {inner})",
    ][form]()


def chain(operator, count=190):
    return f" {operator} ".join(["a"] * count)


def repeated(text, tokens, each):
    """So many tokens of this text and a `;` behind each."""
    return (text + ";\n") * max(1, tokens // each)


ORDINARY = """
int f%d(int n, char *s)
{
    int i, total = 0;
    struct pair p;
    for (i = 0; i < n; i++) {
        if (s[i] == 'a')
            total += i * 2;
        else if (s[i] == 'b')
            total--;
        else {
            p.left = total;
            g(&p, "text", n - 1);
        }
    }
    while (total > 10 && n)
        total = total / 2;
    switch (n) {
    case 1: return 0;
    default: break;
    }
    return total;
}
"""


def widened(text, length):
    """The text with blanks behind marks, of so many bytes about."""
    marks = sum(text.count(mark) for mark in ";{}")
    blanks = " " * ((length - len(text)) // marks)
    return "".join(byte + blanks if byte in ";{}" else byte for byte in text)


def units(tokens):
    """Units of C, of so many tokens about."""
    begun = "struct pair { int left; char *right; };\nstatic int count;\n"
    ordinary = begun + "".join(ORDINARY % i for i in range(tokens // 128))
    yield "ordinary", ordinary
    yield "wide", widened(ordinary, 8 * tokens)
    elses = "int f(void){" + "else ".join(["if(a)b;"] * 190) + "}\n"
    yield "elses", elses * (tokens // 1336)
    yield "blocks", ("int f(void)" + "{" * 195 + "}" * 195 + "\n") * (tokens // 395)
    yield "inits", ("int a[]={" + ",".join(["1"] * 100000) + "};\n") * max(1, tokens // 200008)
    yield "declarators", ("int " + ",".join(["*a"] * 50000) + ";\n") * max(1, tokens // 150001)


def texts(tokens):
    rng = random.Random(1)
    yield "mixed", "expression", "".join(mixed(rng, 1 + i % 60) + ";\n" for i in range(tokens // 140))
    yield "parens", "expression", repeated("(" * 197 + "a" + ")" * 197, tokens, 396)
    for name, operator in [("minus", "-"), ("and", "&&"), ("comma", ","), ("assign", "=")]:
        yield name, "expression", repeated(chain(operator), tokens, 380)
    yield "choice", "expression", repeated("a ? b : " * 190 + "c", tokens, 762)
    yield "prefix", "expression", repeated("- " * 190 + "a", tokens, 192)
    yield "cast", "expression", repeated("(int)" * 190 + "a", tokens, 572)
    yield "index", "expression", repeated("a" + "[1]" * 190, tokens, 572)
    yield "calls", "expression", repeated("f(" + ", ".join(["a"] * 100000) + ")", tokens, 200003)
    yield "strings", "expression", repeated(" ".join(['"s"'] * 100000), tokens, 100001)
    yield "members", "specifiers", repeated("struct {" + "int m, *n;" * 10000 + "}", tokens, 60004)
    yield "constants", "specifiers", repeated("enum {" + ", ".join(["c"] * 100000) + "}", tokens, 200003)
    yield "pointers", "declarator", repeated("* const " * 190 + "a", tokens, 382)
    yield "parameters", "declarator", repeated("f(" + ", ".join(["int *p"] * 50000) + ")", tokens, 200003)


def main():
    for size in (1, 2):
        named = [(name, "unit", text) for name, text in units(size * 1000000)]
        for name, entry, text in [*texts(size * 1000000), *named]:
            with open(f"{sys.argv[1]}/{name}-{size}-{entry}", "w", encoding="ascii") as file:
                file.write(text)


if __name__ == "__main__":
    main()
