"""Writes the texts that bench/checks.sh times: of each kind one, and one of a tenth of its size.

Usage: checks_texts.py FOLDER. A kind of a size is a folder KIND-SIZE of files.
"""
import os
import sys

from parse_texts import ORDINARY

MAIN = "int main(void){return 0;}\n"

def ordinary(size):
    """Functions of 128 tokens, this many tokens in all."""
    head = "struct pair { int left; int right; };\nint g(struct pair *p, char *s, int n);\n"
    return [head + "".join(ORDINARY % k for k in range(size // 128)) + MAIN]


def names(size):
    """So many names in one scope, each used once."""
    declared = "".join(f"int n{k};\n" for k in range(size))
    return [declared + "int main(void){\n" + "".join(f"n{k}=1;\n" for k in range(size)) + "return 0;}\n"]


def structs(size):
    """So many struct types, each with an object and a pointer to the one before."""
    text = "struct s0{int x;} o0;\n"
    text += "".join(f"struct s{k}{{int x;struct s{k - 1} *p;}} o{k};\n" for k in range(1, size))
    return [text + MAIN]


def calls(size):
    """So many calls, fifty inside one another."""
    nested = "f(" * 50 + "1" + ")" * 50 + ";\n"
    return ["int f(int x){return x;}\nint main(void){\n" + nested * (size // 50) + "return 0;}\n"]


def mentions(size):
    """So many mentions of a function of 990 parameters."""
    declared = "int g(" + ",".join(["int"] * 990) + ");\n"
    return [declared + "int main(void){\n" + "g;\n" * size + "return 0;}\n"]


def units(size):
    """64 files with so many external names in all, each defined in one and declared in the next."""
    each = size // 64
    texts = []
    for u in range(64):
        text = "".join(f"int x{u}_{k};\n" for k in range(each))
        text += "".join(f"extern int x{(u - 1) % 64}_{k};\n" for k in range(each))
        texts.append(text)
    texts[0] += MAIN
    return texts


def same_structs(size):
    """64 files that have the same struct types, so many in each, with pointers to one another."""
    each = size // 64
    text = "struct s0{int x;};\n"
    text += "".join(f"struct s{k}{{int x;struct s{k - 1} *p;}};\n" for k in range(1, each))
    texts = [text + f"extern struct s{each - 1} o;\n" for _ in range(64)]
    texts[0] += MAIN
    return texts


KINDS = [(ordinary, 2000000), (names, 100000), (structs, 50000), (calls, 100000), (mentions, 100000), (units, 100000), (same_structs, 64000)]


def main():
    for kind, whole in KINDS:
        for size in (whole // 10, whole):
            folder = f"{sys.argv[1]}/{kind.__name__}-{size}"
            os.makedirs(folder, exist_ok=True)
            for number, text in enumerate(kind(size)):
                with open(f"{folder}/{number:02}.c", "w", encoding="ascii") as file:
                    file.write(text)


main()
