"""Rewrites the texts of tests/source/rewritten.tsv, and compares what comes of them; and looks at
those of tests/source/attributes.tsv for words that lay out data.

A row of the first has a name, a text, its tokens as they must be rewritten, and the tokens of the
text that are gone. All other tokens must be there with the file, line and column that they had;
brackets, commas and semicolons, at which no alarm is, aren't looked at. Backslashes escape as in
Python. With the path of the program as an argument, it must accept what was rewritten, unless a
last field says `refused`.

A row of the second has a name, a text, and the word that lays out data with its line and column; or
else the text as it must be.
"""

from __future__ import annotations

import os
import subprocess
import sys
import tempfile
from collections import Counter

HERE = os.path.dirname(os.path.abspath(__file__))
sys.path.insert(0, os.path.join(os.path.dirname(HERE), "source"))

from c.attributes import clear_attributes  # noqa: E402
from c.places import Places  # noqa: E402
from c.tokens import Tokens  # noqa: E402
from rewriting.program import rewrite  # noqa: E402


BRACKETS = frozenset("()[]{},;")


def unescaped(text: str) -> str:
    """The text that a field of a row stands for."""
    return text.encode("latin-1").decode("unicode_escape")


def placed_tokens(text: str) -> Counter[tuple[str, str]]:
    """The tokens of a text, each with its place."""
    tokens, places = Tokens(text), Places(text, "a.c")
    return Counter(
        (tokens.values[number], str(places.of(tokens.starts[number])))
        for number in range(tokens.count)
    )


def spelling(text: str) -> str:
    """The tokens of a text with single blanks."""
    tokens = Tokens(text)
    return tokens.spelling(0, tokens.count - 1)


def is_accepted(program: str, text: str) -> bool:
    """Whether the program accepts a text: behind it, a bad byte is what is refused."""
    with tempfile.TemporaryDirectory() as room:
        names = [os.path.join(room, name) for name in ("a.i", "probe")]
        for name, content in zip(names, (text, "@")):
            with open(name, "w", encoding="latin-1") as file:
                file.write(content)
        answer = subprocess.run([program, "analyse", *names], capture_output=True, check=False)
        return answer.stdout.decode("latin-1").startswith(names[1])


def faults(row: list[str], program: str) -> list[str]:
    """What is wrong with a row's rewriting."""
    text, wanted, gone, outcome = (unescaped(field) for field in row)
    rewritten = rewrite([("a.c", text)])[0]
    found = []
    if spelling(rewritten.text) != spelling(wanted):
        found.append(f"tokens: {spelling(rewritten.text)}")
    missing = placed_tokens(text) - placed_tokens(rewritten.text)
    lost = [token for token, _ in missing.elements() if token not in BRACKETS]
    if sorted(lost) != sorted(token for token in spelling(gone).split() if token not in BRACKETS):
        found.append(f"gone: {' '.join(lost)}")
    if program and is_accepted(program, rewritten.text) != (outcome != "refused"):
        found.append("the program refuses it" if outcome != "refused" else "the program accepts it")
    return found


def attribute_faults(row: list[str], _: str) -> list[str]:
    """What is wrong with what comes of a row's attributes."""
    text, wanted = (unescaped(field) for field in row[:2])
    cleared = clear_attributes(text, "a.c")
    got = cleared.text
    if cleared.place is not None:
        got = f"{cleared.word} {cleared.place.line}:{cleared.place.column}"
    return [] if got == wanted else [got]


def main() -> int:
    """Tries all rows."""
    program = sys.argv[1] if len(sys.argv) > 1 else ""
    passed = failed = 0
    for table, try_row in (("rewritten", faults), ("attributes", attribute_faults)):
        with open(os.path.join(HERE, "source", f"{table}.tsv"), encoding="latin-1") as rows:
            for line in rows:
                name, *row = line.rstrip("\n").split("\t")
                found = try_row(row + [""] * (4 - len(row)), program)
                passed += not found
                failed += bool(found)
                for fault in found:
                    print(f"FAILED {name}\n{fault}")
    print(f"{passed} passed, {failed} failed")
    return 1 if failed else 0


if __name__ == "__main__":
    sys.exit(main())
