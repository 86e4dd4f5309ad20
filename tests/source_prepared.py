"""How texts are prepared for the analysis: models of library functions (tests/source/models.tsv),
and conditions that name what they test (tests/source/conditions.tsv). Programs behave alike with
such conditions, and tokens keep their places.

A row has a name, a text, and the lines of the report; alarms are those of its file.
"""

from __future__ import annotations

import os
import subprocess
import sys
import tempfile
from collections import Counter

from told import tell

HERE = os.path.dirname(os.path.abspath(__file__))
TOP = os.path.dirname(HERE)
sys.path.insert(0, os.path.join(TOP, "source"))

from c.places import Places  # noqa: E402
from c.tokens import Tokens  # noqa: E402
from prepared.program import prepared  # noqa: E402
from prepared.table import models  # noqa: E402

faults: dict[str, str] = {}


def expect(name: str, got: object, want: object) -> None:
    """Notes whether something is as it must be."""
    faults[name] = "" if got == want else f"{got!r}\nand not\n{want!r}"


def rows_of(file: str) -> list[list[str]]:
    """The rows of a file, with the lines of their texts."""
    with open(os.path.join(HERE, "source", file), encoding="ascii") as opened:
        rows = [line.rstrip("\n").split("\t") for line in opened]
    return [[name, text.replace("\\n", "\n"), lines] for name, text, lines in rows]


def report(room: str, text: str, *words: str) -> tuple[str, str]:
    """The lines of the report on a text, without the name of its file, and what is said beside."""
    with open(os.path.join(room, "a.c"), "w", encoding="ascii") as file:
        file.write(text)
    asked = [os.path.join(TOP, "sparrow"), "source", "--format=plain", *words, "a.c"]
    done = subprocess.run(asked, cwd=room, capture_output=True, text=True, check=False)
    return done.stdout.rstrip("\n").replace("a.c:", "").replace("\n", "|"), done.stderr


def try_rows(room: str) -> None:
    """The rows."""
    for file in ("models.tsv", "conditions.tsv"):
        for name, text, lines in rows_of(file):
            expect(f"{file}: {name}", report(room, text)[0], lines)


def try_words(room: str) -> None:
    """What leaves models off, and what is then said."""
    text = '#include <stdio.h>\nint main(void) { char b[4]; fgets(b, 5, stdin); return 0; }\n'
    said = "taken to write nothing: fgets"
    for word in ("--no-models", "--strict"):
        lines, notes = report(room, text, word)
        expect(f"no model with {word}", (lines, said in notes), ("0 alarms", True))
    lines, notes = report(room, text)
    found = "2:29: overrun: offset [0,0], count [5,5], size [4,4]|1 alarm"
    expect("a model, and nothing said", (lines, notes), (found, ""))


def preprocessed(path: str) -> str:
    """The text of a program."""
    return ran(["gcc", "-E", "-w", "-std=gnu90", path])[1]


def ran(words: list[str]) -> tuple[int, str]:
    """The status of a program, and what it writes."""
    done = subprocess.run(words, capture_output=True, check=False)
    return done.returncode, done.stdout.decode("latin-1")


def try_behaviour(room: str) -> None:
    """A program with all forms of conditions writes the same when these are named."""
    path = os.path.join(HERE, "source", "conditions.c")
    before = preprocessed(path)
    (after,) = prepared([(path, before)], False) or [before]
    expect("conditions are rewritten", after != before, True)
    answers = []
    for text in (before, after):
        with open(os.path.join(room, "b.c"), "w", encoding="latin-1") as file:
            file.write(text)
        program = os.path.join(room, "b")
        built = ran(["gcc", "-w", "-std=gnu90", "-o", program, f"{program}.c"])
        answers.append((built[0], *ran([program])))
    expect("a program behaves alike", answers[1], answers[0])
    expect("the program ends well", answers[0][:2], (0, 0))


def placed_tokens(text: str) -> Counter[tuple[str, str]]:
    """The tokens of a text, each with its place."""
    tokens, places = Tokens(text), Places(text, "a.c")
    return Counter(
        (tokens.values[number], str(places.of(tokens.starts[number])))
        for number in range(tokens.count)
    )


def try_places() -> None:
    """Tokens that stay have their places: all but those of tests that are written anew."""
    text = (
        "int f(void); int g(int *p, int c) {\n  if ((c = f()) != 3 && p)\n"
        "    return c + *p; else if (--c) c = 1; return c; }\n"
    )
    (after,) = prepared([("a.c", text)], False) or [text]
    missing = placed_tokens(text) - placed_tokens(after)
    expect("tokens keep their places", missing, Counter())


def try_table() -> None:
    """Each model is one of a function of one name, and its body is whole."""
    found = models()
    expect("there are models", len(found) > 60, True)
    for name, model in found.items():
        expect(f"the braces of {name}", model.body.count("{"), model.body.count("}"))


def main() -> int:
    """Tries all."""
    with tempfile.TemporaryDirectory() as room:
        for attempt in (try_rows, try_words, try_behaviour):
            attempt(room)
    try_places()
    try_table()
    return tell(faults)


if __name__ == "__main__":
    sys.exit(main())
