"""Copies of functions for each call: which are made (tests/source/copied.tsv), where their tokens
stand, that programs behave alike with them, what the analysis gains, and how many there may be.

A row has a name, the size of small functions, the texts with `||` between them, the number of
copies, and tokens that must be in what comes of them.
"""

from __future__ import annotations

import os
import re
import subprocess
import sys
import tempfile
from collections import Counter

from told import tell

HERE = os.path.dirname(os.path.abspath(__file__))
TOP = os.path.dirname(HERE)
sys.path.insert(0, os.path.join(TOP, "source"))

from c.places import Place, Places  # noqa: E402
from c.tokens import Tokens  # noqa: E402
from contexts.program import Copied, with_copies  # noqa: E402
from driver.indirect import targets_of  # noqa: E402
from driver.preprocessor import Preprocessor  # noqa: E402

faults: dict[str, str] = {}


def expect(name: str, got: object, want: object) -> None:
    """Notes whether something is as it must be."""
    faults[name] = "" if got == want else f"{got!r}\nand not\n{want!r}"


def spelling(text: str) -> str:
    """The tokens of a text with single blanks."""
    tokens = Tokens(text)
    return tokens.spelling(0, tokens.count - 1)


def placed_tokens(text: str, file: str) -> Counter[tuple[str, str]]:
    """The tokens of a text, each with its place."""
    tokens, places = Tokens(text), Places(text, file)
    return Counter(
        (tokens.values[number], str(places.of(tokens.starts[number])))
        for number in range(tokens.count)
    )


def made_of(texts: list[str], size: int) -> Copied:
    """What comes of texts."""
    named = [(f"{number}.c", text) for number, text in enumerate(texts)]
    return with_copies(named, size, lambda: targets_in(named)) or Copied(texts, 0, {})


def targets_in(named: list[tuple[str, str]]) -> dict[Place, frozenset[str]]:
    """To which functions the indirect calls of texts lead, as the program says."""
    with tempfile.TemporaryDirectory() as room:
        for file, text in named:
            with open(os.path.join(room, file), "w", encoding="latin-1", newline="") as opened:
                opened.write(text)
        words = [os.path.join(TOP, "sparrow"), "calls", *(file for file, _ in named)]
        done = subprocess.run(words, cwd=room, capture_output=True, check=True)
    return targets_of(done.stdout.decode("latin-1"))


def try_rows() -> None:
    """The rows, and the places of their tokens."""
    with open(os.path.join(HERE, "source", "copied.tsv"), encoding="ascii") as rows:
        for line in rows:
            name, size, joined, count, wanted = line.rstrip("\n").split("\t")
            texts = joined.encode("ascii").decode("unicode_escape").split("||")
            copied = made_of(texts, int(size))
            expect(f"copies: {name}", copied.made, int(count))
            if wanted:
                spelled = [spelling(text) for text in copied.texts]
                expect(f"tokens: {name}", any(wanted in text for text in spelled) or spelled, True)
            objects = set(re.findall(r"get__([a-z])__1", "".join(copied.texts)))
            lost = lost_tokens(name, texts, copied.texts, {"get", "two", "next"} | objects)
            # Each call that has a copy in the text itself has lost its name, and static objects that
            # go before their function have; no other token has.
            calls = sum(count for token, count in lost.items() if token not in objects)
            expect(f"places: {name}", calls <= int(count), True)


def lost_tokens(
    name: str, texts: list[str], copied: list[str], names: set[str]
) -> Counter[str]:
    """How often each of these names is lost; all other tokens must be where they were."""
    lost: Counter[str] = Counter()
    for number, (before, after) in enumerate(zip(texts, copied)):
        missing = placed_tokens(before, f"{number}.c") - placed_tokens(after, f"{number}.c")
        others = [token for token, _ in missing if token not in names]
        expect(f"no token moves: {name} {number}", others, [])
        lost.update(token for token, _ in missing.elements())
    return lost


def ran(words: list[str]) -> tuple[int, str]:
    """The status of a program, and what it writes."""
    done = subprocess.run(words, capture_output=True, check=False)
    return done.returncode, (done.stdout + done.stderr).decode("latin-1")


def preprocessed(room: str, path: str) -> str:
    """A file as ./sparrow source preprocesses it."""
    os.environ["SPARROW_INCLUDE"] = os.path.join(TOP, "include")
    text = os.path.join(room, "text")
    Preprocessor().write(path, [], text)
    with open(text, encoding="latin-1") as file:
        return file.read()


def behaviour(room: str, texts: list[str]) -> tuple[int, str]:
    """Status and output of the program of texts, or what gcc says of them."""
    paths = []
    for number, text in enumerate(texts):
        paths.append(os.path.join(room, f"{number}.i"))
        with open(paths[-1], "w", encoding="latin-1") as file:
            file.write(text)
    program = os.path.join(room, "program")
    status, said = ran(["gcc", "-w", "-std=gnu90", "-o", program, *paths])
    return (status, said) if status != 0 else ran([program])


def try_alike(room: str, name: str, files: list[str], size: int) -> None:
    """A program with copies and without."""
    folder = os.path.join(HERE, "source", "contexts")
    texts = [preprocessed(room, os.path.join(folder, file)) for file in files]
    copied = made_of(texts, size)
    expect(f"alike: {name} has copies", copied.made > 1, True)
    before = behaviour(room, texts)
    expect(f"alike: {name} runs", before[0], 0)
    expect(f"alike: {name}", behaviour(room, copied.texts), before)
    again = made_of(texts, size).texts
    expect(f"alike: {name} is the same again", again == copied.texts, True)


def try_limits() -> None:
    """How many copies of a function there are, and how far a program grows."""
    head = "static int next(int n) { return n + 1; } int main(void) { "
    copied = made_of([head + "next(1); " * 70 + "return 0; }"], 20)
    expect("64 copies of a function", (copied.made, copied.left), (64, {"next": 6}))
    wrapper = "void *malloc(unsigned long); static void *get(int n) { return malloc(n); }"
    copied = made_of([f"{wrapper} int main(void) {{ {'get(1); ' * 210} return 0; }}"], 0)
    expect("200 copies of a wrapper", (copied.made, copied.left), (200, {"get": 10}))
    # 8,000 statements of two tokens and 11 others: there is room for one of two.
    long = f"static int far(int n) {{ {'n; ' * 8000} return n; }} "
    copied = made_of([long + "int main(void) { far(1); far(2); far(3); return 0; }"], 100000)
    expect("growth", (copied.made, copied.left), (1, {"far": 2}))
    # Nine functions, each of which calls the one before twice.
    chain = "static int f0(int n) { return n; } " + "".join(
        f"static int f{k}(int n) {{ return f{k - 1}(n) + f{k - 1}(n); }} " for k in range(1, 9)
    )
    copied = made_of([chain + "int main(void) { return f8(1) + f8(2); }"], 100)
    # Each of eight functions has two calls of one copy, in which two more are made; main has two.
    expect("depth", copied.made, 7 * (2 + 4) + 2 + 2 + 4)


def try_analysis(room: str) -> None:
    """What the analysis gains, and the words that choose."""
    path = os.path.join(HERE, "source", "contexts", "list.c")

    def source(*words: str) -> tuple[int, list[str], str]:
        done = subprocess.run(
            [os.path.join(TOP, "sparrow"), "source", "--format=plain", *words, path],
            capture_output=True, text=True, check=False,
        )
        return done.returncode, done.stdout.splitlines(), done.stderr

    one = f"{path}:28:3: overrun: offset [10,10], size [10,10]"
    expect("two callers of xmalloc", source(), (1, [one, "1 alarm"], ""))
    expect("without contexts", source("--plain", "--no-contexts")[1][-1], "7 alarms")
    expect("strict has none", source("--plain", "--strict")[1][-1], "7 alarms")
    expect("small functions", source("--contexts=60"), (1, [one, "1 alarm"], ""))
    kept = os.path.join(room, "kept")
    source("--keep", kept)
    analysed = subprocess.run(
        [os.path.join(TOP, "sparrow"), "analyse", os.path.join(kept, "1-list.i")],
        capture_output=True, text=True, check=False,
    )
    expect("what is kept is what was analysed", analysed.stdout, f"{one}\n1 alarm\n")
    values = source("--values")[1]
    expect("values tell the copy", any("xmalloc__1.p = " in line for line in values), True)
    said = "sparrow: --contexts takes a number, as --contexts=50\n"
    for word in ("--contexts=x", "--contexts=", "--contexts"):
        expect(f"no number: {word}", source(word), (3, [], said))


def try_indirect() -> None:
    """What the analysis gains where allocators are called through pointers, and that it loses no
    alarm at these calls."""
    path = os.path.join(HERE, "source", "contexts", "allocators.c")

    def source(*words: str) -> list[str]:
        done = subprocess.run(
            [os.path.join(TOP, "sparrow"), "source", "--format=plain", *words, path],
            capture_output=True, text=True, check=False,
        )
        return done.stdout.splitlines()

    null = [f"{path}:{place}: pointer: value [0,0]" for place in ("36:42", "37:22")]
    one = f"{path}:43:3: overrun: offset [3,3], size [3,3]"
    expect("an allocator of a member", source(), [*null, one, "3 alarms"])
    without = source("--plain", "--no-contexts")
    expect("the same alarms of calls without copies", without[:2], null)
    # Both blocks are one then, of bytes and of any size: each line that accesses it has an alarm.
    lines = {line.split(":")[1] for line in without[2:-1]}
    expect("without copies it is one block", lines, {"38", "39", "41", "43", "44"})


def main() -> int:
    """Tries all."""
    with tempfile.TemporaryDirectory() as room:
        try_rows()
        try_alike(room, "a list", ["list.c"], 0)
        try_alike(room, "two files", ["table.c", "blocks.c"], 0)
        try_alike(room, "small functions", ["table.c", "blocks.c"], 120)
        try_alike(room, "static objects", ["counts.c"], 0)
        try_alike(room, "allocators of members", ["allocators.c"], 0)
        try_limits()
        try_analysis(room)
        try_indirect()
    return tell(faults)


if __name__ == "__main__":
    sys.exit(main())
