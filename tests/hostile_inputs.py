"""Inputs of tests/hostile.py, each made of its seed alone."""
from __future__ import annotations

import random
from dataclasses import dataclass, field

from hostile_limits import ROWS
from hostile_mutations import WAYS, mutated, spliced
from hostile_texts import Corpus, Texts

# One seed of so many is the next row of the limits, whatever else the seed makes.
ROWS_EVERY = 8


@dataclass(frozen=True)
class Input:
    """Files with their names, what must come of them where that is known, and which words a run takes."""

    seed: int
    kind: str
    texts: dict[str, bytes]
    wanted: str = ""
    mode: int = 0
    flags: list[str] = field(default_factory=list)
    calls: bool = False

    def beginning(self) -> str:
        """The first bytes of all files, on one line."""
        return repr(b" | ".join(self.texts.values())[:100])


def named(texts: Texts) -> dict[str, bytes]:
    """The first files are a.c and b.c."""
    letters = "abcdefghijklmnopqrstuvwxyz"
    return {letters[at % 26] + "x" * (at // 26) + ".c": text for at, text in enumerate(texts)}


def made(seed: int, corpus: Corpus) -> Input:
    rng = random.Random(seed)
    mode, flags, calls = rng.randrange(1 << 16), rng.random() < 1 / 4, rng.random() < 1 / 8
    if seed % ROWS_EVERY == 0:
        row = ROWS[seed // ROWS_EVERY % len(ROWS)]
        return Input(seed, "limit: " + row.name, named(row.texts), row.wanted, mode)
    kind, texts = changed(rng, corpus)
    return Input(seed, kind, named(texts), "", mode, ["--values", "--nodes"] if flags else [], calls)


def changed(rng: random.Random, corpus: Corpus) -> tuple[str, Texts]:
    """A program in which one file is changed; at times it is of two texts, or it has another program's files as well."""
    texts = list(base(rng, corpus)) or [b""]
    at = rng.randrange(len(texts))
    pick = rng.random()
    if pick < 0.1:
        texts[at] = spliced(rng, texts[at], corpus.text(rng))
        return "splice", texts
    if pick < 0.16:
        return "files", linked(rng, texts, corpus)
    name, mutations, _ = rng.choices(WAYS, [share for _, _, share in WAYS])[0]
    texts[at] = mutated(rng, texts[at], mutations)
    return name, texts


def base(rng: random.Random, corpus: Corpus) -> Texts:
    """What is changed: mostly a program of the tests, at times one at a limit."""
    if rng.random() < 0.95:
        return corpus.texts(rng)
    row = rng.choice(ROWS)
    return [text[:20000] for text in row.texts]


def linked(rng: random.Random, texts: Texts, corpus: Corpus) -> Texts:
    """The files of two programs, in any order, or a text that is cut into two files."""
    if rng.random() < 0.5:
        both = texts + corpus.texts(rng)
        rng.shuffle(both)
        return both
    lines = b"".join(texts).splitlines(keepends=True)
    at = rng.randrange(len(lines) + 1)
    return [b"".join(lines[:at]), b"".join(lines[at:])]
