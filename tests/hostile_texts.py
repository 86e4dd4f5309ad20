"""The texts that tests/hostile.py changes: those of the repository's tests, and random programs."""
from __future__ import annotations

import random
import re
from pathlib import Path
from typing import Optional

from soundness_programs import generated

TOP = Path(__file__).resolve().parent.parent
ESCAPE = re.compile(rb"\\(?:x([0-9A-Fa-f]{2})|([0-7]{1,3})|(.))")
LETTERS = {b"n": b"\n", b"t": b"\t", b"r": b"\r"}
# A text that is longer is cut where one is taken: long texts show little more, and take long.
LONGEST = 60000

Texts = list[bytes]


def unescaped(field: bytes) -> bytes:
    """What an escaped text of tests/cases/README.md stands for."""
    def one(found: re.Match[bytes]) -> bytes:
        if found[1] or found[2]:
            return bytes([int(found[1] or found[2], 16 if found[1] else 8) & 255])
        return LETTERS.get(found[3], found[3])
    return b"" if field in (b"(empty)", b"(none)") else ESCAPE.sub(one, field)


def rows(path: Path) -> list[Texts]:
    """The programs of a table: all fields between the status and the answer."""
    fields = (line.split(b"\t") for line in path.read_bytes().splitlines() if line)
    return [[unescaped(text) for text in row[2:-1] if text != b"(none)"] for row in fields if len(row) > 3]


class Corpus:
    """Programs by the folder that they come from. Each folder has its share, whatever it holds."""

    def __init__(self, folder: Optional[Path] = None) -> None:
        self.groups: list[list[Texts]] = []
        self.shares: list[int] = []
        self.add([[path.read_bytes()] for path in sorted(TOP.glob("examples/*.c"))], 1)
        self.add([[path.read_bytes()] for path in sorted(TOP.glob("tests/idioms/*.c"))], 4)
        # Most of the cases are refused as they are, so that little comes of a change.
        self.add([texts for path in sorted(TOP.glob("tests/cases/*.tsv")) for texts in rows(path)], 1)
        self.add([texts for path in sorted(TOP.glob("tests/programs/*.tsv")) for texts in rows(path)], 4)
        if folder is not None:
            found = sorted(it for it in folder.rglob("*") if it.is_file() and it.suffix in (".c", ".i"))
            self.add([[path.read_bytes()] for path in found], 10)

    def add(self, group: list[Texts], share: int) -> None:
        if group:
            self.groups.append(group)
            self.shares.append(share)

    def texts(self, rng: random.Random) -> Texts:
        """The files of a program. One of forty is random, since these take longest."""
        if rng.random() < 1 / 40:
            return [generated(rng).text().encode("ascii")]
        return [text[:LONGEST] for text in rng.choice(rng.choices(self.groups, self.shares)[0])]

    def text(self, rng: random.Random) -> bytes:
        return rng.choice(self.texts(rng) or [b""])
