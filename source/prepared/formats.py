"""The conversions of a format of printf or scanf (C90 7.9.6)."""

from __future__ import annotations

import re
from typing import NamedTuple, Optional

PRINTING = re.compile(
    r"%([-+ #0']*)(\*|[0-9]+)?(?:\.(\*|[0-9]*))?(hh|h|ll|l|L|q|j|z|t)?(.)", re.DOTALL
)
SCANNING = re.compile(r"%(\*?)([0-9]+)?(hh|h|ll|l|L|q|j|z|t)?(\[\^?\]?[^\]]*\]|.)", re.DOTALL)
SIZES = {"hh": 1, "h": 2, "l": 8, "ll": 8, "L": 8, "q": 8, "j": 8, "z": 8, "t": 8}
NUMBERS = frozenset("diouxXn")
FLOATS = {"": 4, "l": 8, "L": 16}
# The most characters of a double up to its point, with a sign, and the digits behind it by
# themselves.
UP_TO_POINT, PRECISION = 311, 6
# The size of a wide character, and the most bytes that it becomes.
WIDE, MOST_BYTES = 4, 16


class Printed(NamedTuple):
    """A conversion of printf: how wide it is at least, `*` being -1, and its precision."""

    flags: str
    width: int
    precision: Optional[int]
    modifier: str
    letter: str

    @property
    def size(self) -> int:
        """The size of a number that it takes."""
        return SIZES.get(self.modifier, 4)

    @property
    def is_wide(self) -> bool:
        """Whether it takes wide characters."""
        return is_wide(self.letter, self.modifier)


class Scanned(NamedTuple):
    """A conversion of scanf that writes: how many bytes, or None where the input tells it."""

    size: Optional[int]


def is_wide(letter: str, modifier: str) -> bool:
    """Whether a conversion is one of wide characters."""
    return letter in ("C", "S") or (modifier == "l" and letter[0] in "cs[")


def number_in(word: str) -> int:
    """A number of a conversion; `*` is -1."""
    return -1 if word == "*" else int(word or "0")


def printed(text: str) -> tuple[int, list[Printed]]:
    """How many characters of a format stand for themselves, and the conversions that take an
    argument."""
    found = []
    rest = len(PRINTING.sub("", text))
    for match in PRINTING.finditer(text):
        flags, width, precision, modifier, letter = match.groups()
        if letter == "%":
            rest += 1
            continue
        precise = None if precision is None else number_in(precision)
        found.append(Printed(flags, number_in(width or ""), precise, modifier or "", letter))
    return rest, found


def scanned(text: str) -> list[Scanned]:
    """The conversions of a format that write through an argument."""
    found = []
    for star, width, modifier, letter in SCANNING.findall(text):
        if letter == "%" or star:
            continue
        found.append(Scanned(count_of(letter, int(width or "0"), modifier)))
    return found


def count_of(letter: str, width: int, modifier: str) -> Optional[int]:
    """How many bytes a conversion writes at most."""
    size = WIDE if is_wide(letter, modifier) else 1
    if letter in NUMBERS:
        return SIZES.get(modifier, 4)
    if letter in "cC":
        return (width or 1) * size
    if letter in "sS" or letter[0] == "[":
        return (width + 1) * size if width else None
    if letter == "$":
        # An argument by its number.
        return None
    return FLOATS.get(modifier, 8) if letter in "aefgAEFG" else 8
