"""Text of files and names as people and other programs take it: valid, and without controls."""

from __future__ import annotations

import re
import unicodedata

CONTROL = re.compile("[\x00-\x08\x0a-\x1f\x7f-\x9f\u2028\u2029\u202a-\u202e\u2066-\u2069]")
REPLACEMENT = "\N{REPLACEMENT CHARACTER}"


def shown(text: str) -> str:
    """A text whose characters are bytes, read as UTF-8; a tab stays."""
    if not text.isascii():
        text = text.encode("latin-1").decode("utf-8", "replace")
    return CONTROL.sub(REPLACEMENT, text)


def width(text: str) -> int:
    """How many columns of a terminal a shown text without tabs takes."""
    if text.isascii():
        return len(text)
    return sum(map(width_of, text))


def width_of(character: str) -> int:
    """The columns of a character: those of East Asia take two, and marks on another none."""
    if unicodedata.combining(character):
        return 0
    return 2 if unicodedata.east_asian_width(character) in "WF" else 1
