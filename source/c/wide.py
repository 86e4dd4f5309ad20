"""The numbers of wide characters (C90 6.1.3.4): those of Unicode, as GCC has them on Linux."""

from __future__ import annotations

import re
from typing import Optional

PIECE = re.compile(
    r"\\(?:([0-7]{1,3})|x([0-9a-fA-F]+)|u([0-9a-fA-F]{4})|U([0-9a-fA-F]{8})|(.))|([^\\]+)",
    re.DOTALL,
)
ESCAPES = {"n": 10, "t": 9, "v": 11, "b": 8, "r": 13, "f": 12, "a": 7}
# wchar_t is an int.
MODULUS = 2**32


def wide_values(texts: list[str]) -> Optional[list[int]]:
    """The numbers of adjacent literals' characters; None where a byte is no part of UTF-8."""
    numbers: list[int] = []
    for text in texts:
        for match in PIECE.finditer(text, text.index(text[-1]) + 1, len(text) - 1):
            octal, *hexadecimals, letter, plain = match.groups()
            digits = next((each for each in hexadecimals if each is not None), None)
            if plain is not None:
                try:
                    numbers += map(ord, plain.encode("latin-1").decode("utf-8"))
                except UnicodeDecodeError:
                    return None
            elif letter is not None:
                numbers.append(ESCAPES.get(letter, ord(letter)))
            else:
                numbers.append(int(octal, 8) if digits is None else int(digits, 16))
    if any(number >= MODULUS for number in numbers):
        return None
    return [number - MODULUS if number >= MODULUS // 2 else number for number in numbers]
