"""Names that a text doesn't have yet."""

from __future__ import annotations

from typing import AbstractSet


class FreshNames:
    """Makes names beside those of a text: `stem__1`, `stem__2` and so on."""

    def __init__(self, names: AbstractSet[str]) -> None:
        self.names = names
        # The last number that was put behind a stem.
        self.numbers: dict[str, int] = {}

    def make(self, stem: str) -> str:
        """A name of the stem that neither the text has, nor an earlier call gave."""
        number = self.numbers.get(stem, 0) + 1
        while f"{stem}__{number}" in self.names:
            number += 1
        self.numbers[stem] = number
        return f"{stem}__{number}"
