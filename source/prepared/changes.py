"""What is put into a text by its tokens, of which each that stays keeps its place."""

from __future__ import annotations

from contexts.functions import ContextUnit
from contexts.placed import edited


class Changes:
    """What stands in place of tokens of a unit, and before and behind them."""

    def __init__(self, unit: ContextUnit) -> None:
        self.unit = unit
        self.spellings: dict[int, str] = {}
        self.heads: dict[int, str] = {}

    def replace(self, first: int, last: int, text: str) -> None:
        """Puts a text in place of tokens."""
        for token in range(first, last + 1):
            self.spellings[token] = ""
        self.spellings[first] = text

    def before(self, token: int, text: str) -> None:
        """Puts a text before a token, and before all that was put there."""
        self.heads[token] = text + self.heads.get(token, "")

    def after(self, token: int, text: str) -> None:
        """Puts a text behind a token, and behind all that was put there."""
        self.spellings[token] = self.spellings.get(token, self.unit.tokens.values[token]) + text

    def text(self) -> str:
        """The text of the unit."""
        tokens = self.unit.tokens
        if not self.spellings and not self.heads:
            return tokens.text
        last = tokens.count - 1
        before, behind = tokens.text[: tokens.starts[0]], tokens.text[tokens.end(last) :]
        return before + edited(self.unit, 0, last, self.spellings, self.heads) + behind
