"""`long long` has the 8 bytes of `long` here, so one `long` falls; suffixes become shorter."""

from __future__ import annotations

import re

from c.tokens import NAME, NUMBER
from c.words import QUALIFIERS, STORAGE, TYPES

from .walk import Rewriting

SUFFIX = re.compile(r"(0[xX][0-9a-fA-F]+|[0-9]+)(?:([uU]?)(?:ll|LL)|(?:ll|LL)([uU]))")
BESIDE = TYPES | QUALIFIERS | STORAGE


class LongLong(Rewriting):
    """Rewrites words and suffixes; no tree is needed."""

    def prepare(self) -> None:
        """Looks at all tokens."""
        for token in range(self.tokens.count):
            kind, value = self.tokens.kinds[token], self.tokens.values[token]
            if kind == NAME and value == "long" and self.is_second(token):
                self.edits.cut(token, token)
                self.unit.count("long long")
            elif kind == NUMBER and value[-1:] in "lLuU":
                self.number(token, value)

    def is_second(self, token: int) -> bool:
        """Whether there is a `long` before in the same specifiers."""
        before = token - 1
        while before >= 0 and self.tokens.values[before] in BESIDE:
            if self.tokens.values[before] == "long":
                return True
            before -= 1
        return False

    def number(self, token: int, value: str) -> None:
        """A number with the suffix of `long long`."""
        match = SUFFIX.fullmatch(value)
        if match is not None:
            unsigned = match.group(2) or match.group(3) or ""
            self.edits.replace(token, token, f"{match.group(1)}{unsigned}l")
            self.unit.count("long long")
