"""The tokens of one line, of a source or of a preprocessed text."""

from __future__ import annotations

import re

# A string, a character constant or a comment that doesn't end on the line goes to its end.
TOKEN = re.compile(
    r"""[ \t\v\f\r]+ | \\\r?\n | \n | /\*.*?(?:\*/|\Z) | //[^\n]*
    | (L?"(?:\\.|[^"\\])*"? | L?'(?:\\.|[^'\\])*'? | [A-Za-z_$][\w$]*
    | \.?[0-9](?:[eEpP][+-]|[\w.])*
    | \.\.\.|<<=|>>=|->|\+\+|--|<<|>>|<=|>=|==|!=|&&|\|\||[-+*/%&|^]= | .)""",
    re.VERBOSE | re.DOTALL | re.ASCII,
)
OPENING = frozenset("([{")
CLOSING = frozenset(")]}")


class Line:
    """The spellings and offsets of a line's tokens."""

    def __init__(self) -> None:
        self.texts: list[str] = []
        self.starts: list[int] = []
        self.known_partners: dict[int, int] | None = None
        self.known_numbers: dict[int, list[int]] | None = None

    def add(self, text: str) -> None:
        """Adds the tokens of a text. Their offsets count from its start."""
        for match in TOKEN.finditer(text):
            if match.lastindex is not None:
                self.texts.append(match.group())
                self.starts.append(match.start())

    def end(self, token: int) -> int:
        """The offset behind a token."""
        return self.starts[token] + len(self.texts[token])

    @property
    def partners(self) -> dict[int, int]:
        """The closing bracket of each opening one that is closed on the line."""
        if self.known_partners is None:
            self.known_partners = {}
            opened: list[int] = []
            for at, text in enumerate(self.texts):
                if text in OPENING:
                    opened.append(at)
                elif text in CLOSING and opened:
                    self.known_partners[opened.pop()] = at
        return self.known_partners

    def numbers_at(self, start: int) -> list[int]:
        """The tokens that begin at an offset: more than one where a line is made of pieces."""
        if self.known_numbers is None:
            self.known_numbers = {}
            for token, offset in enumerate(self.starts):
                self.known_numbers.setdefault(offset, []).append(token)
        return self.known_numbers.get(start, [])
