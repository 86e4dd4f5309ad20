"""The tokens of a preprocessed text (C90 6.1), by number, and where each stands in the text."""

from __future__ import annotations

import re

END, NAME, NUMBER, STRING, CHARACTER, MARK, BAD = range(7)

# A text is decoded as Latin-1: a character is a byte.
TOKEN = re.compile(
    r"""^[ \t]*\#[^\n]* | \n+ | [ \t\v\f\r]+ | /\*.*?\*/ | //[^\n]*
    | ([A-Za-z_]\w*)(?!["'\w])
    | (\.?[0-9](?:[eEpP][+-]|[0-9A-Za-z_.])*)
    | (L?"(?:\\.|[^"\\\n])*")
    | (L?'(?:\\.|[^'\\\n])*')
    | (\.\.\.|<<=|>>=|->|\+\+|--|<<|>>|<=|>=|==|!=|&&|\|\||[-+*/%&|^]=|[-+*/%&|^~!<>=?:;,.(){}\[\]])
    | (.)""",
    re.VERBOSE | re.DOTALL | re.MULTILINE | re.ASCII,
)

# Tokens that may be read behind the last one.
LOOKAHEAD = 4

OPENING = frozenset("([{")
CLOSING = frozenset(")]}")


class Unreadable(Exception):
    """The text isn't C as far as it is read here, from the token of that number on."""

    def __init__(self, token: int, text: str) -> None:
        super().__init__(text)
        self.token = token
        self.text = text


class Tokens:
    """Kind, spelling and offset of each token. Behind the last there are some without spelling."""

    def __init__(self, text: str) -> None:
        self.text = text
        self.kinds: list[int] = []
        self.values: list[str] = []
        self.starts: list[int] = []
        self.partners: dict[int, int] = {}
        for match in TOKEN.finditer(text):
            kind = match.lastindex
            if kind is not None:
                self.kinds.append(kind)
                self.values.append(match.group())
                self.starts.append(match.start())
        self.count = len(self.kinds)
        self.kinds += [END] * LOOKAHEAD
        self.values += [""] * LOOKAHEAD
        self.starts += [len(text)] * LOOKAHEAD

    def end(self, token: int) -> int:
        """The offset behind a token."""
        return self.starts[token] + len(self.values[token])

    def spelling(self, first: int, last: int) -> str:
        """The tokens from one to another, with single blanks."""
        return " ".join(self.values[first : last + 1])

    def matching(self, token: int) -> int:
        """The token that closes the bracket which that token opens."""
        if not self.partners:
            self.partners = self.paired()
        if token not in self.partners:
            raise Unreadable(token, "a bracket that isn't closed")
        return self.partners[token]

    def paired(self) -> dict[int, int]:
        """The closing bracket of each opening one."""
        partners: dict[int, int] = {}
        opened: list[int] = []
        for at, value in enumerate(self.values):
            if value in OPENING:
                opened.append(at)
            elif value in CLOSING and opened:
                partners[opened.pop()] = at
        return partners
