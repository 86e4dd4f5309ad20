"""The expression that is accessed at a token, as far as the tokens of its line tell it for sure."""

from __future__ import annotations

from typing import NamedTuple, Optional

from .tokens import Line

# Words that begin no expression that is accessed.
WORDS = frozenset(
    "auto break case char const continue default do double else enum extern float for goto if int"
    " long register return short signed sizeof static struct switch typedef union unsigned void"
    " volatile while".split()
)
# Words that begin a type.
TYPES = frozenset(
    "char const double enum float int long short signed struct union unsigned void volatile".split()
)
PREFIXES = frozenset(["*", "&", "-", "+", "!", "~", "++", "--"])
# What may stand behind the divisor of an assignment.
ENDS = frozenset([";", ")", "]", ",", "}", ":"])


# What a form is: one access, the call of a function, or more than one access that begin there.
ACCESS, CALL, CHAIN = range(3)


class Form(NamedTuple):
    """Tokens from the first on, up to the one before the end. Within them is what is followed."""

    role: int
    first: int
    end: int
    followed: tuple[int, int]
    outline: tuple[str, ...]


class Steps(NamedTuple):
    """What stands behind a name: its end, how often a pointer is followed, and the last time."""

    end: int
    follows: int
    followed_end: int
    is_call: bool


class Reader:
    """Reads the tokens of a line."""

    def __init__(self, line: Line) -> None:
        self.line = line

    def text(self, token: int) -> str:
        """A token's spelling; behind the line there is none."""
        return self.line.texts[token] if 0 <= token < len(self.line.texts) else ""

    def is_name(self, token: int) -> bool:
        """Whether a token is an identifier."""
        text = self.text(token)
        return text.isidentifier() and text.isascii() and text not in WORDS

    def accessed(self, token: int) -> Optional[Form]:
        """What is accessed where its place is that token."""
        if self.text(token) == "*":
            end = self.operand(token + 1)
            return None if end is None else self.form(ACCESS, token, end, (token + 1, end))
        if not self.is_name(token):
            return None
        steps = self.postfix(token + 1)
        if steps is None or steps.follows == 0:
            return None
        role = CHAIN if steps.follows > 1 else CALL if steps.is_call else ACCESS
        return self.form(role, token, steps.end, (token, steps.followed_end))

    def divisor(self, token: int) -> Optional[Form]:
        """The divisor of the operator that is that token."""
        operator = self.text(token)
        if operator not in ("/", "%", "/=", "%="):
            return None
        end = self.operand(token + 1)
        if end is None or (len(operator) == 2 and self.text(end) not in ENDS):
            return None
        return self.form(ACCESS, token + 1, end, (token + 1, end))

    def postfix(self, token: int) -> Optional[Steps]:
        """The way from behind a name through what follows pointers and names members."""
        follows, followed_end, is_call = 0, token, False
        while True:
            text = self.text(token)
            if text in ("[", "(", "->"):
                follows += 1
                followed_end = token
                is_call = text == "("
            if text in ("[", "("):
                closing = self.line.partners.get(token)
                if closing is None:
                    return None
                token = closing + 1
            elif text in ("->", ".") and self.is_name(token + 1):
                token += 2
            else:
                return Steps(token, follows, followed_end, is_call)

    def operand(self, token: int) -> Optional[int]:
        """The token behind an operand of `*` or `/` (C90 6.3.4), if the line tells it for sure."""
        while True:
            text = self.text(token)
            if text in PREFIXES:
                token += 1
            elif text == "(":
                closing = self.line.partners.get(token)
                if closing is None:
                    return None
                if self.text(token + 1) in TYPES or self.is_value(closing + 1):
                    token = closing + 1
                else:
                    # In `(a)(b)` the first may be a type.
                    return None if self.text(closing + 1) == "(" else self.behind(closing + 1)
            else:
                return self.behind(token + 1) if self.is_value(token) else None

    def is_value(self, token: int) -> bool:
        """Whether a token is a name or a number: behind a bracket it has been a cast's."""
        return self.is_name(token) or self.text(token)[:1].isdigit()

    def behind(self, token: int) -> Optional[int]:
        """The token behind the rest of a postfix expression."""
        steps = self.postfix(token)
        while steps is not None and self.text(steps.end) in ("++", "--"):
            steps = self.postfix(steps.end + 1)
        return None if steps is None else steps.end

    def form(self, role: int, first: int, end: int, followed: tuple[int, int]) -> Form:
        """The form of these tokens. Its outline leaves out what stands in brackets."""
        outline = []
        token = first
        while token < end:
            outline.append(self.text(token))
            closing = self.line.partners.get(token)
            token = token + 1 if closing is None else closing
        return Form(role, first, end, followed, tuple(outline))
