"""The functions from outside that a program gives a pointer to what they may write."""

from __future__ import annotations

import sys

from c.tokens import NAME, Tokens, Unreadable
from rewriting.program import RECURSION
from rewriting.unit import Program, Unit
from rewriting.walk import Context, Walk

from .words import EXPECTED, KNOWN
from .written import PointerCalls


def given_pointers(texts: list[str]) -> list[str]:
    """The names of these functions, sorted. What can't be read tells none."""
    sys.setrecursionlimit(max(sys.getrecursionlimit(), RECURSION))
    try:
        looks = [FirstLook(Tokens(text)) for text in texts]
        defined = {name for look in looks for name in look.defined}
        if all(look.called <= look.own | defined for look in looks):
            return []
        calls = [calls_in(Unit(text, "")) for text in texts]
    except (Unreadable, RecursionError, ArithmeticError, LookupError, ValueError, TypeError):
        # Nothing hangs on a note.
        return []
    defined = {name for each in calls for name in each.defined}
    return sorted({name for each in calls for name in each.found} - defined)


class FirstLook:
    """What tokens tell of functions: it is enough where nothing from outside is called."""

    def __init__(self, tokens: Tokens) -> None:
        self.tokens = tokens
        # The names that are called, but for functions that are expected.
        self.called: set[str] = set()
        # The functions that have a body here, and those of them that other files may call.
        self.own: set[str] = set()
        self.defined: set[str] = set()
        self.look()

    def look(self) -> None:
        """Looks at all names before a parenthesis: calls stand within braces."""
        kinds, values = self.tokens.kinds, self.tokens.values
        depth, is_static = 0, False
        for token in range(self.tokens.count):
            value = values[token]
            if value in ("{", "}"):
                depth += 1 if value == "{" else -1
            if depth == 0 and value in ("}", ";", "static"):
                is_static = value == "static"
            if kinds[token] == NAME and values[token + 1] == "(" and value not in EXPECTED:
                if depth > 0:
                    self.call(token)
                elif values[self.tokens.matching(token + 1) + 1] == "{":
                    self.own.add(value)
                    if not is_static:
                        self.defined.add(value)

    def call(self, token: int) -> None:
        """A call, but for one of a known function with as many arguments as it has."""
        name, tokens = self.tokens.values[token], self.tokens
        if name not in KNOWN or KNOWN[name] != arguments_in(tokens, token + 1):
            self.called.add(name)


def arguments_in(tokens: Tokens, opening: int) -> int:
    """How many arguments stand in parentheses."""
    token, end, count = opening + 1, tokens.matching(opening), 0
    if token == end:
        return 0
    while token < end:
        if tokens.values[token] in ("(", "[", "{"):
            token = tokens.matching(token)
        count += tokens.values[token] == ","
        token += 1
    return count + 1


def calls_in(unit: Unit) -> PointerCalls:
    """What a unit calls."""
    context = Context()
    calls = PointerCalls(unit, Program(), context)
    Walk(unit, context, [calls]).walk()
    return calls
