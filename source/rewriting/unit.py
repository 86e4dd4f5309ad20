"""A unit that is rewritten, and what all units of a program share."""

from __future__ import annotations

from typing import Iterator, Union

from c.edits import Edits
from c.fresh import FreshNames
from c.places import Places
from c.rules import FLOATING
from c.tokens import NAME, NUMBER, Tokens
from c.trees import External, FunctionDefinition, Unread
from c.units import Units


class Untyped(Exception):
    """A unit whose floating numbers and _Bool can't be rewritten, and why."""

    def __init__(self, token: int, text: str) -> None:
        super().__init__(text)
        self.token = token
        self.text = text


class Unit:
    """A preprocessed text with its trees and edits, and what was rewritten in it."""

    def __init__(self, text: str, file: str) -> None:
        self.file = file
        self.tokens = Tokens(text)
        self.places = Places(text, file)
        reader = Units(self.tokens)
        self.parts: list[Union[External, Unread]] = reader.unit()
        # The first call of each function that isn't declared there.
        self.implicit = reader.implicit
        # The first name that isn't declared.
        self.undeclared = reader.undeclared
        self.edits = Edits(self.tokens, self.places)
        # How often each form was rewritten, by its name in FORMS.
        self.counts: dict[str, int] = {}
        # Whether its floating numbers become integers.
        self.has_floats = False
        # What stands at the head of the unit, in order.
        self.heads: list[str] = []
        self.names = {
            value for kind, value in zip(self.tokens.kinds, self.tokens.values) if kind == NAME
        }
        self.fresh = FreshNames(self.names)
        # What stays as it is although it was meant to be rewritten: token and reason.
        self.left = [(part.token, part.text) for part in self.unread()]

    def count(self, form: str) -> None:
        """Counts a form that was rewritten."""
        self.counts[form] = self.counts.get(form, 0) + 1

    def leave(self, token: int, reason: str) -> None:
        """Notes that something stays as it is."""
        self.left.append((token, reason))

    def new_name(self, stem: str) -> str:
        """A name that the unit doesn't have."""
        return self.fresh.make(stem)

    def functions(self) -> list[FunctionDefinition]:
        """The functions that are defined here."""
        return [part for part in self.parts if isinstance(part, FunctionDefinition)]

    def may_have_floats(self) -> bool:
        """Whether a word or number is there that floating numbers begin with."""
        return next(self.floating_tokens(), None) is not None

    def floating_tokens(self) -> Iterator[int]:
        """The words and numbers that floating numbers begin with."""
        for token, (kind, value) in enumerate(zip(self.tokens.kinds, self.tokens.values)):
            is_number = kind == NUMBER and FLOATING.fullmatch(value) is not None
            if is_number or value in ("float", "double"):
                yield token

    def unread(self) -> list[Unread]:
        """The parts that can't be read."""
        return [part for part in self.parts if isinstance(part, Unread)]

    def result(self) -> str:
        """The rewritten text."""
        for head in reversed(self.heads):
            self.edits.before(0, head)
        self.heads = []
        return self.edits.result()


class Variadic:
    """A function that is defined with `...`: its named parameters, and whether it is static."""

    def __init__(self, named: int, is_static: bool) -> None:
        self.named = named
        self.is_static = is_static


class Program:
    """What the units of a program share."""

    def __init__(self) -> None:
        # Variadic functions with external linkage that some unit defines.
        self.variadic: dict[str, Variadic] = {}
        # Whether floating numbers become integers.
        self.has_floats = False
