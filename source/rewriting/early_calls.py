"""A function that is called before it is defined gets a declaration before the call.

Without it the call would declare it as one that gives an `int` (C90 6.3.2.2).
"""

from __future__ import annotations

from bisect import bisect_right
from typing import Optional

from c.trees import FunctionDefinition
from c.types import INT, Floating, Function, Integer, MaybeType

from .walk import Rewriting


class EarlyCalls(Rewriting):
    """Writes the declarations; the call's own would not fit the definition."""

    def prepare(self) -> None:
        """Looks at the functions that are defined here."""
        firsts = [part.first for part in self.unit.parts]
        for function in self.unit.functions():
            token = self.unit.implicit.get(function.declarator.name or "", function.first)
            text = self.declaration_of(function)
            if token >= function.first or text is None:
                continue
            self.edits.before(firsts[bisect_right(firsts, token) - 1], text)
            self.unit.count("function called before its definition")

    def declaration_of(self, function: FunctionDefinition) -> Optional[str]:
        """A declaration without parameters; None where none is needed, or none fits."""
        kind, specifiers = function.declarator.type, function.specifiers
        if not isinstance(kind, Function) or specifiers.body is not None or specifiers.is_implicit:
            return None
        if any(is_narrow(parameter) for parameter in kind.parameters or []):
            return None
        if kind.result is INT and "static" not in specifiers.storage:
            return None
        part, declarator = function.declarator.functions[0], function.declarator
        before = self.edits.text_of(specifiers.first, specifiers.last)
        name = self.edits.text_of(declarator.first, part.open)
        return f"{before} {name} {self.edits.text_of(part.close, declarator.last)};"


def is_narrow(kind: MaybeType) -> bool:
    """Whether a parameter of that type is passed as another without a prototype."""
    return (isinstance(kind, Integer) and kind.size < 4) or (
        isinstance(kind, Floating) and kind.size < 8
    )
