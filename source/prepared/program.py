"""Prepares all units of a program together."""

from __future__ import annotations

import sys
from typing import Optional

from c.tokens import BAD
from contexts.functions import ContextUnit
from rewriting.program import RECURSION

from .changes import Changes
from .conditions import name_conditions
from .endings import Endings, end_calls
from .modelling import Modeller

# How what is called is declared, where the program doesn't.
DECLARATIONS = {
    "memset": "void *memset(void *, int, unsigned long)",
    "memmove": "void *memmove(void *, const void *, unsigned long)",
    "strlen": "unsigned long strlen(const char *)",
    "malloc": "void *malloc(unsigned long)",
    "exit": "void exit(int)",
}


def prepared(texts: list[tuple[str, str]], with_models: bool) -> Optional[list[str]]:
    """The texts of a program's files as the analysis takes them; None where none changes. Each text
    comes with its file's name."""
    sys.setrecursionlimit(max(sys.getrecursionlimit(), RECURSION))
    try:
        units = [ContextUnit(text, file) for file, text in texts]
        if any(BAD in unit.tokens.kinds for unit in units):
            return None
        preparer = Preparer(units, with_models)
        written = [preparer.text(unit) for unit in units]
    except (RecursionError, ArithmeticError, LookupError, ValueError, TypeError, AttributeError):
        # No text may make the run crash, whatever was overlooked here: it is analysed as it is.
        return None
    return written if written != [text for _, text in texts] else None


class Preparer:
    """Prepares the texts of units."""

    def __init__(self, units: list[ContextUnit], with_models: bool) -> None:
        self.endings = Endings(units)
        self.modeller = Modeller(units) if with_models else None

    def text(self, unit: ContextUnit) -> str:
        """A unit's text."""
        changes = Changes(unit)
        name_conditions(unit, changes)
        needed = {"exit"} if end_calls(unit, self.endings, changes) else set[str]()
        if self.modeller is not None:
            needed |= self.modeller.add(unit, changes)
        declare(unit, needed, changes)
        return changes.text()


def declare(unit: ContextUnit, needed: set[str], changes: Changes) -> None:
    """Declares what is called and the file doesn't declare, before its first function."""
    first = unit.candidates[0].node.first if unit.candidates else 0
    known = unit.scope.names
    for name in sorted(needed):
        if name not in known or known[name].first >= first:
            changes.before(first, f"\nextern {DECLARATIONS[name]};")
