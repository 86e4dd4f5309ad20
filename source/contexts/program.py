"""Copies functions in all units of a program together."""

from __future__ import annotations

import sys
from typing import NamedTuple, Optional

from c.tokens import BAD
from rewriting.program import RECURSION

from .copies import Copier
from .functions import Calls, ContextUnit, Targets


class Copied(NamedTuple):
    """The texts with copies, how many there are, and the calls that stay for want of room."""

    texts: list[str]
    made: int
    left: dict[str, int]


def with_copies(
    texts: list[tuple[str, str]], size: int, targets: Targets
) -> Optional[Copied]:
    """The texts of a program's files with copies; None where there are none.

    Each text comes with its file's name. Allocation wrappers are copied, and functions of up to
    `size` tokens. `targets` tells to which functions the indirect calls of these texts lead.
    """
    sys.setrecursionlimit(max(sys.getrecursionlimit(), RECURSION))
    try:
        units = [ContextUnit(text, file) for file, text in texts]
        if any(BAD in unit.tokens.kinds for unit in units):
            return None
        copier = Copier(Calls(units, targets), size)
        if not copier.copied:
            return None
        copied = [copier.text(unit) for unit in units]
    except RecursionError:
        return None
    except (ArithmeticError, LookupError, ValueError, TypeError, AttributeError):
        # No text may make the run crash, whatever was overlooked here: it is analysed as it is.
        return None
    made = sum(copier.counts.values())
    return Copied(copied, made, copier.left) if made or copier.left else None
