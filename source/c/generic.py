"""Which expression `_Generic` chooses (C11 6.5.1.1), where the types tell that for certain.

Types are known here without their qualifiers, and `long long` is `long`. So two types may be taken
for one: then nothing is chosen, unless all that may be meant is spelled alike.
"""

from __future__ import annotations

import re
from typing import NamedTuple, Optional

from .rules import stripped, value_type
from .tokens import Tokens
from .trees import Expression, TypeName
from .types import (
    ENUM, LONG, UNSIGNED_LONG, Array, Floating, Function, Integer, MaybeType, Pointer, Void,
)

LONG_LONG = re.compile(r"\blong\s+(?:\w+\s+)?long\b|[0-9][uU]?(?:ll|LL)")


class Choice(NamedTuple):
    """A type, or None for `default`, and the expression that it chooses."""

    written: Optional[TypeName]
    expression: Expression


def chosen_of(
    control: Expression, choices: list[Choice], tokens: Tokens
) -> Optional[Expression]:
    """The expression that a type chooses; None where that isn't certain."""
    kind = value_type(control)
    if kind is None or has_bits(control):
        return None
    left = [each for each in choices if each.written and may_be(kind, each.written.type)]
    if not left or not is_certain(kind, tokens.text):
        left += [each for each in choices if each.written is None]
    spellings = {tokens.spelling(each.expression.first, each.expression.last) for each in left}
    return left[0].expression if len(spellings) == 1 else None


def has_bits(control: Expression) -> bool:
    """Whether an expression is a bit-field, whose type isn't told by the standard."""
    path = stripped(control).path
    return bool(path) and path[-1].width is not None


def may_be(left: MaybeType, right: MaybeType) -> bool:
    """Whether two types may be compatible."""
    if left is None or right is None:
        return True
    if isinstance(left, Pointer) and isinstance(right, Pointer):
        return may_be(left.target, right.target)
    if isinstance(left, Array) and isinstance(right, Array):
        return may_be(left.element, right.element)
    if isinstance(left, Integer) and isinstance(right, Integer) and ENUM in (left, right):
        # The compiler chooses the integers for an enumerated type.
        return left.size >= ENUM.size and right.size >= ENUM.size
    same = (Function, Void)
    return left is right or (isinstance(left, same) and type(left) is type(right))


def is_certain(kind: MaybeType, text: str) -> bool:
    """Whether a value's type is told exactly: it has no qualifiers, and isn't of the compiler."""
    if kind is LONG or kind is UNSIGNED_LONG:
        return LONG_LONG.search(text) is None
    return isinstance(kind, (Integer, Floating)) and kind is not ENUM
