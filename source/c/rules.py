"""The types of expressions (C90 6.3), where those of their parts are known."""

from __future__ import annotations

import re
from typing import Optional

from .constants import integer_literal
from .trees import Expression
from .types import (
    CHAR, DOUBLE, FLOAT, INT, LONG, LONG_DOUBLE, UNSIGNED_LONG, Array, Floating, Function, Integer,
    MaybeType, Member, Pointer, Record, Void, common, decayed, promoted,
)

FLOATING = re.compile(
    r"(?:[0-9]+\.[0-9]*|\.[0-9]+)(?:[eE][+-]?[0-9]+)?([fFlL]?)|[0-9]+[eE][+-]?[0-9]+([fFlL]?)"
    r"|0[xX][0-9a-fA-F]*\.?[0-9a-fA-F]*[pP][+-]?[0-9]+([fFlL]?)"
)
COMPARING = frozenset(["<", ">", "<=", ">=", "==", "!=", "&&", "||"])
ADDING = frozenset(["+", "-"])


def number_type(text: str) -> MaybeType:
    """The type of a number."""
    literal = integer_literal(text)
    if literal is not None:
        return literal[1]
    match = FLOATING.fullmatch(text)
    if match is None:
        return None
    suffix = "".join(group or "" for group in match.groups()).lower()
    return FLOAT if suffix == "f" else LONG_DOUBLE if suffix == "l" else DOUBLE


def value_type(expression: Expression) -> MaybeType:
    """The type of an expression's value."""
    return decayed(expression.type)


def unary_type(operator: str, operand: Expression) -> MaybeType:
    """The type of a unary expression."""
    if operator == "!":
        return INT
    if operator == "&":
        return Pointer(operand.type)
    if operator == "*":
        pointer = value_type(operand)
        return pointer.target if isinstance(pointer, Pointer) else None
    return promoted(operand_type(operand))


def operand_type(expression: Expression) -> MaybeType:
    """The type of an operand: that of bits of a member is the promoted one (C90 6.2.1.1)."""
    kind = value_type(expression)
    inner = stripped(expression)
    if inner.path and inner.path[-1].width is not None and isinstance(kind, Integer):
        is_int = kind.is_signed or inner.path[-1].width < 32
        return INT if kind.size <= 4 and is_int else kind
    return kind


def stripped(expression: Expression) -> Expression:
    """The expression without parentheses around it."""
    while expression.kind == "parenthesis":
        expression = expression.parts[0]
    return expression


def binary_type(operator: str, left: Expression, right: Expression) -> MaybeType:
    """The type of a binary expression."""
    if operator in COMPARING:
        return INT
    first, second = operand_type(left), operand_type(right)
    if operator in ("<<", ">>"):
        return promoted(first)
    if operator in ADDING:
        if isinstance(first, Pointer):
            return LONG if isinstance(second, Pointer) else first
        if isinstance(second, Pointer):
            return second
    return common(first, second)


def conditional_type(left: Expression, right: Expression) -> MaybeType:
    """The type of a conditional expression with these two branches."""
    first, second = operand_type(left), operand_type(right)
    if isinstance(first, (Record, Void)):
        return first
    if isinstance(second, (Record, Void)):
        return second
    pointers = [kind for kind in (first, second) if isinstance(kind, Pointer)]
    if pointers:
        known = [kind for kind in pointers if not isinstance(kind.target, Void)]
        return known[0] if known else pointers[0]
    return common(first, second)


def path_of(kind: MaybeType, operator: str, name: str) -> list[Member]:
    """The members from a record, or a pointer to it, to the named one."""
    if operator == "->":
        kind = kind.target if isinstance(kind, Pointer) else None
    return kind.path_to(name) if isinstance(kind, Record) else []


def element_type(array: Expression, index: Expression) -> MaybeType:
    """The type of an element."""
    for kind in (value_type(array), value_type(index)):
        if isinstance(kind, Pointer):
            return kind.target
    return None


def result_type(function: Expression) -> MaybeType:
    """The type of a call's result."""
    called = called_function(function)
    return None if called is None else called.result


def called_function(function: Expression) -> Optional[Function]:
    """The type of the function that is called."""
    kind = value_type(function)
    if isinstance(kind, Pointer):
        kind = kind.target
    return kind if isinstance(kind, Function) else None


def is_floating(kind: MaybeType) -> bool:
    """Whether a type is floating."""
    return isinstance(kind, Floating)


def string_type(length: int, is_wide: bool) -> MaybeType:
    """The type of a string of that length."""
    return Array(INT if is_wide else CHAR, length + 1)


SIZE_TYPE = UNSIGNED_LONG
