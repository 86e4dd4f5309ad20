"""Values of integer constant expressions (C90 6.4), as far as they are known."""

from __future__ import annotations

import math
import re
from typing import Callable, Optional

from .trees import Expression, records_of
from .types import (
    BOOL, DOUBLE, INT, LONG, UNSIGNED, UNSIGNED_LONG, Floating, Integer, MaybeType, common,
    layout_of, promoted, size_of,
)
from .wide import wide_values

INTEGER = re.compile(r"(0[xX][0-9a-fA-F]+|[0-9]+)([uUlL]*)")
PURE = frozenset(
    ["number", "character", "parenthesis", "binary", "conditional", "comma", "cast", "name"]
)
ESCAPES = {"n": 10, "t": 9, "v": 11, "b": 8, "r": 13, "f": 12, "a": 7}
ESCAPE = re.compile(r"\\(?:([0-7]{1,3})|x([0-9a-fA-F]+)|(.))", re.DOTALL)


def integer_literal(text: str) -> Optional[tuple[int, Integer]]:
    """The value and type of an integer literal (C90 6.1.3.2); `ll` is taken for `l`."""
    match = INTEGER.fullmatch(text)
    if match is None:
        return None
    digits, suffix = match.group(1), match.group(2).lower()
    is_decimal = not digits.startswith("0")
    base = 10 if is_decimal else 16 if digits[:2] in ("0x", "0X") else 8
    try:
        value = int(digits, base)
    except ValueError:
        return None
    kinds: list[Integer] = [LONG, UNSIGNED_LONG]
    if "l" not in suffix:
        kinds = [INT, LONG, UNSIGNED_LONG] if is_decimal else [INT, UNSIGNED, LONG, UNSIGNED_LONG]
    for kind in kinds if "u" not in suffix else [UNSIGNED, UNSIGNED_LONG]:
        if "u" in suffix and "l" in suffix and kind is UNSIGNED:
            continue
        if wrapped(value, kind) == value:
            return value, kind
    return None


def character_value(text: str) -> Optional[int]:
    """The value of a character constant of one character."""
    if text.startswith("L"):
        numbers = wide_values([text])
        return numbers[0] if numbers is not None and len(numbers) == 1 else None
    inside = text[text.index("'") + 1 : -1]
    match = ESCAPE.fullmatch(inside)
    if match is None:
        return wrapped(ord(inside), Integer("char", 1, True)) if len(inside) == 1 else None
    octal, hexadecimal, letter = match.groups()
    if letter is not None:
        return ESCAPES.get(letter, ord(letter))
    value = int(octal, 8) if octal is not None else int(hexadecimal, 16)
    return wrapped(value, Integer("char", 1, True))


def string_length(texts: list[str]) -> int:
    """How many characters adjacent strings have together, without the closing zero."""
    return sum(len(ESCAPE.sub("x", text[text.index('"') + 1 : -1])) for text in texts)


def wrapped(value: int, kind: Integer) -> int:
    """The value as a number of that type."""
    if kind is BOOL:
        return int(value != 0)
    bits = kind.size * 8
    value &= (1 << bits) - 1
    return value - (1 << bits) if kind.is_signed and value >> (bits - 1) else value


def divided(left: int, right: int) -> Optional[int]:
    """The quotient, truncated towards zero."""
    if right == 0:
        return None
    quotient = abs(left) // abs(right)
    return quotient if (left < 0) == (right < 0) else -quotient


def remainder(left: int, right: int) -> Optional[int]:
    """The remainder of that quotient."""
    quotient = divided(left, right)
    return None if quotient is None else left - quotient * right


def shifted(left: int, right: int) -> Optional[int]:
    """`left << right`."""
    return left << right if 0 <= right < 64 else None


ARITHMETIC: dict[str, Callable[[int, int], Optional[int]]] = {
    "+": lambda left, right: left + right,
    "-": lambda left, right: left - right,
    "*": lambda left, right: left * right,
    "/": divided,
    "%": remainder,
    "&": lambda left, right: left & right,
    "|": lambda left, right: left | right,
    "^": lambda left, right: left ^ right,
    "<<": shifted,
    ">>": lambda left, right: left >> right if 0 <= right < 64 else None,
}
COMPARISONS: dict[str, Callable[[int, int], bool]] = {
    "<": lambda left, right: left < right,
    ">": lambda left, right: left > right,
    "<=": lambda left, right: left <= right,
    ">=": lambda left, right: left >= right,
    "==": lambda left, right: left == right,
    "!=": lambda left, right: left != right,
}


def value_of(expression: Optional[Expression]) -> Optional[int]:
    """The value of an integer constant expression, or None where it isn't known."""
    if expression is None:
        return None
    kind, parts = expression.kind, expression.parts
    if kind == "parenthesis":
        return value_of(parts[0])
    if kind == "number":
        literal = integer_literal(expression.text)
        return None if literal is None else literal[0]
    if kind == "character":
        return character_value(expression.text)
    if kind == "name":
        return None if expression.symbol is None else expression.symbol.value
    if kind == "sizeof":
        return size_of(parts[0].type)
    if kind == "sizeof type" and expression.written is not None:
        return size_of(expression.written.type)
    if kind == "generic" and parts:
        return value_of(parts[0])
    if kind == "cast" and isinstance(parts[0].type, Floating):
        if expression.type is BOOL:
            number = floating_value(parts[0])
            return None if number is None else int(number != 0)
        return in_type(truncated(floating_value(parts[0])), expression.type)
    if kind in ("unary", "cast"):
        return unary_value(expression, value_of(parts[0]))
    if kind == "binary":
        return binary_value(expression)
    if kind == "conditional":
        chosen = value_of(parts[0])
        value = None if chosen is None else value_of(parts[1] if chosen else parts[2])
        return in_type(value, expression.type)
    return None


def is_pure(expression: Expression) -> bool:
    """Whether an expression is made of numbers alone, so that it has no access and no effect."""
    if expression.kind in ("sizeof", "sizeof type"):
        return True
    is_made = expression.kind in PURE
    if expression.kind == "unary":
        is_made = expression.text not in ("&", "*")
    if expression.kind == "name":
        is_made = expression.symbol is not None and expression.symbol.kind == "constant"
    return is_made and all(is_pure(part) for part in expression.parts)


def floating_value(expression: Expression) -> Optional[float]:
    """The value of a constant expression as a double, or None where it isn't known exactly."""
    if isinstance(expression.type, Integer):
        value = value_of(expression)
        return float(value) if value is not None and abs(value) < 2**53 else None
    if expression.type is not DOUBLE:
        return None
    parts = [floating_value(part) for part in expression.parts]
    if expression.kind == "number":
        return floating_literal(expression.text)
    if None in parts:
        return None
    known = [part for part in parts if part is not None]
    if expression.kind in ("parenthesis", "cast") or (
        expression.kind == "unary" and expression.text == "+"
    ):
        return known[0]
    if expression.kind == "unary" and expression.text == "-":
        return -known[0]
    if expression.kind == "binary" and expression.text in "+-*/" and len(known) == 2:
        left, right = known
        if expression.text == "/":
            return left / right if right != 0 else None
        return left * right if expression.text == "*" else left + (
            right if expression.text == "+" else -right
        )
    return None


def floating_literal(text: str) -> float:
    """The value of a floating literal, read as a double."""
    if text[:2] in ("0x", "0X"):
        # The digits may have an f; a suffix stands behind the exponent.
        digits, _, exponent = text.lower().partition("p")
        try:
            return float.fromhex(f"{digits}p{exponent.rstrip('fl')}")
        except OverflowError:
            return math.inf
    return float(text.rstrip("fFlL"))


def truncated(value: Optional[float]) -> Optional[int]:
    """The integer towards zero, where there is one."""
    return int(value) if value is not None and abs(value) < 2.0**63 else None


def in_type(value: Optional[int], kind: MaybeType) -> Optional[int]:
    """The value in an integer type."""
    return wrapped(value, kind) if value is not None and isinstance(kind, Integer) else None


def unary_value(expression: Expression, value: Optional[int]) -> Optional[int]:
    """The value of a unary expression or a cast, by its operand's."""
    if value is None:
        return None
    if expression.text == "!":
        return int(not value)
    if expression.text == "-":
        value = -value
    elif expression.text == "~":
        value = ~value
    elif expression.text not in ("+", ""):
        return None
    return in_type(value, expression.type)


def binary_value(expression: Expression) -> Optional[int]:
    """The value of a binary expression."""
    operator = expression.text
    if operator == "%" and expression.parts[0].kind == "call":
        return offset_of(expression)
    left, right = value_of(expression.parts[0]), value_of(expression.parts[1])
    if left is None or right is None:
        return None
    if operator in ("&&", "||"):
        return int(bool(left and right) if operator == "&&" else bool(left or right))
    if operator in ("<<", ">>"):
        kind = promoted(expression.parts[0].type)
    else:
        kind = common(expression.parts[0].type, expression.parts[1].type)
        left, right = in_type(left, kind), in_type(right, kind)
        if left is None or right is None:
            return None
    if operator in COMPARISONS:
        return int(COMPARISONS[operator](left, right))
    return in_type(ARITHMETIC[operator](left, right), kind)


def offset_of(expression: Expression) -> Optional[int]:
    """The offset that stddef.h writes as `__offset(sizeof((T *)0)->member) % sizeof(T)`."""
    call = expression.parts[0]
    if call.kind != "call":
        return None
    if len(call.parts) != 2 or call.parts[0].text != "__offset" or call.parts[1].kind != "sizeof":
        return None
    return offset_in(call.parts[1].parts[0])


def offset_in(expression: Expression) -> Optional[int]:
    """The offset of a member or element from the null pointer that it is found by."""
    kind, parts = expression.kind, expression.parts
    if kind == "cast":
        return 0
    if kind == "parenthesis":
        return offset_in(parts[0])
    base = offset_in(parts[0]) if kind in ("member", "index") else None
    if base is None:
        return None
    if kind == "index":
        index, size = value_of(parts[1]), size_of(expression.type)
        return None if index is None or size is None else base + index * size
    for record, member in zip(records_of(expression), expression.path):
        layout = None if record is None else layout_of(record)
        if record is None or layout is None or member.width is not None:
            return None
        members = record.members or []
        position = next(at for at, other in enumerate(members) if other is member)
        base += layout.offsets[position] // 8
    return base
