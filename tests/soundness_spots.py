"""What the machine of tests/soundness.py computes with: objects as bytes, pointers as spots of rows, and numbers."""
from __future__ import annotations

from typing import NamedTuple, Optional, Union

from soundness_tree import Declaration, Int, Routine, Type


class Stop(Exception):
    """The end of a run before the program's own."""


class NoVerdict(Stop):
    """What comes is undefined or unspecified, and isn't what the analysis looks for."""


class Fault(Stop):
    """An error that Sparrow has to find: `overrun`, `zero`, `pointer` or `punned`, as its alarms are called."""


class Thing:
    """An object in memory. A byte is a number, a pointer with the number of its byte, or nothing, while unwritten."""

    def __init__(self, size: int, zero: bool) -> None:
        self.bytes: list[Byte] = [0 if zero else None] * size
        self.alive = True


class Spot(NamedTuple):
    """Element `at` of a row at `base`. `room` is where the analysis knows bytes alone: a union, or an untyped block."""

    thing: Thing
    base: int
    length: int
    kind: Type
    at: int
    room: Optional[tuple[int, int]] = None

    def address(self) -> int:
        return self.base + self.at * self.kind.size


Value = Union[int, Spot, Routine, "list[Byte]", None]
Byte = Union[int, tuple[Union[Spot, Routine], int], None]
Frame = dict[Declaration, Thing]


def whole(thing: Thing, kind: Type) -> Spot:
    """An object as a row of one."""
    return Spot(thing, 0, 1, kind, 0)


def pointed(value: Value) -> Spot:
    if not isinstance(value, Spot):
        raise Fault("pointer") if isinstance(value, int) else NoVerdict("a function as data")
    return value


def matches(one: Type, other: Type) -> bool:
    """Whether an access of one type may be to the other (C90 6.3)."""
    return one == other or (isinstance(one, Int) and isinstance(other, Int) and one.size == other.size)


def same_row(left: Spot, right: Spot) -> bool:
    return left.thing is right.thing and left[1:4] == right[1:4] and left.thing.alive


def arithmetic(kind: Int, number: int) -> int:
    """An exact result in its type."""
    if kind.signed and not kind.holds(number):
        raise NoVerdict("overflow")
    return kind.wrapped(number)


def operated(sign: str, kind: Int, left: int, right: int) -> int:
    if sign in ("/", "%"):
        if right == 0:
            raise Fault("zero")
        quotient = abs(left) // abs(right) * (-1 if (left < 0) != (right < 0) else 1)
        arithmetic(kind, quotient)
        return quotient if sign == "/" else left - quotient * right
    if sign in ("<<", ">>"):
        if not 0 <= right < 8 * kind.size or (sign == "<<" and left < 0):
            raise NoVerdict("a shift past the width, or of a negative number")
        return arithmetic(kind, left << right if sign == "<<" else left >> right)
    results = {"+": left + right, "-": left - right, "*": left * right, "&": left & right, "|": left | right,
               "^": left ^ right}
    return arithmetic(kind, results[sign])


def ordered(sign: str, left: int, right: int) -> int:
    results = {"<": left < right, "<=": left <= right, ">": left > right, ">=": left >= right, "==": left == right,
               "!=": left != right}
    return int(results[sign])
