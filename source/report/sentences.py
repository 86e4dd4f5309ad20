"""What a finding says, in words."""

from __future__ import annotations

from typing import Optional

from .expressions import ACCESS, CALL, CHAIN
from .folding import FAR, Finding, Interval, is_unknown
from .kinds import NO_FUNCTION, NULL, OVERRUN, PUNNED, ZERO
from .spots import Expression

UNSIZED = "the object's size isn't known"


def sentence(finding: Finding, expression: Optional[Expression]) -> str:
    """The sentence of a finding, without an end."""
    said = about(finding, expression)
    return said if finding.alarms == 1 else f"{said} ({finding.alarms} alarms)"


def about(finding: Finding, expression: Optional[Expression]) -> str:
    """What is said of a finding's kind."""
    if finding.kind == OVERRUN:
        return overrun(finding, expression)
    if finding.kind == ZERO:
        return divisor(finding.intervals["value"], expression)
    if finding.kind == PUNNED:
        return punned(finding, expression)
    if finding.kind == NO_FUNCTION:
        is_told = expression is not None and expression.role == CALL
        what = f"'{expression.followed}'" if expression and is_told else "what is called"
        return f"{what} may be no function of as many parameters"
    if finding.kind == NULL:
        return f"{following(expression)} the null pointer"
    said = f"{following(expression)} {number(finding.intervals['value'])}, which is no pointer"
    return f"{said}, and {UNSIZED}" if "size" in finding.intervals else said


def following(expression: Optional[Expression]) -> str:
    """What is followed as a pointer, and that it may be something else."""
    if expression is None:
        return "what is followed here may be"
    if expression.role == CALL:
        return f"the call of '{expression.followed}' may follow"
    if expression.role == CHAIN:
        return f"what is followed in '{expression.whole}' may be"
    return f"'{expression.followed}' may be"


def overrun(finding: Finding, expression: Optional[Expression]) -> str:
    """Where an access may be, and what the object has."""
    offset, count, size = (finding.intervals[name] for name in ("offset", "count", "size"))
    if count != (1, 1):
        unit = "byte" if is_of_bytes(count, expression) else "element"
        taken = f"{range_of(count)} {unit}s from {offset_of(offset)}"
        return f"{access(expression)} may take {taken}, but {has(size, unit)}"
    verb = "be"
    if expression is not None:
        verb = {ACCESS: "be accessed", CALL: "access an element", CHAIN: "be"}[expression.role]
    where = offset_of(outside(offset, size[0]))
    return f"{access(expression)} may {verb} at {where}, but {has(size)}"


def is_of_bytes(count: Interval, expression: Optional[Expression]) -> bool:
    """Whether a count is one of bytes for sure: only functions of the library take more elements
    than one. The call of one may begin a chain."""
    if expression is None or count[0] < 2:
        return False
    is_chain = expression.role == CHAIN and "(" not in expression.whole
    return expression.role == ACCESS or is_chain


def access(expression: Optional[Expression]) -> str:
    """What accesses: an expression, one within it, or the call of a function of the library."""
    if expression is None:
        return "an access"
    before = {ACCESS: "", CALL: "the call of ", CHAIN: "an access in "}[expression.role]
    return f"{before}'{expression.whole}'"


def outside(offset: Interval, size: int) -> Interval:
    """The offsets among these that are outside an object of that size; all where both sides are."""
    low, high = offset
    if low >= 0 and high >= size:
        return max(low, size), high
    if low < 0 and high < size:
        return low, min(high, -1)
    return offset


def offset_of(offset: Interval) -> str:
    """Where an access may be."""
    if offset[0] <= -FAR and offset[1] >= FAR:
        return "any offset"
    return f"offset {range_of(offset)}"


def range_of(interval: Interval) -> str:
    """The numbers of an interval. A bound that is far away is none."""
    low, high = interval
    if low == high:
        return str(low)
    if high >= FAR:
        return f"{low} or more"
    return f"{high} or less" if low <= -FAR else f"{low} to {high}"


def has(size: Interval, unit: str = "element") -> str:
    """What an object has."""
    if is_unknown(size):
        return UNSIZED
    return f"the object has {range_of(size)} {unit}{'' if size == (1, 1) else 's'}"


def number(value: Interval) -> str:
    """A number of an interval."""
    low, high = value
    if low <= -FAR and high >= FAR:
        return "any number"
    if low != high and high >= FAR:
        return f"a number of {low} or more"
    return str(low) if low == high else f"a number between {low} and {high}"


def divisor(value: Interval, expression: Optional[Expression]) -> str:
    """What a divisor may be."""
    what = "the divisor" if expression is None else f"the divisor '{expression.whole}'"
    if value == (0, 0):
        return f"{what} is 0 here"
    return f"{what} may be 0: it is {number(value)}"


def punned(finding: Finding, expression: Optional[Expression]) -> str:
    """Which type doesn't match which elements."""
    elements, types = (bytes_of(finding.sizes[name]) for name in ("element", "access"))
    return f"{access(expression)} may take elements of {elements} as a type of {types}"


def bytes_of(sizes: set[int]) -> str:
    """Sizes in bytes."""
    told = " or ".join(map(str, sorted(sizes)))
    return f"{told} byte{'' if sizes == {1} else 's'}"
