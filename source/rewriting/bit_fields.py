"""Bit-fields become the integers that hold them: any value that has the bits may be read there.

Bit-fields that stand together are one signed integer, or an array, in their place: all other
members keep their offsets, and the struct its size (System V ABI for x86-64, 3.1.2). What is
written is any number, and what is read is any number of as many bits.
"""

from __future__ import annotations

from functools import lru_cache
from typing import NamedTuple, Optional

from c.trees import Declaration, Expression, RecordBody, records_of
from c.types import (
    CHAR, ENUM, INT, LONG, SHORT, Array, Integer, Layout, Member, Record, layout_of,
    layout_of_members,
)

from .floats import CONSTANTS
from .walk import Rewriting

# Integers that may hold bits, from the largest; and what starts them as any number.
HOLDERS = [LONG, INT, SHORT, CHAR]
ANY_START = {8: CONSTANTS[8], 4: CONSTANTS[4], 2: "65535u", 1: "255u"}
ANY = "(long)18446744073709551615u"


# The members of a record by their positions.
Slots = list[Optional[Member]]


class Run(NamedTuple):
    """Bit-fields that stand together: positions from and to, and what holds them, how often."""

    first: int
    last: int
    holder: Optional[Integer]
    holders: int

    def name(self) -> str:
        """The member that holds them."""
        return f"bits__{self.first}"

    def cell(self) -> str:
        """What of it is read or written."""
        return self.name() if self.holders == 1 else f"{self.name()}[0]"

    def start(self, is_zero: bool) -> str:
        """What starts it."""
        value = "0" if is_zero or self.holder is None else ANY_START[self.holder.size]
        return value if self.holders == 1 else "{ " + ", ".join([value] * self.holders) + " }"


@lru_cache(maxsize=None)
def runs_of(record: Record) -> Optional[list[Run]]:
    """What holds the bit-fields of a record; None where nothing gives the same layout."""
    layout = layout_of(record)
    if layout is None:
        return None
    slots: Slots = list(record.members or [])
    runs = []
    for first, last in stretches(record.word, record.members or []):
        run = holder_of(record, slots, first, last)
        if run is None:
            return None
        slots = held_by(slots, run)
        runs.append(run)
    return runs


def stretches(word: str, members: list[Member]) -> list[tuple[int, int]]:
    """The first and last positions of bit-fields beside one another; in a union each is alone."""
    found: list[tuple[int, int]] = []
    for position, member in enumerate(members):
        if member.width is None:
            continue
        if found and found[-1][1] == position - 1 and word == "struct":
            found[-1] = (found[-1][0], position)
        else:
            found.append((position, position))
    return found


def holder_of(record: Record, slots: Slots, first: int, last: int) -> Optional[Run]:
    """The first holder of bits with which all other members keep their places."""
    layout = layout_of(record)
    if layout is None:
        return None
    begin, end = 2**63, 0
    for at in range(first, last + 1):
        member = slots[at]
        if member is not None and member.width:
            begin = min(begin, layout.offsets[at] // 8)
            end = max(end, -(-(layout.offsets[at] + member.width) // 8))
    tries = [Run(first, last, None, 0)]
    if end:
        tries = [
            Run(first, last, holder, -(-(end - begin) // holder.size))
            for holder in HOLDERS
            if begin % holder.size == 0
        ]
    for run in tries:
        if keeps_layout(record, layout, held_by(slots, run), begin if end else None):
            return run
    return None


def held_by(slots: Slots, run: Run) -> Slots:
    """The members with a holder in place of bits; the others' places are empty."""
    kind = run.holder if run.holders == 1 else Array(run.holder, run.holders)
    held = None if run.holder is None else Member(run.name(), kind, None, run.first)
    return [*slots[: run.first], held, *[None] * (run.last - run.first), *slots[run.last + 1 :]]


def keeps_layout(record: Record, before: Layout, slots: Slots, begin: Optional[int]) -> bool:
    """Whether members with holders are where they were, and the holder of this run at its byte."""
    places = [place for place, member in enumerate(slots) if member is not None]
    after = layout_of_members(record.word, [member for member in slots if member is not None])
    if after is None or (after.size, after.alignment) != (before.size, before.alignment):
        return False
    originals = record.members or []
    for place, offset in zip(places, after.offsets):
        if originals[place].width is None and offset != before.offsets[place]:
            return False
        if slots[place] is not originals[place] and offset // 8 != before.offsets[place] // 8:
            return False
    return begin is None or begin * 8 in after.offsets


class BitFields(Rewriting):
    """Rewrites records, reads and writes."""

    def record(self, node: RecordBody) -> None:
        """The members of a record."""
        if all(member.width is None for member in node.record.members or []):
            return
        runs = runs_of(node.record)
        declarations = self.declarations(node)
        if runs is None or declarations is None:
            self.unit.leave(node.open, "bit-fields that no integers hold")
            return
        if len(declarations) != len(node.record.members or []):
            self.unit.leave(node.open, "a struct that is defined twice")
            return
        for run in runs:
            held = [declarations[position] for position in range(run.first, run.last + 1)]
            for declaration in held[1:]:
                if declaration is not held[0]:
                    self.edits.cut(declaration.first, declaration.last)
            length = "" if run.holders == 1 else f"[{run.holders}]"
            text = "" if run.holder is None else f"{run.holder.spelling} {run.name()}{length};"
            self.edits.replace(held[0].first, held[0].last, text)
        self.unit.count("struct with bit-fields")

    def declarations(self, node: RecordBody) -> Optional[list[Declaration]]:
        """The declaration of each member; None where one has bit-fields and other members."""
        found: list[Declaration] = []
        for declaration in node.members:
            widths = [declarator.width is not None for declarator in declaration.declarators]
            if any(widths) and (not all(widths) or declaration.specifiers.body is not None):
                return None
            is_unnamed = not widths and declaration.specifiers.tag < 0
            if widths or (is_unnamed and isinstance(declaration.specifiers.body, RecordBody)):
                found += [declaration] * max(1, len(widths))
        return found

    def expression(self, node: Expression) -> None:
        """A member that is a bit-field, or what assigns to one."""
        if node.kind == "member" and is_bits(node):
            run = self.run_of(node)
            if run is None:
                self.unit.leave(node.first, "a bit-field that no integer holds")
                return
            self.edits.replace(node.last, node.last, run.cell())
            if not self.is_written(node):
                self.edits.around(node.first, node.last, "((void)(", f"), {any_read(node)})")
        elif node.kind in ("assign", "prefix", "postfix"):
            target = bits_of(node.parts[0])
            run = None if target is None else self.run_of(target)
            if target is not None and run is not None and run.holder is not None:
                self.write(node, target, f"(({run.holder.spelling}){ANY})")

    def write(self, node: Expression, target: Expression, any_written: str) -> None:
        """An assignment or a step."""
        if node.kind == "assign":
            right = node.parts[1]
            operator = node.parts[0].last + 1
            self.edits.replace(operator, operator, "=")
            self.edits.around(right.first, right.last, "((void)(", f"), {any_written})")
        else:
            operator = node.first if node.kind == "prefix" else node.last
            self.edits.cut(operator, operator)
            self.edits.after(node.last, f"= {any_written}")
        self.edits.around(node.first, node.last, "(", f", {any_read(target)})")

    def run_of(self, node: Expression) -> Optional[Run]:
        """The run that holds a bit-field."""
        record, member = records_of(node)[-1], node.path[-1]
        if record is None:
            return None
        position = next(
            number for number, other in enumerate(record.members or []) if other is member
        )
        for run in runs_of(record) or []:
            if run.first <= position <= run.last:
                return run
        return None

    def is_written(self, node: Expression) -> bool:
        """Whether a member is what an assignment or a step writes."""
        for parent in reversed(self.context.parents):
            if parent.kind == "parenthesis":
                continue
            if parent.kind in ("assign", "prefix", "postfix"):
                return bits_of(parent.parts[0]) is node
            return False
        return False


def is_bits(node: Expression) -> bool:
    """Whether a member is a bit-field."""
    return bool(node.path) and node.path[-1].width is not None


def bits_of(node: Expression) -> Optional[Expression]:
    """The bit-field that an expression is, in parentheses or not."""
    while node.kind == "parenthesis":
        node = node.parts[0]
    return node if node.kind == "member" and is_bits(node) else None


def any_read(node: Expression) -> str:
    """Any number that a bit-field may hold; of an enumerated type the bits may have a sign."""
    width, kind = node.path[-1].width or 0, node.path[-1].type
    if kind is ENUM:
        return "((int)" + ANY + ")" if width > 30 else masked("int", width + 1, 2 ** (width - 1))
    is_signed = isinstance(kind, Integer) and kind.is_signed
    if width in (32, 64):
        word = "int" if width == 32 else "long"
        return f"(({word if is_signed else 'unsigned ' + word}){ANY})"
    return masked("int" if width < 32 else "long", width, 2 ** (width - 1) if is_signed else 0)


def masked(word: str, width: int, less: int) -> str:
    """Any number of so many bits, less a number."""
    return f"(({word})((unsigned long){ANY} & {2**width - 1}u) - {less})"
