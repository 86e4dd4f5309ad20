"""What a unit declares at file scope, and whether two units mean the same by it."""

from __future__ import annotations

from typing import NamedTuple, Optional

from c.trees import Declaration, EnumBody, FunctionDefinition, RecordBody, Specifiers, Symbol
from c.types import Array, Floating, Function, Integer, MaybeType, Pointer, Record, Void
from rewriting.unit import Unit


class Known(NamedTuple):
    """A name or tag of a unit: the token before which it isn't known, and what it means."""

    first: int
    kind: str
    type: MaybeType
    value: Optional[int]
    is_static: bool


class FileScope:
    """The names and tags that a unit declares at file scope."""

    def __init__(self, unit: Unit) -> None:
        self.values = unit.tokens.values
        self.names: dict[str, Known] = {}
        self.tags: dict[str, Known] = {}
        # The name of each record that a typedef names.
        self.typedefs: dict[int, str] = {}
        for part in unit.parts:
            if isinstance(part, Declaration):
                self.declaration(part)
            elif isinstance(part, FunctionDefinition):
                self.specifiers(part.specifiers, part.first)
                self.add(part.declarator.symbol, part.first, "static" in part.specifiers.storage)

    def declaration(self, part: Declaration) -> None:
        """A declaration."""
        storage = part.specifiers.storage
        self.specifiers(part.specifiers, part.last)
        for declarator in part.declarators:
            symbol = declarator.symbol
            self.add(symbol, part.last, "static" in storage)
            if symbol is not None and symbol.kind == "typedef" and isinstance(symbol.type, Record):
                self.typedefs.setdefault(id(symbol.type), symbol.name)

    def specifiers(self, node: Specifiers, last: int) -> None:
        """The tag of specifiers, and the tags and constants in their body."""
        body = node.body
        if node.tag >= 0:
            name = self.values[node.tag]
            known = self.tags.get(name)
            # A tag is known as a whole from the end of its body on.
            if known is None or body is not None:
                self.tags[name] = Known(last, "tag", node.type, None, False)
        if isinstance(body, RecordBody):
            for member in body.members:
                self.specifiers(member.specifiers, last)
        elif isinstance(body, EnumBody):
            for _, symbol in body.symbols:
                self.add(symbol, last, False)

    def add(self, symbol: Optional[Symbol], first: int, is_static: bool) -> None:
        """Adds a name where it is declared first; static is what any declaration says is."""
        if symbol is None:
            return
        known = self.names.get(symbol.name)
        if known is not None:
            first, is_static = known.first, known.is_static or is_static
        self.names[symbol.name] = Known(first, symbol.kind, symbol.type, symbol.value, is_static)


def mean_the_same(one: Known, other: Known) -> bool:
    """Whether two units mean the same, which neither keeps for itself."""
    if one.is_static or other.is_static or one.kind != other.kind or one.value != other.value:
        return False
    return are_alike(one.type, other.type, set())


def are_alike(one: MaybeType, other: MaybeType, seen: set[tuple[int, int]]) -> bool:
    """Whether types of two units are made alike. Pairs that were seen are taken to be."""
    if isinstance(one, Integer) and isinstance(other, Integer):
        return (one.spelling, one.size, one.is_signed) == (
            other.spelling, other.size, other.is_signed
        )
    if isinstance(one, Floating) and isinstance(other, Floating):
        return one.spelling == other.spelling
    if isinstance(one, Pointer) and isinstance(other, Pointer):
        return are_alike(one.target, other.target, seen)
    if isinstance(one, Array) and isinstance(other, Array):
        return one.length == other.length and are_alike(one.element, other.element, seen)
    if isinstance(one, Function) and isinstance(other, Function):
        return are_functions_alike(one, other, seen)
    if isinstance(one, Record) and isinstance(other, Record):
        return are_records_alike(one, other, seen)
    return isinstance(one, Void) and isinstance(other, Void)


def are_functions_alike(one: Function, other: Function, seen: set[tuple[int, int]]) -> bool:
    """The same of functions: both tell their parameters, or none does."""
    left, right = one.parameters, other.parameters
    if left is None or right is None:
        return left is right and are_alike(one.result, other.result, seen)
    return (
        one.is_variadic == other.is_variadic
        and len(left) == len(right)
        and are_alike(one.result, other.result, seen)
        and all(are_alike(*pair, seen) for pair in zip(left, right))
    )


def are_records_alike(one: Record, other: Record, seen: set[tuple[int, int]]) -> bool:
    """The same of records; those without a tag have a number for one."""
    if one is other or (id(one), id(other)) in seen:
        return True
    seen.add((id(one), id(other)))
    tags = {record.tag for record in (one, other) if not (record.tag or "0")[0].isdigit()}
    if one.word != other.word or len(tags) > 1:
        return False
    left, right = one.members, other.members
    if left is None or right is None:
        return left is right
    return len(left) == len(right) and all(
        mine.name == its.name and mine.width == its.width and are_alike(mine.type, its.type, seen)
        for mine, its in zip(left, right)
    )
