"""Which part of an object each value of an initialiser sets (C99 6.7.8).

A part is a path: positions of members and elements, from the object inwards.
"""

from __future__ import annotations

from typing import NamedTuple, Optional

from .constants import value_of
from .trees import Designator, Expression, Initialiser
from .types import Array, Integer, MaybeType, Record

Path = tuple[int, ...]
# A part that is open: its type, its path, and the place in it that comes next.
Open = tuple[MaybeType, Path, int]

# Elements that one initialiser may set by a range.
MAX_RANGE = 4096


class Placed(NamedTuple):
    """A value without braces, or a list in braces for a scalar, and the part that it sets."""

    path: Path
    type: MaybeType
    value: Initialiser


class Unplaced(Exception):
    """The parts that the values set aren't known."""


def completed(kind: MaybeType, values: Optional[Initialiser]) -> MaybeType:
    """The type of an object with that initialiser: an array gets its length from it."""
    if not isinstance(kind, Array) or kind.length is not None or values is None:
        return kind
    literal = string_of(kind, values)
    if literal is not None and isinstance(literal.type, Array):
        return Array(kind.element, literal.type.length)
    try:
        placed = place(kind, values)
    except Unplaced:
        return kind
    return Array(kind.element, 1 + max((part.path[0] for part in placed if part.path), default=-1))


def string_of(kind: MaybeType, values: Initialiser) -> Optional[Expression]:
    """The string that initialises an array of characters, in braces or not."""
    if not isinstance(kind, Array) or not isinstance(kind.element, Integer):
        return None
    if values.expression is None and len(values.items) == 1 and not values.items[0][0]:
        values = values.items[0][1]
    expression = values.expression
    while expression is not None and expression.kind == "parenthesis":
        expression = expression.parts[0]
    return expression if expression is not None and expression.kind == "string" else None


def place(kind: MaybeType, values: Initialiser) -> list[Placed]:
    """The parts that the values of an initialiser set, in their order."""
    placer = Placer()
    placer.object(kind, values, ())
    return placer.placed


def parts_of(kind: MaybeType) -> Optional[int]:
    """How many parts an object has; None where there is no end. Of a union the first counts."""
    if isinstance(kind, Array):
        return kind.length
    if isinstance(kind, Record) and kind.members is not None:
        named = len(settable(kind))
        return min(named, 1) if kind.word == "union" else named
    raise Unplaced


def settable(record: Record) -> list[int]:
    """The positions of members that values may set: bits without a name are none."""
    return [
        position
        for position, member in enumerate(record.members or ())
        if member.name is not None or member.width is None
    ]


def part_at(kind: MaybeType, place_: int) -> tuple[int, MaybeType]:
    """The position and type of the part that is that many places from the first."""
    if isinstance(kind, Array):
        return place_, kind.element
    if isinstance(kind, Record) and kind.members is not None:
        position = settable(kind)[place_]
        return position, kind.members[position].type
    raise Unplaced


def is_aggregate(kind: MaybeType) -> bool:
    """Whether an object of that type has parts."""
    return isinstance(kind, (Array, Record))


def advanced(opened: Open) -> Open:
    """An open part behind the place it is at; behind a member of a union there is none."""
    kind, path, place_ = opened
    if isinstance(kind, Record) and kind.word == "union":
        return kind, path, len(settable(kind))
    return kind, path, place_ + 1


class Placer:
    """Walks over an initialiser and the type of what it initialises."""

    def __init__(self) -> None:
        self.placed: list[Placed] = []

    def object(self, kind: MaybeType, values: Initialiser, path: Path) -> None:
        """An object with an initialiser of its own."""
        is_list = values.expression is None
        if kind is None:
            raise Unplaced
        if not is_list or not is_aggregate(kind) or string_of(kind, values) is not None:
            self.placed.append(Placed(path, kind, values))
            return
        self.items(kind, values.items, path)

    def items(
        self, kind: MaybeType, items: list[tuple[list[Designator], Initialiser]], path: Path
    ) -> None:
        """An aggregate whose values stand in braces."""
        # The parts that are open, from the outermost: type, path, and the next place.
        stack: list[Open] = [(kind, path, 0)]
        for designators, value in items:
            if designators:
                for stack in self.designated(kind, path, designators):
                    self.fill(stack, value)
            else:
                self.fill(stack, value)

    def designated(
        self, kind: MaybeType, path: Path, designators: list[Designator]
    ) -> list[list[Open]]:
        """The open parts before the one that the designators name; of a range, for each."""
        stacks: list[list[Open]] = [[]]
        current = kind
        for designator in designators:
            places = self.places(current, designator)
            if len(stacks) * len(places) > MAX_RANGE:
                raise Unplaced
            grown = []
            for stack in stacks:
                base = self.base(path, stack)
                for steps in places:
                    grown.append(stack + self.opened(current, base, steps))
            stacks = grown
            top, _, place_ = stacks[0][-1]
            current = part_at(top, place_)[1]
        # Behind the part named comes the next of the one that it is in.
        return [[*map(advanced, stack[:-1]), stack[-1]] for stack in stacks]

    def base(self, path: Path, stack: list[Open]) -> Path:
        """The path of the part that the stack's top names."""
        if not stack:
            return path
        kind, above, place_ = stack[-1]
        return above + (part_at(kind, place_)[0],)

    def opened(
        self, kind: MaybeType, path: Path, steps: list[int]
    ) -> list[Open]:
        """The parts that are open where these places are gone through."""
        stack = []
        for step in steps:
            stack.append((kind, path, step))
            position, kind = part_at(kind, step)
            path = path + (position,)
        return stack

    def places(self, kind: MaybeType, designator: Designator) -> list[list[int]]:
        """The places that a designator names; a member may be in one without a name."""
        if designator.name is not None:
            steps = []
            if not isinstance(kind, Record):
                raise Unplaced
            for member in kind.path_to(designator.name):
                if not isinstance(kind, Record) or kind.members is None:
                    raise Unplaced
                position = next(
                    number for number, other in enumerate(kind.members) if other is member
                )
                steps.append(settable(kind).index(position))
                kind = member.type
            if not steps:
                raise Unplaced
            return [steps]
        first, last = value_of(designator.index), value_of(designator.upto or designator.index)
        if first is None or last is None or not 0 <= first <= last < first + MAX_RANGE:
            raise Unplaced
        return [[place_] for place_ in range(first, last + 1)]

    def fill(self, stack: list[Open], value: Initialiser) -> None:
        """Gives a value to the next part; goes into aggregates that no braces open."""
        while True:
            kind, path, place_ = stack.pop()
            count = parts_of(kind)
            if isinstance(kind, Record) and kind.word == "union" and place_ > 0:
                is_over = place_ >= len(settable(kind))
            else:
                is_over = count is not None and place_ >= count
            if not is_over:
                break
            if not stack:
                raise Unplaced
        position, part = part_at(kind, place_)
        stack.append(advanced((kind, path, place_)))
        if self.goes_into(part, value):
            stack.append((part, path + (position,), 0))
            self.fill(stack, value)
        else:
            self.object(part, value, path + (position,))

    def goes_into(self, part: MaybeType, value: Initialiser) -> bool:
        """Whether a value is that of a part's first part."""
        if value.expression is None or not is_aggregate(part) or string_of(part, value) is not None:
            return False
        kind = value.expression.type
        if kind is None:
            raise Unplaced
        return not isinstance(kind, Record) or isinstance(part, Array)


