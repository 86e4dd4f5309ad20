"""Designated initialisers (C99 6.7.8) become lists in order, with zeros between."""

from __future__ import annotations

from functools import lru_cache
from typing import Union

from c.constants import is_pure, value_of
from c.edits import Edits
from c.placing import Path, Placed, Unplaced, part_at, parts_of, place
from c.trees import Declarator, Initialiser, Specifiers
from c.types import Array, MaybeType, Record

from .bit_fields import Run, runs_of
from .walk import Rewriting

# What is written: a text, or a value that is moved.
Step = Union[str, Initialiser]

# How many values one initialiser may become.
MAX_VALUES = 65536


def has_designators(values: Initialiser) -> bool:
    """Whether designators stand in an initialiser, at any depth."""
    return any(designators or has_designators(value) for designators, value in values.items)


class Initialisers(Rewriting):
    """Moves each value to the place in the list that its part has."""

    def declarator(self, node: Declarator, specifiers: Specifiers) -> None:
        """A declarator with its initialiser."""
        if node.values is None or node.values.expression is not None:
            return
        if has_designators(node.values):
            self.unit.count("designated initialiser")
        if has_designators(node.values) or has_bits(node.type):
            if not order(self.edits, node.type, node.values):
                self.unit.leave(node.values.first, "an initialiser whose parts aren't known")
        elif not node.values.items:
            # C23 6.7.10: what has no value in its list is zero, as behind the last value.
            self.edits.after(node.values.first, "0")
            self.unit.count("empty initialiser")


def order(edits: Edits, kind: MaybeType, values: Initialiser) -> bool:
    """Writes the values of an initialiser in order; tells whether that can be done."""
    try:
        steps = InOrder(edits, place(kind, values)).steps(kind, ())
    except Unplaced:
        return False
    left = set(range(values.first + 1, values.last))
    for step in steps[1:-1]:
        if isinstance(step, str):
            edits.after(values.first, step)
        else:
            edits.move(step.first, step.last, values.first)
            left.difference_update(range(step.first, step.last + 1))
    for token in left:
        edits.cut(token, token)
    return True


class InOrder:
    """Goes through the parts of an object in order."""

    def __init__(self, edits: Edits, placed: list[Placed]) -> None:
        self.edits = edits
        # A later value is set in place of an earlier one.
        self.values = {part.path: part.value for part in placed}
        self.moved: set[int] = set()
        self.count = 0
        # The last position that is set inside each part.
        self.inside: dict[Path, int] = {}
        for path in self.values:
            for length, position in enumerate(path):
                above = path[:length]
                if above in self.values:
                    raise Unplaced
                self.inside[above] = max(position, self.inside.get(above, 0))

    def steps(self, kind: MaybeType, path: Path) -> list[Step]:
        """What is written for a part: texts, and values of the initialiser."""
        self.count += 1
        if self.count > MAX_VALUES:
            raise Unplaced
        value = self.values.get(path)
        if value is not None:
            return [self.used(value)]
        if path not in self.inside:
            return ["{ 0 }" if isinstance(kind, (Array, Record)) else "0"]
        steps: list[Step] = ["{"]
        runs = {run.first: run for run in record_runs(kind)}
        held = {at for run in runs.values() for at in range(run.first + 1, run.last + 1)}
        for position, part in self.parts(kind, self.inside[path], held):
            if len(steps) > 1:
                steps.append(",")
            run = runs.get(position)
            if run is None:
                steps += self.steps(part, path + (position,))
            else:
                steps.append(run.start(self.are_zero(run, path)))
        return [*steps, "}"]

    def are_zero(self, run: Run, path: Path) -> bool:
        """Whether bit-fields that stand together all start as 0; their values have no effect."""
        values = [self.values.get(path + (at,)) for at in range(run.first, run.last + 1)]
        expressions = [None if value is None else value.expression for value in values]
        if any(value is not None and value.expression is None for value in values) or not all(
            expression is None or is_pure(expression) for expression in expressions
        ):
            raise Unplaced
        return all(expression is None or value_of(expression) == 0 for expression in expressions)

    def parts(self, kind: MaybeType, last: int, held: set[int]) -> list[tuple[int, MaybeType]]:
        """The positions and types of parts up to a position, without bits that others hold."""
        parts = []
        count = parts_of(kind)
        for place_ in range(last + 1 if count is None else count):
            position, part = part_at(kind, place_)
            if position not in held:
                parts.append((position, part))
            if position == last:
                return parts
        # A member of a union that isn't the first.
        raise Unplaced

    def used(self, value: Initialiser) -> Step:
        """A value; where a range sets several parts, each but the first gets a copy."""
        if value.first not in self.moved:
            self.moved.add(value.first)
            return value
        if value.expression is None or not is_pure(value.expression):
            raise Unplaced
        return self.edits.text_of(value.first, value.last)


def record_runs(kind: MaybeType) -> list[Run]:
    """The bit-fields of a record that stand together, and that some member holds."""
    if not isinstance(kind, Record) or not has_bits(kind):
        return []
    runs = runs_of(kind)
    if runs is None or any(run.holder is None for run in runs):
        raise Unplaced
    return runs


@lru_cache(maxsize=None)
def has_bits(kind: MaybeType) -> bool:
    """Whether bit-fields are somewhere in a type."""
    while isinstance(kind, Array):
        kind = kind.element
    if not isinstance(kind, Record):
        return False
    return any(member.width is not None or has_bits(member.type) for member in kind.members or [])
