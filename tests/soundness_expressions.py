"""Random places, numbers, conditions and pointers over the objects that a function sees, for tests/soundness.py.

They have no effects and call nothing, so that the order in which C90 lets them be evaluated doesn't matter.
"""
from __future__ import annotations

import dataclasses
import random
from functools import lru_cache
from typing import Any, Optional, Sequence, Union

from soundness_tree import (CHAR, INT, LONG, SHORT, UCHAR, ULONG, UNSIGNED, USHORT, Address, Array, Binary, Cast, Choice,
                            Compare, Constant, Declaration, Expression, Follow, Index, Int, Logical, Member, Name, Null,
                            Pointer, Record, Type, Unary)

INTS = [INT] * 6 + [UNSIGNED, UCHAR, CHAR, SHORT, USHORT, LONG, ULONG]
SMALL = [0, 0, 1, 1, 2, 3, 4, 5, 6, 7, 8, -1, -2]
NUMBERS = SMALL + [9, 10, 15, 16, 31, 63, 100, 127, 128, 200, 255, 256, 1000, 32767, 40000, 65535, -128, -1000]
COMPARED = ["<", "<=", ">", ">=", "==", "!="]

# A way from an object to a part of it: names of members, and None for an element.
Way = tuple[Optional[str], ...]
Wanted = Union[Type, type]


@lru_cache(maxsize=10000)
def ways(kind: Type, wanted: Wanted) -> list[Way]:
    """The ways to the parts of a type: `wanted` is a type, or a class of types."""
    found: list[Way] = [()] if kind is wanted or (isinstance(wanted, type) and isinstance(kind, wanted)) else []
    if isinstance(kind, Array):
        found += [(None, *way) for way in ways(kind.of, wanted)]
    elif isinstance(kind, Record):
        found += [(name, *way) for name, member in kind.members.items() for way in ways(member, wanted)]
    return found


def mentions(it: Any, declaration: Declaration) -> bool:
    """Whether an expression names an object."""
    if isinstance(it, Name):
        return it.declaration is declaration
    if isinstance(it, (list, tuple)):
        return any(mentions(part, declaration) for part in it)
    if not dataclasses.is_dataclass(it):
        return False
    return any(mentions(getattr(it, part.name), declaration) for part in dataclasses.fields(it))


class Scope:
    """What a function sees. Nothing takes the address of a `private` object, and only these are indices that a
    statement may change beside another use."""

    def __init__(self, rng: random.Random, objects: Sequence[Declaration], private: Sequence[Declaration]) -> None:
        self.rng = rng
        self.objects = [*objects, *private]
        self.private = list(private)
        self.found: dict[Wanted, tuple[list[tuple[Declaration, Way]], list[tuple[Declaration, Way, Way]]]] = {}

    def often(self, share: float) -> bool:
        return self.rng.random() < share

    def add(self, declaration: Declaration) -> None:
        self.objects.append(declaration)
        self.found = {}

    # Places

    def candidates(self, wanted: Wanted) -> tuple[list[tuple[Declaration, Way]], list[tuple[Declaration, Way, Way]]]:
        """The ways to what is wanted, within an object and over one pointer."""
        if wanted not in self.found:
            near = [(it, way) for it in self.objects for way in ways(it.kind, wanted)]
            far = []
            for it in self.objects:
                for way in ways(it.kind, Pointer):
                    pointer = self.kind_behind(it.kind, way)
                    assert isinstance(pointer, Pointer)
                    far += [(it, way, behind) for behind in ways(pointer.to, wanted)]
            self.found[wanted] = near, far
        return self.found[wanted]

    def kind_behind(self, kind: Type, way: Way) -> Type:
        for step in way:
            if isinstance(kind, Array):
                kind = kind.of
            elif isinstance(kind, Record) and step is not None:
                kind = kind.members[step]
        return kind

    def place(self, wanted: Wanted) -> Optional[Expression]:
        """An lvalue of the type, where there is one."""
        near, far = self.candidates(wanted)
        if far and (not near or self.often(0.3)):
            it, way, behind = self.rng.choice(far)
            pointer = self.down(Name(it), way)
            followed: Expression = Follow(pointer) if self.often(0.9 if len(behind) else 0.6) else Index(pointer, self.index(3))
            return self.down(followed, behind)
        if not near:
            return None
        if wanted is Int and self.often(0.4):
            near = [(it, way) for it, way in near if not way]
        it, way = self.rng.choice(near)
        return self.down(Name(it), way)

    def down(self, it: Expression, way: Way) -> Expression:
        for step in way:
            if step is None:
                assert isinstance(it.kind, Array)
                it = Index(it, self.index(it.kind.count))
            else:
                it = Member(it, step)
        return it

    def integer(self) -> Expression:
        found = self.place(Int)
        assert found is not None
        return found

    def array(self, element: Optional[Type] = None) -> Optional[Expression]:
        """An array that is an lvalue."""
        found = [self.place(Array) for _ in range(4)]
        right = [it for it in found if it is not None and isinstance(it.kind, Array) and (
            it.kind.of == element or (element is None and isinstance(it.kind.of, Int)))]
        return self.rng.choice(right) if right else None

    # Numbers

    def index(self, count: int) -> Expression:
        """Mostly within 0 and the count."""
        kind = self.rng.random()
        if kind < 0.45 or not self.private:
            return Constant(self.rng.randrange(count))
        name = Name(self.rng.choice(self.private))
        if kind < 0.76:
            return name
        if kind < 0.83:
            return Binary("&", name, Constant((1 << (count.bit_length() - 1)) - 1))
        if kind < 0.89:
            return Binary("%", Cast(UNSIGNED, name), Constant(count, UNSIGNED))
        if kind < 0.95:
            return Binary(self.rng.choice("+-"), name, Constant(1))
        near = [it for it, way in self.candidates(Int)[0] if not way]
        return Name(self.rng.choice(near))

    def small(self) -> Expression:
        """A number that is likely to be an index."""
        kind = self.rng.random()
        if kind < 0.3:
            return Constant(self.rng.choice(SMALL))
        if kind < 0.5:
            return Binary("&", self.integer(), Constant(self.rng.choice([1, 3, 7, 15])))
        if kind < 0.65:
            return Binary("%", self.integer(), Constant(self.rng.choice([2, 3, 5, 8, 10])))
        if kind < 0.8:
            return Binary(self.rng.choice("+-"), self.integer(), Constant(self.rng.choice([1, 1, 2, 3])))
        if kind < 0.9:
            return Choice(self.condition(1), self.integer(), Constant(self.rng.choice(SMALL)))
        return self.integer()

    def number(self, depth: int = 2) -> Expression:
        kind = self.rng.random()
        if depth == 0 or kind < 0.35:
            return self.integer() if self.often(0.7) else Constant(self.rng.choice(NUMBERS))
        if kind < 0.7:
            return self.operation(depth - 1)
        if kind < 0.76:
            return Cast(self.rng.choice(INTS), self.number(depth - 1))
        if kind < 0.82:
            return Choice(self.condition(depth - 1), self.number(depth - 1), self.number(depth - 1))
        if kind < 0.88:
            return Unary(self.rng.choice("-~!"), self.number(depth - 1))
        return self.condition(depth - 1) if self.often(0.5) else self.small()

    def operation(self, depth: int) -> Expression:
        sign = self.rng.choice(["+", "+", "-", "-", "*", "&", "|", "^", "/", "%", "%", "<<", ">>"])
        left = self.number(depth)
        if sign in ("+", "-", "&", "|", "^"):
            return Binary(sign, left, self.number(depth))
        if sign in ("<<", ">>"):
            return Binary(sign, Binary("&", left, Constant(255)), Constant(self.rng.randrange(5)))
        if sign == "*":
            return Binary(sign, Binary("&", left, Constant(255)), Constant(self.rng.choice(SMALL)))
        if self.often(0.25):
            return Binary(sign, left, self.integer())
        return Binary(sign, left, Constant(self.rng.choice([2, 3, 5, 7, 8, 10, 16, -3])))

    # Conditions

    def condition(self, depth: int = 2) -> Expression:
        kind = self.rng.random()
        if depth > 0 and kind < 0.3:
            return Logical(self.rng.choice(["&&", "||"]), self.condition(depth - 1), self.condition(depth - 1))
        if depth > 0 and kind < 0.36:
            return Unary("!", self.condition(depth - 1))
        if kind < 0.44:
            return self.integer()
        if kind < 0.54:
            pointer = self.place(Pointer)
            if pointer is not None:
                return Compare(self.rng.choice(["==", "!="]), pointer, Null(pointer.kind))
        if kind < 0.58:
            return self.pointers_compared()
        right = Constant(self.rng.choice(NUMBERS)) if self.often(0.6) else self.number(min(depth, 1))
        return Compare(self.rng.choice(COMPARED), self.integer() if self.often(0.7) else self.number(min(depth, 1)), right)

    def pointers_compared(self) -> Expression:
        one = self.place(Pointer)
        if one is None or not isinstance(one.kind, Pointer):
            return self.integer()
        other = self.pointer(one.kind.to)
        return Compare(self.rng.choice(["==", "!=", "==", "!=", "<", ">="]), one, other)

    # Pointers

    def pointer(self, to: Type) -> Expression:
        """A pointer to the type, seldom the null pointer."""
        kind = self.rng.random()
        if kind < 0.3:
            found = self.place(Pointer(to))
            if found is not None:
                return found
        if kind < 0.4:
            found = self.place(Pointer(to))
            if found is not None:
                return Binary(self.rng.choice("+-"), found, self.index(3))
        if kind < 0.46:
            return Choice(self.condition(1), self.address(to), self.address(to))
        if kind < 0.7:
            array = self.array(to)
            if array is not None and isinstance(array.kind, Array):
                return array if self.often(0.5) else Binary("+", array, self.index(array.kind.count))
        return self.address(to)

    def address(self, to: Type) -> Expression:
        for _ in range(4):
            found = self.place(to)
            if found is not None and not (isinstance(found, Name) and self.hidden(found.declaration)):
                return Address(found)
        return Cast(Pointer(to), Null(Pointer(to)))

    def hidden(self, declaration: Declaration) -> bool:
        return declaration in self.private or declaration.storage == "inner"
