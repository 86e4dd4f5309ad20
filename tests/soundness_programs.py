"""Random whole programs for tests/soundness.py: records, objects, functions that call one another, and `main`."""
from __future__ import annotations

import random
from typing import Optional, Sequence

from soundness_expressions import INTS, SMALL, Scope
from soundness_moves import Body, Moves, returned
from soundness_statements import Do, If, Program, Return
from soundness_tree import (CHAR, INT, UCHAR, UNSIGNED, USHORT, SHORT, VOID, Address, Array, Assign, Binary, Call, Compare,
                            Constant, Declaration, Expression, Function, Index, Initial, Int, Library, Name, Null, Pointer,
                            Record, Routine, Type, Void)

# What a probe asks for, and where it puts its result. No other statement uses these.
SELECTOR_AND_SINK = ("which", "sink")
LEAF = Function(INT, (INT,))
CELLS = [INT] * 4 + [UNSIGNED, UCHAR, CHAR, SHORT, USHORT]


def generated(rng: random.Random) -> Program:
    return Maker(rng).program()


class Maker:
    def __init__(self, rng: random.Random) -> None:
        self.rng = rng
        self.records: list[Record] = []
        self.objects: list[Declaration] = []
        self.routines: list[Routine] = []
        self.hooks: list[Declaration] = []

    def often(self, share: float) -> bool:
        return self.rng.random() < share

    def program(self) -> Program:
        self.make_records()
        self.which, self.sink = [Declaration(name, INT, "global") for name in SELECTOR_AND_SINK]
        self.objects = self.globals()
        leaves = [self.leaf(f"leaf{number}") for number in range(self.rng.randrange(3))]
        if leaves:
            self.make_hooks(leaves)
        for number in range(self.rng.randrange(1, 4)):
            self.routine(f"f{number}")
        self.main()
        return Program(self.records, [self.which, self.sink, *self.objects, *self.hooks], self.routines)

    # Types

    def make_records(self) -> None:
        pair, node = Record("pair"), Record("node")
        pair.close([("x", INT), ("y", self.rng.choice(CELLS))])
        length: Type = self.rng.choice([INT, INT, UNSIGNED, UCHAR])
        members = [("n", length), ("data", Array(self.rng.choice(CELLS), self.rng.randrange(2, 6))), ("next", Pointer(node))]
        if self.often(0.4):
            members.append(("at", pair if self.often(0.5) else Array(pair, 2)))
        if self.often(0.3):
            members.append(("to", Pointer(INT)))
        self.rng.shuffle(members)
        node.close(members)
        self.records = [pair, node]
        if self.often(0.4):
            parts: list[tuple[str, Type]] = [("i", INT), ("c", Array(UCHAR, 4)), ("u", UNSIGNED), ("s", SHORT), ("p", Pointer(INT))]
            self.records.append(Record("word", True))
            self.records[-1].close(self.rng.sample(parts, self.rng.randrange(2, 4)))

    def kind(self) -> Type:
        """The type of an object."""
        pick, records = self.rng.random(), self.records
        if pick < 0.3:
            return self.rng.choice(INTS)
        if pick < 0.6:
            return Array(self.rng.choice(CELLS), self.rng.randrange(1, 10))
        if pick < 0.75:
            return self.rng.choice(records)
        if pick < 0.82:
            return Array(self.rng.choice(records[:2]), self.rng.randrange(1, 5))
        if pick < 0.88:
            return Array(Array(INT, self.rng.randrange(2, 5)), self.rng.randrange(2, 4))
        if pick < 0.92:
            return Array(Pointer(INT if self.often(0.5) else records[1]), self.rng.randrange(1, 4))
        to: list[Type] = [INT, INT, UCHAR, *records[:2]]
        return Pointer(self.rng.choice(to))

    # Objects

    def globals(self) -> list[Declaration]:
        kinds: list[Type] = [INT, Array(INT, self.rng.randrange(3, 9)), Array(INT, self.rng.randrange(2, 9)), Pointer(INT),
                             Array(UCHAR, self.rng.randrange(2, 7)), self.records[1], self.records[0],
                             Pointer(self.records[1]), Pointer(UCHAR)]
        kinds += [self.kind() for _ in range(self.rng.randrange(1, 6))]
        self.rng.shuffle(kinds)
        found: list[Declaration] = []
        for number, kind in enumerate(kinds):
            found.append(Declaration(f"g{number}", kind, "global", self.constant(kind, found)))
        return found

    def constant(self, kind: Type, before: Sequence[Declaration]) -> Optional[Initial]:
        """A start value of constants, mostly none."""
        if self.often(0.5) and not isinstance(kind, Pointer):
            return None
        return self.initial(kind, before)

    def initial(self, kind: Type, before: Sequence[Declaration]) -> Initial:
        """Constants for a part of an object, or more of it; addresses are of objects that stand before."""
        if isinstance(kind, Int):
            return Constant(self.rng.choice(SMALL))
        if isinstance(kind, Array):
            return [self.initial(kind.of, before) for _ in range(self.rng.randrange(1, kind.count + 1))]
        if isinstance(kind, Record):
            members = [*kind.members.values()]
            return [self.initial(it, before) for it in members[:1 if kind.union else self.rng.randrange(1, len(members) + 1)]]
        spots = [it for it in before if it.storage in ("global", "static") and kind.to in (
            it.kind, it.kind.of if isinstance(it.kind, Array) else None)] if isinstance(kind, Pointer) else []
        if not spots or self.often(0.15):
            return Null(kind)
        it = self.rng.choice(spots)
        if isinstance(it.kind, Array):
            return Address(Index(Name(it), Constant(self.rng.randrange(it.kind.count))))
        return Address(Name(it))

    def locals(self, scope: Scope, storage: str, name: str, kind: Type) -> Declaration:
        """An object of a function, mostly with a start value."""
        initial: Optional[Initial] = None
        if storage == "static":
            initial = self.constant(kind, self.objects)
        elif self.often(0.85):
            initial = self.initial(kind, self.objects)
            if isinstance(kind, Int):
                initial = scope.small()
            elif isinstance(kind, Pointer):
                initial = scope.pointer(kind.to)
            elif isinstance(kind, Record) and not kind.union and self.often(0.5):
                initial = scope.place(kind)
        made = Declaration(name, kind, storage, initial)
        scope.add(made)
        return made

    # Functions

    def leaf(self, name: str) -> Routine:
        """A small function of one type, that pointers may lead to."""
        it = Declaration("n", INT, "parameter")
        made = Routine(name, LEAF, [it])
        scope = Scope(self.rng, [*self.objects, it], [])
        made.body = [Do(Assign(scope.integer(), scope.small()))] if self.often(0.6) else []
        made.body.append(Return(scope.small()))
        self.routines.append(made)
        return made

    def make_hooks(self, leaves: list[Routine]) -> None:
        kind = Pointer(LEAF)
        hook = Declaration("hook", kind, "global", self.rng.choice(leaves) if self.often(0.8) else None)
        table = [self.rng.choice(leaves) for _ in range(self.rng.randrange(1, 4))]
        self.hooks = [hook, Declaration("table", Array(kind, len(table)), "global", table)]

    def parameter(self, number: int) -> Declaration:
        kinds: list[Type] = [INT, INT, INT, UNSIGNED, UCHAR, Pointer(INT), Pointer(INT), Pointer(self.records[1]),
                             self.records[0], Pointer(UCHAR)]
        return Declaration(f"p{number}", self.rng.choice(kinds), "parameter")

    def routine(self, name: str) -> None:
        recursive = self.often(0.35)
        depth = [Declaration("depth", INT, "parameter")] if recursive else []
        parameters = depth + [self.parameter(number) for number in range(self.rng.randrange(4))]
        results: list[Type] = [INT, INT, INT, UCHAR, VOID, Pointer(INT), Pointer(self.records[1])]
        result = self.rng.choice(results)
        made = Routine(name, Function(result, tuple(it.kind for it in parameters)), parameters)
        moves = self.inside(made, parameters, [*self.routines])
        end = returned(moves, result)
        if recursive:
            stop = If(Compare("<=", Name(depth[0]), Constant(0)), [returned(moves, result) or Return(None)])
            arguments: list[Expression] = [moves.argument(it.kind) for it in parameters]
            arguments[0] = Binary("-", Name(depth[0]), Constant(1))
            again = moves.received(Call(made, arguments))
            body = moves.body(self.rng.randrange(2, 6))
            made.body = [stop, *body[:len(body) // 2], *again, *body[len(body) // 2:]]
        else:
            made.body = moves.body(self.rng.randrange(3, 9))
        if end is not None:
            made.body.append(end)
        self.routines.append(made)

    def inside(self, made: Routine, parameters: list[Declaration], callees: list[Routine]) -> Moves:
        """The objects of a function, and what it sees. `depth` isn't seen, so that it sinks."""
        fuel = Declaration("fuel", INT, "local", Constant(self.rng.randrange(4, 30)))
        private = [Declaration(name, INT, "local", Constant(self.rng.choice(SMALL))) for name in ("i", "j", "k")]
        seen = [it for it in parameters if it.name != "depth"]
        scope = Scope(self.rng, [*self.objects, *seen], private)
        made.objects = [fuel, *private]
        for number in range(self.rng.randrange(2, 6)):
            storage = "static" if self.often(0.2) else "local"
            made.objects.append(self.locals(scope, storage, f"v{number}", self.kind()))
        return Moves(scope, fuel, callees, self.hooks)

    def main(self) -> None:
        made = Routine("main", Function(INT, ()), [])
        moves = self.inside(made, [], [*self.routines])
        start: Body = [Do(Assign(Name(self.which), Library("input")))]
        made.body = [*start, *moves.body(self.rng.randrange(8, 26)), Return(Constant(0))]
        self.routines.append(made)
