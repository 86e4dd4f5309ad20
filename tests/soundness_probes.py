"""Probes, repairs and shrinking of the programs of tests/soundness.py.

A *probe* is a statement that errs exactly where a place holds what it held there in a run: `sink = 1 / (x - 17)`. So the
report must tell of it, and each value of a run becomes a test. It stands behind `if (which == 5)`, and `which` is the
first input: so a run meets one probe at most, and one report has all of them.
"""
from __future__ import annotations

import random
from typing import Any, Callable, Optional

from soundness_expressions import Scope
from soundness_machine import Machine, Outcome
from soundness_spots import Spot, Stop, Value
from soundness_statements import Do, For, If, Program, Return, Statement, Switch, While
from soundness_tree import (INT, LONG, ULONG, Assign, Binary, Cast, Compare, Constant, Declaration, Expression, Follow,
                            Index, Int, Logical, Member, Name, Null, Pointer, Record, Routine, Type, VOID)

Found = list[tuple[Statement, int, Statement]]


def place_in(program: Program, statement: Statement) -> Optional[list[Statement]]:
    """The list in which a statement stands."""
    return next((body for body in program.lists() if any(it is statement for it in body)), None)


def position(body: list[Statement], statement: Statement) -> int:
    return next(at for at, it in enumerate(body) if it is statement)


# Repairs


def repaired(rng: random.Random, program: Program, inputs: list[list[int]]) -> None:
    """Takes out what ends the runs, until they are as long as is wanted, or nothing ends them."""
    wanted = rng.choice([0, 50, 200, 500, 2000])
    machine = Machine(program)
    for _ in range(25):
        for numbers in inputs:
            outcome = machine.run(numbers)
            if outcome.what != "ended" and outcome.steps < wanted:
                break
        else:
            return
        if not take_out(program, machine):
            return


def take_out(program: Program, machine: Machine) -> bool:
    """Changes the statement that ended a run; tells whether it could."""
    it = machine.current
    if isinstance(it, Declaration):
        it.initial = Constant(1) if isinstance(it.kind, Int) else None
        return True
    body = place_in(program, it) if it is not None else None
    if it is None or body is None:
        return False
    if isinstance(it, If):
        it.condition = Constant(1)
    elif isinstance(it, Switch):
        it.value = Constant(1)
    elif isinstance(it, Return):
        kind = machine.routine.kind.result
        it.value = Constant(0) if isinstance(kind, Int) else Cast(kind, Null(kind))
    else:
        del body[position(body, it)]
    machine.renew([machine.routine])
    return True


# Probes


class Prober:
    """Puts probes into a program, by what its runs meet."""

    def __init__(self, rng: random.Random, program: Program, inputs: list[list[int]]) -> None:
        self.rng, self.program, self.inputs = rng, program, inputs
        self.which, self.sink = [Name(it) for it in program.objects[:2]]
        self.machine = Machine(program)
        self.first = program.routines[-1].body[0]
        self.found: list[tuple[Statement, Statement, list[int]]] = []
        self.scopes: dict[Routine, Scope] = {}

    def probed(self, outcomes: list[Outcome], count: int) -> list[list[int]]:
        """Puts probes in; gives the inputs, each with the number of its probe at first."""
        for numbers, outcome in zip(self.inputs, outcomes):
            self.machine.watched = {self.rng.randrange(outcome.steps + 1) for _ in range(count)}
            self.machine.watch = lambda statement, numbers=numbers: self.look(statement, numbers)  # type: ignore[misc]
            self.machine.run(numbers)
        for statement, probe, _ in self.found:
            body = place_in(self.program, statement)
            assert body is not None
            body.insert(position(body, statement), probe)
        return [[number + 1, *numbers[1:]] for number, (_, _, numbers) in enumerate(self.found)]

    def look(self, statement: Statement, numbers: list[int]) -> None:
        """Adds a probe of what some place holds before the statement."""
        if isinstance(statement, (While, For)) or statement is self.first:
            return
        scope = self.scope()
        wanted = Int if self.rng.random() < 0.75 else Pointer
        place: Optional[Expression] = None
        if wanted is Int and scope.private and self.rng.random() < 0.4:
            place = Name(self.rng.choice(scope.private))
        place = place or scope.place(wanted)
        if place is None:
            return
        try:
            value = self.machine.value(place)
        except Stop:
            return
        probe = self.probe(place, value)
        if probe is not None:
            condition = Compare("==", self.which, Constant(len(self.found) + 1))
            self.found.append((statement, If(condition, [probe]), numbers))

    def scope(self) -> Scope:
        routine = self.machine.routine
        if routine not in self.scopes:
            own = [*routine.parameters, *routine.objects]
            private = [it for it in own if it.name in ("i", "j", "k", "fuel", "depth")]
            rest = [it for it in own if it not in private]
            self.scopes[routine] = Scope(self.rng, [*self.program.objects[2:], *rest], private)
        return self.scopes[routine]

    def divided(self, by: Expression) -> Statement:
        return Do(Assign(self.sink, Binary("/", Constant(1), by)))

    def probe(self, place: Expression, value: Value) -> Optional[Statement]:
        kind = place.kind
        if isinstance(kind, Int) and isinstance(value, int):
            return self.number_probe(place, kind, value)
        if isinstance(kind, Pointer) and not isinstance(value, list) and value is not None:
            return self.pointer_probe(place, kind.to, value)
        return None

    def number_probe(self, place: Expression, kind: Int, value: int) -> Statement:
        pick = self.rng.random()
        if kind == ULONG and not LONG.holds(value):
            return self.divided(Compare("!=", Binary("/", place, Constant(2, ULONG)), Constant(value // 2, ULONG)))
        constant = Constant(value, INT if INT.holds(value) and value > INT.low else LONG)
        if value == LONG.low:
            return self.divided(Compare(">=", place, Constant(value + 1, LONG)))
        if pick < 0.5:
            return self.divided(Binary("-", Cast(LONG, place), Constant(value, LONG)))
        if pick < 0.7:
            return self.divided(Compare("!=", Cast(LONG, place), constant))
        zero = self.divided(Binary("-", self.which, self.which))
        if pick < 0.85:
            return If(Compare("==", Cast(LONG, place), constant), [zero])
        if pick < 0.93:
            return If(Logical("&&", Compare(">=", Cast(LONG, place), constant), Compare("<=", Cast(LONG, place), constant)),
                      [zero])
        return If(Compare("!=", Cast(LONG, place), constant), [], [zero])

    def pointer_probe(self, place: Expression, to: Type, value: Value) -> Optional[Statement]:
        if isinstance(value, Routine):
            return If(Compare("==", place, value), [self.divided(Binary("-", self.which, self.which))])
        reached: Expression = Follow(place)
        if isinstance(value, Spot):
            if value.room or value.kind == VOID or not value.thing.alive:
                return None
            by = value.length - value.at if self.rng.random() < 0.7 else -1 - value.at
            reached = Index(place, Constant(by))
        if isinstance(to, Record):
            name = next((name for name, member in to.members.items() if isinstance(member, Int)), None)
            if name is None:
                return None
            reached = Member(reached, name)
        return Do(Assign(self.sink, reached)) if isinstance(reached.kind, Int) else None


# Shrinking


def shrunk(program: Program, fails: Callable[[], bool], tries: int = 300) -> None:
    """Takes out statements, objects and functions as long as it still fails."""
    again = True
    while again:
        again = False
        objects: list[Any] = [program.routines, *[it.objects for it in program.routines], program.objects]
        for within in [*program.lists(), *objects]:
            for at in reversed(range(len(within))):
                if at >= len(within) or tries == 0:
                    continue
                tries -= 1
                taken = within.pop(at)
                if fails():
                    again = True
                else:
                    within.insert(at, taken)
