#!/usr/bin/env python3
"""Runs both engines on generated programs, and compares each value with that of the equations, which are solved here
from the definitions alone, by rounds over intervals on a ladder.

usage: tests/engines.py PROGRAM [COUNT]

A program has a few static ints and a statement a line: an assignment, a jump, or a jump that may be taken. So its
graph is any graph: rings, sides that meet, lines that nothing reaches, uses that nothing defines.
"""
from __future__ import annotations

import random
import re
import subprocess
import sys
import tempfile
from dataclasses import dataclass

from told import tell

Interval = tuple[int, int] | None  # None is the empty one
Values = list[Interval]

BASE = [-(2**63), -(2**31) - 1, -(2**31), -32769, -32768, -129, -128, -1, 0, 1, 127, 128, 255, 256, 32767, 32768,
        65535, 65536, 2**31 - 1, 2**31, 2**32 - 1, 2**32, 2**63 - 1, 2**63, 2**64 - 1]
INT = (-(2**31), 2**31 - 1)
# What is added and set: small numbers, ends of the ladder's steps, and numbers that pass the type's range.
NUMBERS = [0, 1, 2, 3, 7, 10, 100, 126, 300, 40000, 2**30, 2**31 - 1]
LINE = re.compile(r"node \d+ a\.c:(\d+):\d+: (\w+) = (.*)")


@dataclass
class Statement:
    """`x{to} = x{of} sign number;`, without `of` a number alone; or a jump to a line, without `to`."""

    to: int | None = None
    of: int | None = None
    sign: str = "+"
    number: int = 0
    target: int | None = None
    always: bool = False

    def text(self) -> str:
        if self.target is not None:
            return f"{'' if self.always else 'if(g())'}goto l{self.target};"
        return f"x{self.to}={self.number};" if self.of is None else f"x{self.to}=x{self.of}{self.sign}{self.number};"

    def after(self, line: int) -> list[int]:
        """The lines that may come next."""
        onwards = [] if self.always else [line + 1]
        return onwards if self.target is None else [*onwards, self.target]


def ladder(constants: set[int]) -> list[int]:
    beside = {constant + by for constant in constants for by in (-1, 0, 1)}
    return sorted(set(BASE) | beside)


def snap(points: list[int], of: Interval) -> Interval:
    return of and (max(p for p in points if p <= of[0]), min(p for p in points if p >= of[1]))


def hull(one: Interval, other: Interval) -> Interval:
    if one is None or other is None:
        return one or other
    return min(one[0], other[0]), max(one[1], other[1])


def moved(of: Interval, by: int) -> Interval:
    """The exact sum; where some number of it is no int, every int."""
    if of is None:
        return None
    low, high = of[0] + by, of[1] + by
    return (low, high) if INT[0] <= low and high <= INT[1] else INT


def set_by(statement: Statement, points: list[int], before: Values) -> Values:
    """The values after the statement."""
    after = list(before)
    if statement.to is not None:
        by = -statement.number if statement.sign == "-" else statement.number
        made = (by, by) if statement.of is None else moved(before[statement.of], by)
        after[statement.to] = snap(points, made)
    return after


def least(statements: list[Statement], count: int) -> list[Values]:
    """The values before each line, by rounds until nothing grows. All that reaches line 0 at first is 0."""
    points = ladder({0} | {it.number for it in statements if it.target is None})
    before: list[Values] = [[None] * count for _ in range(len(statements) + 1)]
    before[0] = [(0, 0)] * count
    while True:
        old = [list(values) for values in before]
        for line, statement in enumerate(statements):
            after = set_by(statement, points, before[line])
            for to in statement.after(line):
                before[to] = [hull(one, other) for one, other in zip(before[to], after)]
        if before == old:
            return before


def generated(rng: random.Random, count: int) -> list[Statement]:
    lines = rng.randrange(3, 25)
    return [statement(rng, lines, count) for _ in range(lines)]


def statement(rng: random.Random, lines: int, count: int) -> Statement:
    kind = rng.random()
    if kind < 0.35:
        return Statement(target=rng.randrange(lines + 1), always=kind < 0.05)
    of = None if kind < 0.5 else rng.randrange(count)
    sign = "+" if of is None else rng.choice("+-")
    return Statement(rng.randrange(count), of, sign, rng.choice(NUMBERS))


def source(statements: list[Statement], count: int) -> str:
    names = ",".join(f"x{number}" for number in range(count))
    lines = [f"l{line}:{it.text()}" for line, it in enumerate(statements)]
    return f"int {names};int g(void);int main(void){{\n" + "\n".join(lines) + f"\nl{len(statements)}:return 0;}}\n"


def shown(of: Interval) -> str:
    return f"[{of[0]},{of[1]}]" if of else "none"


def wanted(statements: list[Statement], count: int) -> dict[tuple[int, str], str]:
    """The value that is used in each line of the text."""
    before = least(statements, count)
    uses = ((line, it.of) for line, it in enumerate(statements) if it.of is not None)
    return {(line + 2, f"x{of}"): shown(before[line][of]) for line, of in uses}


def told(program: str, command: str, text: str) -> dict[tuple[int, str], str]:
    with tempfile.TemporaryDirectory() as folder:
        with open(f"{folder}/a.c", "w", encoding="ascii") as file:
            file.write(text)
        words = [program, command, "--values", "a.c"]
        lines = subprocess.run(words, cwd=folder, capture_output=True, text=True, check=False).stdout.splitlines()
    found = (LINE.fullmatch(line) for line in lines)
    return {(int(it[1]), it[2]): it[3] for it in found if it and it[2].startswith("x")}


def main() -> int:
    program, count = sys.argv[1], int((sys.argv[2:] or ["300"])[0])
    faults: dict[str, str] = {}
    for seed in range(count):
        rng = random.Random(seed)
        ints = rng.randrange(1, 5)
        statements = generated(rng, ints)
        text, want = source(statements, ints), wanted(statements, ints)
        for command in ("analyse", "dense"):
            got = told(program, command, text)
            faults[f"program {seed}, {command}"] = "" if got == want else f"{text}wanted {want}\ngot {got}"
    return tell(faults)


if __name__ == "__main__":
    sys.exit(main())
