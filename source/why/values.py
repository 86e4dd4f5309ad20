"""What `--values` and `--nodes` tell: what each node uses, and which alarms it has."""

from __future__ import annotations

import re
from typing import Iterable, NamedTuple, Optional

from c.places import Place
from report.folding import ALARM, INTERVAL, Interval, kind_of

USE = re.compile(r"node ([0-9]+) (.*):([0-9]+):([0-9]+): (\S+) = (none|[\[&].*)", re.DOTALL)
ALARM_OF_NODE = re.compile(r"node ([0-9]+) (.*)", re.DOTALL)
# The result of a call, and memory that a call gives.
RESULT = re.compile(r".*\.%[0-9]+", re.DOTALL)
MEMORY = re.compile(r"%(?:heap|ext)\.([0-9]+)")
TARGET = re.compile(r"&(\S+)\+\[(-?[0-9]+),(-?[0-9]+)\]/\[([0-9]+),([0-9]+)\]")


class Target(NamedTuple):
    """Where a pointer may point: a region, with offset and size."""

    region: str
    offset: Interval
    size: Interval


class Value(NamedTuple):
    """The numbers and targets that a location may hold."""

    numbers: Optional[Interval]
    targets: tuple[Target, ...]

    def with_other(self, other: Value) -> Value:
        """What this one or another may be."""
        numbers = self.numbers or other.numbers
        if numbers is not None and other.numbers is not None:
            low, high = other.numbers
            numbers = min(numbers[0], low), max(numbers[1], high)
        return Value(numbers, tuple(dict.fromkeys(self.targets + other.targets)))


Uses = dict[str, Value]


class Nodes:
    """The nodes of an analysis that use something."""

    def __init__(self, lines: Iterable[str]) -> None:
        self.uses: dict[int, Uses] = {}
        self.places: dict[int, Place] = {}
        self.at: dict[Place, list[int]] = {}
        # The nodes of the alarms of each place and kind.
        self.alarms: dict[tuple[Place, str], list[int]] = {}
        # Where the memory that a call gives is taken: by the first node behind the call's own.
        self.taken: dict[str, Place] = {}
        for line in lines:
            self.read(line)

    def read(self, line: str) -> None:
        """Takes a line."""
        match = USE.fullmatch(line)
        if match is not None:
            number, file, row, column, location, value = match.groups()
            node = int(number)
            if node not in self.uses:
                self.uses[node] = {}
                self.places[node] = Place(file, int(row), int(column))
                self.at.setdefault(self.places[node], []).append(node)
            self.uses[node][location] = value_of(value)
            if RESULT.fullmatch(location):
                self.take(node, self.uses[node][location])
            return
        told = ALARM_OF_NODE.fullmatch(line)
        alarm = None if told is None else ALARM.fullmatch(told.group(2))
        if told is not None and alarm is not None:
            file, row, column, word, rest = alarm.groups()
            key = Place(file, int(row), int(column)), kind_of(word, rest)
            nodes = self.alarms.setdefault(key, [])
            if int(told.group(1)) not in nodes:
                nodes.append(int(told.group(1)))

    def take(self, node: int, value: Value) -> None:
        """Keeps where a node takes the result of a call, if that is one piece of memory."""
        match = MEMORY.match(value.targets[0].region) if len(value.targets) == 1 else None
        if match is not None and int(match.group(1)) < node:
            self.taken.setdefault(match.group(), self.places[node])

    def used_at(self, places: Iterable[Place]) -> Uses:
        """What the nodes at some places use together."""
        found: Uses = {}
        for place in places:
            for node in self.at.get(place, ()):
                for location, value in self.uses[node].items():
                    known = found.get(location)
                    found[location] = value if known is None else known.with_other(value)
        return found


def value_of(text: str) -> Value:
    """The value that a line tells."""
    numbers = INTERVAL.match(text)
    targets = tuple(
        Target(region, (int(least), int(most)), (int(low), int(high)))
        for region, least, most, low, high in TARGET.findall(text)
    )
    return Value(None if numbers is None else (int(numbers[1]), int(numbers[2])), targets)
