"""The alarms of the program's report, folded: one finding for each place and kind."""

from __future__ import annotations

import re

from c.places import Place
from driver.failure import NOT_RUN, Failure

from .kinds import NO_FUNCTION, NULL, OVERRUN, PUNNED, UNKNOWN, ZERO

Interval = tuple[int, int]

ALARM = re.compile(r"(.*):([0-9]+):([0-9]+): (overrun|zero|pointer|punned): (.*)", re.DOTALL)
COUNT = re.compile(r"[0-9]+ alarms?")
INTERVAL = re.compile(r"\[(-?[0-9]+),(-?[0-9]+)\]")
NUMBER = re.compile(r"[0-9]+")
# Where a line tells no count, one element is accessed.
ONE = (1, 1)


# A bound this far from 0 tells nothing: it comes of a type's greatest or least number.
FAR = 2**62


def is_unknown(size: Interval) -> bool:
    """Whether an object may have any size."""
    return size[0] <= 1 and size[1] >= FAR


class Finding:
    """The alarms of one kind at one place, with the hulls of what they tell."""

    def __init__(self, place: Place, kind: str) -> None:
        self.place = place
        self.kind = kind
        self.alarms = 0
        self.intervals: dict[str, Interval] = {}
        # The sizes of a type and of elements, of a punned access.
        self.sizes: dict[str, set[int]] = {}
        # Whether an alarm tells the size of the object, or that the access is before it.
        self.is_known = False

    def widen(self, name: str, interval: Interval) -> None:
        """Takes an interval into the hull of that name."""
        known = self.intervals.get(name, interval)
        self.intervals[name] = min(known[0], interval[0]), max(known[1], interval[1])

    def take(self, word: str, rest: str) -> None:
        """Takes what one alarm tells."""
        self.alarms += 1
        if word == "punned":
            for name, size in zip(("access", "element"), NUMBER.findall(rest)):
                self.sizes.setdefault(name, set()).add(int(size))
            return
        told = [(int(low), int(high)) for low, high in INTERVAL.findall(rest)]
        if word == "overrun":
            self.widen("offset", told[0])
            self.widen("count", told[1] if len(told) == 3 else ONE)
            self.widen("size", told[-1])
            self.is_known |= not is_unknown(told[-1]) or told[0][1] < 0
        elif told:
            self.widen("value", told[0])

    def join(self, other: Finding) -> None:
        """Takes what another of the same kind tells."""
        self.alarms += other.alarms
        self.is_known |= other.is_known
        for name, interval in other.intervals.items():
            self.widen(name, interval)
        for name, sizes in other.sizes.items():
            self.sizes.setdefault(name, set()).update(sizes)


class Folded:
    """The findings of a report in its order, and the lines behind its count."""

    def __init__(self, findings: list[Finding], values: list[str]) -> None:
        self.findings = findings
        self.values = values


def fold(report: str) -> Folded:
    """Folds a report. A character is a byte."""
    lines = report.split("\n")
    found: dict[tuple[str, str, str, str], Finding] = {}
    for number, line in enumerate(lines):
        match = ALARM.fullmatch(line)
        if match is None:
            if COUNT.fullmatch(line):
                return Folded(list(found.values()), lines[number + 1 : -1])
            break
        file, row, column, word, rest = match.groups()
        kind = kind_of(word, rest)
        key = (file, row, column, kind)
        finding = found.get(key)
        if finding is None:
            finding = found[key] = Finding(Place(file, int(row), int(column)), kind)
        finding.take(word, rest)
    raise Failure(NOT_RUN, "the program's report can't be read")


def kind_of(word: str, rest: str) -> str:
    """The kind of an alarm: the null pointer is told apart from other numbers."""
    if word == "pointer":
        return {"no function": NO_FUNCTION, "value [0,0]": NULL}.get(rest, UNKNOWN)
    return {"overrun": OVERRUN, "zero": ZERO, "punned": PUNNED}[word]
