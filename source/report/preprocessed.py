"""Lines of the preprocessed texts, by the file and line that their markers give."""

from __future__ import annotations

from bisect import bisect_left
from typing import Iterator, NamedTuple

from c.places import MARKER

from .tokens import Line

# A file as its marker spells it, and a line.
Row = tuple[str, int]


class Part(NamedTuple):
    """What stands in a row between two markers, and whether a marker is right before or behind."""

    row: Row
    text: str
    stretch: int
    is_first: bool
    is_last: bool


def lines_of(texts: list[tuple[str, str]], wanted: set[Row]) -> dict[Row, list[Line]]:
    """The tokens of each row that is wanted, once for each time that a text has the row.

    Each text comes with the name of its file. Columns are offsets.
    """
    numbers: dict[str, list[int]] = {}
    for file, number in sorted(wanted):
        numbers.setdefault(file, []).append(number)
    found: dict[Row, list[Line]] = {}
    for name, text in texts:
        before = None
        for part in parts_of(text, name, numbers):
            if before is None or not goes_on(before, part):
                found.setdefault(part.row, []).append(Line())
            found[part.row][-1].add(part.text)
            before = part
    return found


def goes_on(before: Part, part: Part) -> bool:
    """Whether just a marker stands between two parts, as before a macro of a system header."""
    return (
        before.row == part.row
        and before.is_last
        and part.is_first
        and before.stretch + 1 == part.stretch
    )


def parts_of(text: str, name: str, wanted: dict[str, list[int]]) -> Iterator[Part]:
    """The parts of a text that lie in rows that are wanted."""
    start, first, file, stretch = 0, 1, name, 0
    for match in MARKER.finditer(text):
        # Nothing stands between two markers where a macro of a header of the system stands for it.
        if start < match.start():
            if file in wanted:
                # The line break before a marker ends a line, and begins none.
                lines = text[start : match.start() - 1].split("\n")
                yield from parts_between(lines, (file, first), wanted[file], stretch)
            stretch += 1
        start, first = match.end(), int(match.group(1))
        file = file if match.group(2) is None else match.group(2)
    if file in wanted:
        yield from parts_between(text[start:].split("\n"), (file, first), wanted[file], stretch)


def parts_between(
    lines: list[str], beginning: Row, numbers: list[int], stretch: int
) -> Iterator[Part]:
    """The parts of lines without markers that begin at a row."""
    file, first = beginning
    at = bisect_left(numbers, first)
    while at < len(numbers) and numbers[at] < first + len(lines):
        offset = numbers[at] - first
        is_last = offset == len(lines) - 1
        yield Part((file, numbers[at]), lines[offset], stretch, offset == 0, is_last)
        at += 1
