"""Places of a preprocessed text: the file and line that its markers give, and the column."""

from __future__ import annotations

import re
from bisect import bisect_right
from typing import NamedTuple

MARKER = re.compile(
    r'^[ \t]*#[ \t]*(?:line[ \t]+)?([0-9]+)(?:[ \t]+"((?:\\.|[^"\\\n])*)")?[^\n]*\n', re.MULTILINE
)


class Place(NamedTuple):
    """A file as a marker spells it, a line, and a column from 1."""

    file: str
    line: int
    column: int


class Places:
    """The places of a text's offsets."""

    def __init__(self, text: str, file: str) -> None:
        self.lines = [0]
        at = text.find("\n")
        while at >= 0:
            self.lines.append(at + 1)
            at = text.find("\n", at + 1)
        # Behind each marker: its offset, the line there, and the file.
        self.offsets = [0]
        self.marked = [(0, 1, file)]
        for match in MARKER.finditer(text):
            name = match.group(2)
            file = self.marked[-1][2] if name is None else name
            physical = bisect_right(self.lines, match.end()) - 1
            self.offsets.append(match.end())
            self.marked.append((physical, int(match.group(1)), file))

    def of(self, offset: int) -> Place:
        """The place of an offset."""
        physical = bisect_right(self.lines, offset) - 1
        first, line, file = self.marked[bisect_right(self.offsets, offset) - 1]
        return Place(file, line + physical - first, offset - self.lines[physical] + 1)

    def offsets_of(self, place: Place) -> list[int]:
        """The offsets that have a place: more than one where lines were taken apart."""
        found = []
        ends = [first for first, _, _ in self.marked[1:]] + [len(self.lines)]
        for (first, line, file), behind in zip(self.marked, ends):
            physical = first + place.line - line
            if file == place.file and first <= physical < behind:
                found.append(self.lines[physical] + place.column - 1)
        return found
