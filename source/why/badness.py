"""What is wrong with a value, by the kind of the warning that comes of it."""

from __future__ import annotations

from typing import NamedTuple

from report.folding import Finding, is_unknown
from report.kinds import NULL, OVERRUN, UNKNOWN, ZERO

from .values import Value

# The bounds of int: an index is past any object there.
LEAST, MOST = -(2**31), 2**31 - 1

UNSIZED, PAST, BEFORE, WIDE = "unsized", "past", "before", "wide"


class Badness(NamedTuple):
    """A kind of what is wrong: that of a warning, or one of the words above; and a bound."""

    kind: str
    limit: int = 0

    def is_in(self, value: Value) -> bool:
        """Whether a value has it."""
        numbers = value.numbers
        if self.kind == UNSIZED:
            return any(is_unknown(target.size) for target in value.targets)
        if self.kind == PAST:
            moved = any(target.offset[1] >= self.limit for target in value.targets)
            return moved or (numbers is not None and numbers[1] >= self.limit)
        if self.kind == BEFORE:
            moved = any(target.offset[0] < 0 for target in value.targets)
            return moved or (numbers is not None and numbers[0] < 0)
        if numbers is None:
            return False
        if self.kind == WIDE:
            return numbers[0] <= LEAST or numbers[1] >= MOST
        return numbers != (0, 0) if self.kind == UNKNOWN else numbers[0] <= 0 <= numbers[1]

    def is_of(self, constant: int) -> bool:
        """Whether a constant has it."""
        return self.kind != UNSIZED and self.is_in(Value((constant, constant), ()))

    def of_parts(self) -> Badness:
        """What has to be wrong with a part of a sum or product for it to be the cause."""
        return Badness(WIDE) if self.kind in (PAST, BEFORE) else self


def badness_of(finding: Finding) -> list[Badness]:
    """What may be wrong with a value that a finding's access uses, in the order to look for it."""
    if finding.kind == ZERO:
        return [Badness(ZERO)]
    if finding.kind == NULL:
        return [Badness(NULL)]
    if finding.kind == UNKNOWN:
        # A null pointer that is moved is another number.
        others = [Badness(UNSIZED)] if "size" in finding.intervals else []
        return [Badness(UNKNOWN), Badness(NULL), *others]
    if finding.kind != OVERRUN:
        return []
    offset, size = finding.intervals["offset"], finding.intervals["size"]
    found = [Badness(UNSIZED)] if is_unknown(size) else []
    if offset[1] + finding.intervals["count"][0] > size[0]:
        found.append(Badness(PAST, max(1, size[0])))
    return found + ([Badness(BEFORE)] if offset[0] < 0 else [])
