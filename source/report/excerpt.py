"""A source line with a mark below it, as a terminal shows them."""

from __future__ import annotations

from .shown import shown, width

# Lines of up to so many bytes are shown whole; of others what is around the mark.
MOST_WHOLE = 160
BEFORE, BEHIND = 60, 80
CUT = "..."


class Excerpt:
    """A line in three parts, of which the second is meant; cut, where it is long."""

    def __init__(self, text: str, start: int, end: int) -> None:
        first, last = 0, len(text)
        if len(text) > MOST_WHOLE:
            first = boundary(text, max(0, start - BEFORE))
            last = boundary(text, min(len(text), start + BEHIND))
        self.before = ("" if first == 0 else CUT) + shown(text[first:start])
        self.meant = shown(text[start : min(end, last)])
        self.behind = shown(text[min(end, last) : last]) + ("" if last == len(text) else CUT)

    @property
    def line(self) -> str:
        """The line, or what is shown of it."""
        return (self.before + self.meant + self.behind).rstrip()

    @property
    def indent(self) -> str:
        """What stands before the mark: a tab is as wide as that of the line."""
        return "\t".join(" " * width(part) for part in self.before.split("\t"))

    @property
    def mark(self) -> str:
        """The mark below what is meant."""
        return "^" + "~" * (width(self.meant) - 1)


def boundary(text: str, at: int) -> int:
    """The offset, or the next one at which a character of UTF-8 may begin."""
    for offset in range(at, min(at + 4, len(text))):
        if not "\x80" <= text[offset] <= "\xbf":
            return offset
    return at
