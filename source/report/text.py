"""The report for people."""

from __future__ import annotations

from .whole import Report, last_line

# A type checker takes it as true. A report without warnings doesn't need what that module loads.
TYPE_CHECKING = False
if TYPE_CHECKING:
    from .items import Item

BOLD, MARK, PLAIN = "\x1b[1m", "\x1b[1;32m", "\x1b[0m"
COLORS = {"warning": "\x1b[1;35m", "error": "\x1b[1;31m", "note": "\x1b[1;36m"}


class Text:
    """Writes a report, with colours or without."""

    def __init__(self, has_colors: bool) -> None:
        self.has_colors = has_colors

    def document(self, report: Report) -> bytes:
        """The report. Names of files keep bytes that are no text, so that they can be opened."""
        if report.failure is not None:
            return b""
        lines = []
        for item in report.shown:
            lines.append(self.told(item, f"{item.message} [{item.kind}]"))
            lines += [self.told(note, note.message, "note") for note in item.objects + item.notes]
        for refusal in report.refusals:
            code = f" [{refusal.code}]" if refusal.code else ""
            lines.append(self.told(refusal.item, f"{refusal.item.message}{code}", "error"))
        lines.append(last_line(report))
        lines += [
            f"{count} come of {raw(note.name)}:{note.line}:{note.column}: {note.message}"
            for count, note in report.causes
        ]
        lines += [raw(line) for line in report.values]
        return "".join(f"{line}\n" for line in lines).encode("utf-8", "surrogateescape")

    def told(self, item: Item, said: str, word: str = "warning") -> str:
        """The line of an item, and that of its source with a mark."""
        color = COLORS[word]
        place = self.colored(BOLD, f"{raw(item.name)}:{item.line}:{item.column}:")
        lines = [f"{place} {self.colored(color, f'{word}:')} {said}"]
        spot = item.spot
        if spot is not None:
            from .excerpt import Excerpt

            excerpt = Excerpt(spot.text, spot.start, spot.end)
            lines.append(f"{spot.line:5} | {excerpt.line}")
            lines.append(f"      | {excerpt.indent}{self.colored(MARK, excerpt.mark)}")
        return "\n".join(lines)

    def colored(self, color: str, text: str) -> str:
        """A text in a colour."""
        return f"{color}{text}{PLAIN}" if self.has_colors else text


def raw(name: str) -> str:
    """A name whose characters are bytes, without controls; what is no text stays as it is."""
    from .shown import CONTROL, REPLACEMENT

    told = name.encode("latin-1").decode("utf-8", "surrogateescape")
    return CONTROL.sub(REPLACEMENT, told)
