"""A report as a whole: its warnings, or why there are none, and its last line."""

from __future__ import annotations

# A type checker takes it as true. Those modules load what a report without warnings doesn't need.
TYPE_CHECKING = False
if TYPE_CHECKING:
    from .items import Item, Refused

NEW, UNCHANGED = "new", "unchanged"

# The texts that were analysed, before they were rewritten, each with the name of its file.
Texts = list[tuple[str, str]]


class Report:
    """The warnings, or why there are none, and the status of the run."""

    def __init__(self, status: int) -> None:
        self.status = status
        # The mode in which the program has analysed: sharp or plain.
        self.mode = ""
        # Those of a baseline are among the warnings; those that a comment ignores are not.
        self.warnings: list[Item] = []
        self.ignored: list[Item] = []
        self.values: list[str] = []
        self.refusals: list[Refused] = []
        self.failure: str | None = None
        # What may help against the failure.
        self.hint: str | None = None
        # What is said of the run as a whole.
        self.notes: list[str] = []
        # The causes of more warnings than one, with how many there are.
        self.causes: list[tuple[int, Item]] = []
        # The file of the baseline, and how many of its warnings are gone.
        self.baseline: str | None = None
        self.gone = 0

    @property
    def shown(self) -> list[Item]:
        """The warnings that no baseline knows."""
        return [item for item in self.warnings if item.state != UNCHANGED]


def last_line(report: Report) -> str:
    """How many warnings there are, and how many aren't told."""
    if report.refusals:
        return f"nothing is analysed: {counted(len(report.refusals), 'error')}"
    items = report.shown
    alarms = sum(item.finding.alarms for item in items)
    new = "" if report.baseline is None else "new "
    said = counted(len(items), f"{new}warning")
    if items:
        said += f" at {counted(len({item.place for item in items}), 'place')}"
    if alarms > len(items):
        said += f", folded from {alarms} alarms"
    if report.ignored:
        said += f"; {len(report.ignored)} ignored"
    if report.baseline is not None:
        known = len(report.warnings) - len(items)
        said += f"; {known} in the baseline"
        said += f", which has {report.gone} more" if report.gone else ""
    return said


def counted(count: int, what: str) -> str:
    """A number with a noun."""
    return f"{count} {what}" if count == 1 else f"{count} {what}s"
