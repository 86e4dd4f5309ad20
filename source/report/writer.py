"""The answer of a run in the form that its words ask for.

Most modules are loaded where they are needed, since all together take longer than gcc.
"""

from __future__ import annotations

import os
import sys

from driver.analysis import Answer
from driver.failure import ALARMS, CLEAN, UNWRITTEN, Failure, reason_of
from driver.texts import latin, read_text

from .wanted import Wanted
from .whole import NEW, UNCHANGED, Report, Texts

# What the program writes where it has no alarm.
NO_ALARM = b"0 alarms\n"
IGNORING = b"sparrow:"
# The forms that tell the fingerprint of each warning.
WITH_FINGERPRINTS = ("json", "sarif")
# The characters of a line that a baseline keeps for its readers.
MOST_KEPT = 200


class Writer:
    """Writes the report of a run. What was preprocessed is remembered before it is rewritten."""

    def __init__(self, wanted: Wanted) -> None:
        self.wanted = wanted
        self.known: set[str] = set()
        if wanted.baseline is not None and not wanted.is_updating:
            from .baseline import read_baseline

            self.known = read_baseline(wanted.baseline)
        self.texts: Texts = []
        # The files that may have a comment which ignores warnings.
        self.commented: list[str] = []

    def remember(self, files: list[str], paths: list[str]) -> None:
        """Reads the texts of files."""
        self.texts = [(spelled(file), read_text(path)) for file, path in zip(files, paths)]
        self.commented = [spelled(file) for file in files if may_ignore(file)]

    def told(self, answer: Answer, paths: list[str]) -> Answer:
        """The answer in its form; with --output nothing of it goes to standard output.

        The paths are those of the texts that were analysed.
        """
        content = b"".join(part for part, _ in answer.parts)
        if self.wanted.format == "plain":
            return written(self.wanted, answer, content)
        report = Report(answer.status)
        if content != NO_ALARM:
            from .building import built

            report = built(answer, self.texts)
        report.notes = answer.notes
        if report.status in (CLEAN, ALARMS):
            self.compare(report)
            if self.wanted.is_why:
                self.explain(report, paths)
            if self.commented:
                from .unused import tell_unused

                tell_unused(report, self.commented)
        content = document(self.wanted, report)
        told = written(self.wanted, Answer(report.status, answer.parts), content)
        told.notes = answer.notes
        return told

    def explain(self, report: Report, paths: list[str]) -> None:
        """Gives the warnings their causes, which the values tell."""
        lines = report.values
        if report.warnings:
            from why.notes import explain

            explain(report, [(path, read_text(path)) for path in paths], lines, self.texts)
        report.values = [line for line in lines if " = " in line] if self.wanted.has_values else []

    def compare(self, report: Report) -> None:
        """Compares with the baseline, and finds the status."""
        if self.wanted.baseline is not None or self.wanted.format in WITH_FINGERPRINTS:
            identify(report)
        if self.wanted.baseline is not None:
            self.compare_with(self.wanted.baseline, report)
        counted = report.warnings
        if self.wanted.chosen["--fail-on"] == "new":
            counted = [item for item in counted if item.state == NEW]
        report.status = ALARMS if counted else CLEAN

    def compare_with(self, baseline: str, report: Report) -> None:
        """Tells of each warning whether a baseline knows it, and how many that it has are gone."""
        if self.wanted.is_updating:
            self.known = {item.fingerprint for item in report.warnings}
            write_file(baseline, baseline_for(report).encode("ascii"))
        report.baseline = baseline
        for item in report.warnings:
            item.state = UNCHANGED if item.fingerprint in self.known else NEW
        found = {item.fingerprint for item in report.warnings + report.ignored}
        report.gone = len(self.known - found)


def may_ignore(file: str) -> bool:
    """Whether a file has the word with which such a comment begins."""
    if not os.path.isfile(file):
        return False
    with open(file, "rb") as opened:
        return IGNORING in opened.read()


def identify(report: Report) -> None:
    """Gives each warning its fingerprint."""
    from .baseline import Fingerprints

    fingerprints = Fingerprints()
    items = report.warnings + report.ignored
    for item in sorted(items, key=lambda item: item.finding.place):
        text = "" if item.spot is None else item.spot.text
        item.fingerprint = fingerprints.next(item.kind, os.path.normpath(item.name), text)


def baseline_for(report: Report) -> str:
    """The baseline of a report's warnings."""
    from .baseline import baseline_of
    from .shown import shown

    return baseline_of(
        (
            item.fingerprint,
            item.kind,
            item.file,
            "" if item.spot is None else shown(item.spot.text[:MOST_KEPT]).strip(),
        )
        for item in report.warnings
    )


def spelled(file: str) -> str:
    """The word of a file as markers spell it."""
    return latin(file).replace("\\", "\\\\").replace('"', '\\"')


def failed(wanted: Wanted, failure: Failure) -> Answer:
    """The answer of a run that has failed."""
    report = Report(failure.status)
    report.failure, report.hint = failure.text, failure.hint
    content = b"" if wanted.format == "plain" else document(wanted, report)
    return written(wanted, Answer(failure.status, []), content)


def document(wanted: Wanted, report: Report) -> bytes:
    """The report in its form."""
    report.mode = wanted.mode.lstrip("-")
    if wanted.format == "json":
        from . import json_document

        return json_document.document(report)
    if wanted.format == "sarif":
        from . import sarif

        return sarif.document(report)
    if wanted.format == "html":
        from . import html_page

        return html_page.document(report)
    from .text import Text

    return Text(has_colors(wanted)).document(report)


def has_colors(wanted: Wanted) -> bool:
    """Whether the report has colours: by itself on a terminal alone (no-color.org)."""
    color = wanted.chosen["--color"]
    if color != "auto":
        return color == "always"
    is_terminal = wanted.output is None and sys.stdout is not None and sys.stdout.isatty()
    is_plain = bool(os.environ.get("NO_COLOR")) or os.environ.get("TERM") == "dumb"
    return is_terminal and not is_plain


def written(wanted: Wanted, answer: Answer, content: bytes) -> Answer:
    """The answer with that content, unless a file takes it. Hints stay."""
    hints: list[tuple[bytes, str | None]] = [(b"", hint) for _, hint in answer.parts]
    if wanted.output is None:
        return Answer(answer.status, [(content, None), *hints])
    write_file(wanted.output, content)
    return Answer(answer.status, hints)


def write_file(path: str, content: bytes) -> None:
    """Writes a file."""
    try:
        with open(path, "wb") as file:
            file.write(content)
    except (OSError, ValueError) as error:
        raise Failure(UNWRITTEN, f"{path} can't be written: {reason_of(error)}") from error
