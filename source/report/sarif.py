"""The report as SARIF 2.1.0, the format of OASIS for results of static analysis."""

from __future__ import annotations

import json
import os
from bisect import bisect_left
from typing import Any

from .items import Item, Refused
from .kinds import KINDS
from .sources import unescaped
from .whole import Report

SCHEMA = "https://json.schemastore.org/sarif-2.1.0.json"
NUMBERS = {kind: number for number, kind in enumerate(KINDS)}
PLAIN_IN_URI = frozenset(b"ABCDEFGHIJKLMNOPQRSTUVWXYZabcdefghijklmnopqrstuvwxyz0123456789-._~/")


def document(report: Report) -> bytes:
    """The report: one run. Each result has a line of its own."""
    regions = Regions()
    invocation: dict[str, Any] = {
        "executionSuccessful": report.status < 2,
        "exitCode": report.status,
        "properties": {"mode": report.mode},
    }
    notes = [notification(refusal, regions) for refusal in report.refusals]
    if report.failure is not None:
        said = with_hint(report.failure, report.hint)
        notes.append({"level": "error", "message": {"text": said}})
    notes += [{"level": "note", "message": {"text": note}} for note in report.notes]
    if notes:
        invocation["toolExecutionNotifications"] = notes
    # Either all results tell whether they are suppressed, or none does.
    has_ignored = bool(report.ignored)
    results = [result(item, regions, has_ignored) for item in report.warnings + report.ignored]
    run = {
        "tool": {"driver": {"name": "Sparrow", "rules": rules()}},
        "columnKind": "unicodeCodePoints",
        "invocations": [invocation],
    }
    head = json.dumps({"$schema": SCHEMA, "version": "2.1.0", "runs": [run]})
    lines = ",\n".join(json.dumps(each) for each in results)
    return f'{head[:-3]},\n"results": [\n{lines}]}}]}}\n'.encode("ascii")


def rules() -> list[dict[str, Any]]:
    """The kinds of warnings."""
    return [
        {
            "id": kind,
            "shortDescription": {"text": said},
            "defaultConfiguration": {"level": "warning"},
        }
        for kind, said in KINDS.items()
    ]


def result(item: Item, regions: Regions, has_ignored: bool) -> dict[str, Any]:
    """A warning."""
    told: dict[str, Any] = {
        "ruleId": item.kind,
        "ruleIndex": NUMBERS[item.kind],
        "level": "warning",
        "message": {"text": item.message},
        "locations": [location(item, regions)],
        "partialFingerprints": {"kindAndLine/v1": item.fingerprint},
        "properties": {"alarms": item.finding.alarms},
    }
    notes = item.objects + item.notes
    if notes:
        told["relatedLocations"] = [
            {**location(note, regions), "message": {"text": note.message}} for note in notes
        ]
    if item.state is not None:
        told["baselineState"] = item.state
    if has_ignored:
        told["suppressions"] = (
            []
            if item.justification is None
            else [{"kind": "inSource", "justification": item.justification}]
        )
    return told


def location(item: Item, regions: Regions) -> dict[str, Any]:
    """Where an item stands."""
    return {
        "physicalLocation": {
            "artifactLocation": {"uri": uri_of(item.name)},
            "region": regions.of(item),
        }
    }


def notification(refusal: Refused, regions: Regions) -> dict[str, Any]:
    """A refusal."""
    told: dict[str, Any] = {
        "level": "error",
        "message": {"text": with_hint(refusal.item.message, refusal.hint)},
        "locations": [location(refusal.item, regions)],
    }
    if refusal.code:
        told["descriptor"] = {"id": refusal.code}
    return told


def with_hint(said: str, hint: str | None) -> str:
    """What is said, with what may help."""
    return said if hint is None else f"{said} (hint: {hint})"


def uri_of(name: str) -> str:
    """The URI of a file: a path from the folder of the run, or a whole one."""
    path = os.path.normpath(unescaped(name).encode("latin-1"))
    quoted = "".join(chr(byte) if byte in PLAIN_IN_URI else f"%{byte:02X}" for byte in path)
    return f"file://{quoted}" if path.startswith(b"/") else quoted


class Regions:
    """The regions of items, in characters. Which bytes of a line begin none is found once."""

    def __init__(self) -> None:
        self.inner: dict[str, list[int]] = {}

    def of(self, item: Item) -> dict[str, Any]:
        """The region of an item."""
        spot = item.spot
        if spot is None:
            return {"startLine": item.line, "startColumn": item.column}
        columns = [self.character(spot.text, offset) + 1 for offset in (spot.start, spot.end)]
        return {"startLine": item.line, "startColumn": columns[0], "endColumn": columns[1]}

    def character(self, text: str, offset: int) -> int:
        """How many characters stand before an offset of a line. What is no UTF-8 is bytes."""
        if text not in self.inner:
            self.inner[text] = inner_bytes(text)
        return offset - bisect_left(self.inner[text], offset)


def inner_bytes(text: str) -> list[int]:
    """The offsets within a line of UTF-8 at which no character begins."""
    if text.isascii():
        return []
    try:
        text.encode("latin-1").decode("utf-8")
    except UnicodeDecodeError:
        return []
    return [offset for offset, byte in enumerate(text) if "\x80" <= byte <= "\xbf"]
