"""The report as JSON: tests/report/report.schema.json says what stands where.

Each warning has a line of its own. What isn't known has no member.
"""

from __future__ import annotations

import json
from typing import Any

from .items import Item, Refused
from .shown import shown
from .whole import Report

FORMAT, VERSION = "sparrow-report", 1


def document(report: Report) -> bytes:
    """The report."""
    head: dict[str, Any] = {"format": FORMAT, "version": VERSION}
    head.update(mode=report.mode, status=report.status)
    if report.failure is not None:
        head["failure"] = report.failure
    if report.hint is not None:
        head["hint"] = report.hint
    if report.notes:
        head["notes"] = report.notes
    if report.baseline is not None:
        head["baseline"] = {"file": report.baseline, "gone": report.gone}
    parts = [json.dumps(head)[:-1]]
    parts.append(listed("warnings", [warning(item) for item in report.warnings]))
    parts.append(listed("ignored", [warning(item) for item in report.ignored]))
    parts.append(listed("refusals", [refused(refusal) for refusal in report.refusals]))
    if report.values:
        parts.append(listed("values", [shown(line) for line in report.values]))
    return (",\n".join(parts) + "}\n").encode("ascii")


def listed(name: str, objects: list[Any]) -> str:
    """A member with a list, which has a line for each object."""
    lines = ",\n".join(json.dumps(each) for each in objects)
    return f'"{name}": [\n{lines}]' if objects else f'"{name}": []'


def place(item: Item) -> dict[str, Any]:
    """Where an item stands: in its source, and in the line that the analysis has read."""
    analysed = item.finding.place
    return {
        "file": item.file,
        "line": item.line,
        "column": item.column,
        "analysed": {"line": analysed.line, "column": analysed.column},
    }


def warning(item: Item) -> dict[str, Any]:
    """A warning. Its intervals are two numbers each, with their bounds."""
    finding = item.finding
    told = place(item)
    told.update(kind=item.kind, message=item.message)
    if item.spot is not None and item.spot.expression is not None:
        told["expression"] = item.spot.expression.whole
    told.update(finding.intervals)
    told.update((name, sorted(sizes)) for name, sizes in finding.sizes.items())
    told.update(alarms=finding.alarms, fingerprint=item.fingerprint)
    if item.state is not None:
        told["baseline"] = item.state
    if item.justification is not None:
        told["justification"] = item.justification
    if item.objects:
        told["objects"] = [noted(note) for note in item.objects]
    if item.cause is not None:
        told["reason"] = reason(item)
    return told


def noted(note: Item) -> dict[str, Any]:
    """What is said at another place."""
    return {"file": note.file, "line": note.line, "column": note.column, "message": note.message}


def reason(item: Item) -> dict[str, Any]:
    """Where what is wrong comes from, and the steps from there that are told."""
    cell, what = item.cause or ("", "")
    first, *steps = map(noted, item.notes)
    return {**first, "location": shown(cell), "what": what, "steps": steps}


def refused(refusal: Refused) -> dict[str, Any]:
    """A refusal."""
    told = place(refusal.item)
    told["message"] = refusal.item.message
    if refusal.code:
        told["code"] = refusal.code
    if refusal.hint is not None:
        told["hint"] = refusal.hint
    return told
