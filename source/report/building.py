"""From the program's answer to a report: findings with their places, less what is ignored."""

from __future__ import annotations

import re
from typing import Iterable, Optional

from c.places import Place
from driver.analysis import Answer
from driver.failure import ALARMS, CLEAN, REFUSED, SAID_OF_STATUS, say

from . import kinds
from .folding import Finding, fold
from .ignore import Reasons
from .items import Item, Refused
from .sentences import sentence
from .shown import shown
from .sources import Sources, unescaped
from .spots import Spot, Spots, joined
from .whole import Report, Texts

REFUSAL = re.compile(
    r"(.*):([0-9]+):([0-9]+): refused(?: ([A-Z]+[0-9]+))?: ([^\n]*)\n", re.DOTALL
)

# A place with a kind, and what is found there.
Where = tuple[str, int, int, str]
Placed = tuple[Finding, Optional[Spot]]

ORDER = {kind: number for number, kind in enumerate(kinds.KINDS)}


def built(answer: Answer, texts: Texts) -> Report:
    """The report of an answer."""
    report, sources = Report(answer.status), Sources()
    parts = [(part.decode("latin-1"), hint) for part, hint in answer.parts]
    if answer.status in (CLEAN, ALARMS):
        folded = fold("".join(part for part, _ in parts))
        report.values = folded.values
        take_findings(report, folded.findings, sources, texts)
    elif answer.status == REFUSED:
        take_refusals(report, parts, sources, texts)
    else:
        report.failure = SAID_OF_STATUS.get(answer.status, "the analysis was ended")
    return report


def take_findings(
    report: Report, findings: list[Finding], sources: Sources, texts: Texts
) -> None:
    """Takes findings into the report; a comment in its line takes one out."""
    reasons = Reasons()
    unreasoned: dict[tuple[str, int], None] = {}
    for finding, spot in of_places(findings, Spots(sources, texts, findings)):
        said = sentence(finding, None if spot is None else spot.expression)
        item = Item(finding, unescaped(finding.place.file), spot, said)
        reason = None if spot is None else reasons.of(spot.text)
        if reason:
            item.justification = shown(reason)
            report.ignored.append(item)
            continue
        if reason is not None:
            unreasoned[item.file, item.line] = None
        report.warnings.append(item)
    report.warnings.sort(key=order)
    report.ignored.sort(key=order)
    for file, line in unreasoned:
        say(f"{file}:{line}: 'sparrow: ignore' wants a reason")


def of_places(findings: list[Finding], spots: Spots) -> Iterable[Placed]:
    """The findings with their spots: those of one kind at one spot, as of a macro, are one."""
    found: dict[Where, Placed] = {}
    for finding in findings:
        spot = spots.of(finding)
        place = finding.place
        line, column = (place.line, place.column) if spot is None else (spot.line, spot.start + 1)
        key = (place.file, line, column, finding.kind)
        if key in found:
            first, known = found[key]
            first.join(finding)
            found[key] = first, joined(known, spot)
        else:
            found[key] = finding, spot
    return without_followers(found).values()


def without_followers(found: dict[Where, Placed]) -> dict[Where, Placed]:
    """The same with overruns as part of what they come of: a pointer of which nothing is known."""
    left = dict(found)
    for (file, line, column, kind), (finding, _) in found.items():
        cause = left.get((file, line, column, kinds.UNKNOWN))
        if kind == kinds.OVERRUN and cause is not None and not finding.is_known:
            cause[0].join(finding)
            del left[file, line, column, kind]
    return left


def order(item: Item) -> tuple[tuple[str, int, int], int]:
    """What items are sorted by."""
    return item.place, ORDER[item.kind]


def take_refusals(
    report: Report, parts: list[tuple[str, Optional[str]]], sources: Sources, texts: Texts
) -> None:
    """Takes lines of refusal into the report."""
    read: list[tuple[Finding, str, str, Optional[str]]] = []
    for part, hint in parts:
        match = REFUSAL.fullmatch(part)
        if match is not None:
            file, line, column, code, text = match.groups()
            finding = Finding(Place(file, int(line), int(column)), kinds.REFUSED)
            read.append((finding, code or "", text, hint))
    spots = Spots(sources, texts, [finding for finding, *_ in read])
    for finding, code, text, hint in read:
        item = Item(finding, unescaped(finding.place.file), spots.of(finding), shown(text))
        report.refusals.append(Refused(item, code, hint))
