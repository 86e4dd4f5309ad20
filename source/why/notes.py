"""What is said of the causes of warnings: notes with their places in the sources."""

from __future__ import annotations

import sys
from typing import Optional

from c.places import Place
from c.tokens import Unreadable
from driver.failure import say
from report.folding import Finding
from report.items import Item
from report.kinds import REFUSED
from report.sources import Sources, unescaped
from report.spots import Spots
from report.whole import Report, Texts
from rewriting.program import RECURSION

from .objects import Object, objects_of
from .search import Cause, Search

# So many steps from the cause to the warning are told.
MOST_STEPS = 4
# So many causes of more warnings than one are told together.
MOST_CAUSES = 10


def explain(
    report: Report, texts: list[tuple[str, str]], lines: list[str], remembered: Texts
) -> None:
    """Gives the warnings of a report their causes. `texts` are those that were analysed, `lines`
    what the program has told of their nodes; what was preprocessed is remembered."""
    sys.setrecursionlimit(max(sys.getrecursionlimit(), RECURSION))
    try:
        search = Search(texts, lines)
        causes = [
            (item, search.cause(item.finding), objects_of(search, item.finding))
            for item in report.warnings
        ]
    except (Unreadable, RecursionError, ArithmeticError, LookupError, ValueError, TypeError):
        # The warnings are told whatever was overlooked here.
        say("the causes of the warnings can't be told")
        return
    told = [
        (item, cause, places_of(cause), [each for each in objects if is_other(each, cause)])
        for item, cause, objects in causes
    ]
    places = [place for _, _, found, _ in told for place in found]
    places += [each.place for _, _, _, objects in told for each in objects]
    spots = Spots(Sources(), remembered, [Finding(place, REFUSED) for place in places])
    for item, cause, found, objects in told:
        item.objects = [noted(each.place, each.said, spots) for each in objects]
        if cause is not None:
            item.notes = [
                noted(place, said, spots) for place, said in zip(found, sentences_of(cause))
            ]
            item.cause = cause.location, cause.what
    tell_together(report)


def noted(place: Place, said: str, spots: Spots) -> Item:
    """What is said at a place."""
    finding = Finding(place, REFUSED)
    return Item(finding, unescaped(place.file), spots.of(finding), said)


def is_other(each: Object, cause: Optional[Cause]) -> bool:
    """Whether the cause of a warning doesn't tell an object already."""
    return cause is None or cause.location != each.region


def places_of(cause: Optional[Cause]) -> list[Place]:
    """The places of a cause and of the steps from it that are told."""
    return [] if cause is None else [cause.place, *(step.place for step in cause.steps[:MOST_STEPS])]


def sentences_of(cause: Cause) -> list[str]:
    """What is said at these places."""
    said = [f"'{cause.location}' {cause.what}"]
    before = cause.location
    for step in cause.steps[:MOST_STEPS]:
        said.append(f"'{step.location}' gets it from '{before}'")
        before = step.location
    left = len(cause.steps) - MOST_STEPS
    if left > 0:
        said[-1] += f", and from there it takes {left} more step{'s' if left > 1 else ''}"
    return said


def tell_together(report: Report) -> None:
    """Tells the causes of the most warnings of a report that are shown."""
    counts: dict[tuple[str, int, int, str], list[Item]] = {}
    for item in report.shown:
        for note in item.notes[:1]:
            counts.setdefault((*note.place, note.message), []).append(item)
    found = sorted(counts.values(), key=lambda items: (-len(items), items[0].notes[0].place))
    report.causes = [
        (len(items), items[0].notes[0]) for items in found[:MOST_CAUSES] if len(items) > 1
    ]
