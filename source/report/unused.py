"""Comments that ignore nothing, in the files that are given: their line has no warning."""

from __future__ import annotations

import os

from driver.failure import say

from .ignore import WORD, reason_in
from .items import Item
from .shown import shown
from .sources import Sources, unescaped
from .whole import Report

# In a file that is made of others, lines have warnings under another name.
MADE_OF_OTHERS = "#line"


def tell_unused(report: Report, names: list[str]) -> None:
    """Says which comments ignore nothing. The names of files are spelled as in markers."""
    used = {placed(item) for item in report.ignored + report.warnings}
    sources = Sources()
    for name in dict.fromkeys(map(unescaped, names)):
        lines = sources.lines(name)
        if any(line.startswith(MADE_OF_OTHERS) for line in lines):
            continue
        path = os.path.normpath(name)
        for number, line in enumerate(lines, 1):
            if WORD in line and reason_in(line) is not None and (path, number) not in used:
                say(f"{shown(name)}:{number}: 'sparrow: ignore' ignores nothing")


def placed(item: Item) -> tuple[str, int]:
    """The file and line of an item."""
    return os.path.normpath(item.name), item.line
