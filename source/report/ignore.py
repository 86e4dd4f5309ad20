"""Comments that take the warnings of their line out of the report: `sparrow: ignore REASON`."""

from __future__ import annotations

import re
from typing import Optional

from .comments import comments_in

WORD = "sparrow:"
COMMENT = re.compile(
    r"/\*\s*sparrow:\s*ignore\b(.*?)(?:\*/|\Z) | //\s*sparrow:\s*ignore\b(.*)",
    re.VERBOSE | re.DOTALL,
)


class Reasons:
    """The reasons of lines. Each is read once: it may be long, and have many warnings."""

    def __init__(self) -> None:
        self.known: dict[str, Optional[str]] = {}

    def of(self, line: str) -> Optional[str]:
        """What a line gives as the reason; None where it has no such comment."""
        if line not in self.known:
            self.known[line] = reason_in(line)
        return self.known[line]


def reason_in(line: str) -> Optional[str]:
    """The reason that a line gives, without blanks around; empty where it gives none."""
    if WORD not in line:
        return None
    for comment in comments_in(line):
        match = COMMENT.match(comment)
        for reason in match.groups() if match is not None else ():
            if reason is not None:
                return str(reason).strip()
    return None
