"""The comments of a line. What looks like one within a string or a character constant is none."""

from __future__ import annotations

import re
from typing import Iterator

PART = re.compile(
    r"""L?"(?:\\.|[^"\\])*"? | L?'(?:\\.|[^'\\])*'? | (/\*.*?(?:\*/|\Z) | //.*)""",
    re.VERBOSE | re.DOTALL,
)


def comments_in(line: str) -> Iterator[str]:
    """The comments of a line, each with its marks."""
    for match in PART.finditer(line):
        if match.group(1) is not None:
            yield match.group(1)


def without_comments(line: str) -> str:
    """The line with a blank in place of each comment (C90 5.1.1.2)."""
    return PART.sub(lambda match: match.group() if match.group(1) is None else " ", line)
