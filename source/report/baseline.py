"""Warnings that are known: a file with a fingerprint for each, which doesn't hang on its place.

A fingerprint is a sum over the kind, the file, the text of the line without blanks and comments,
and how many equal ones stand before it. So it stays where lines move, and where a comment comes.
"""

from __future__ import annotations

import hashlib
import json
import re
from collections.abc import Iterable

from driver.failure import USAGE, Failure, unreadable

from .comments import without_comments

FORMAT, VERSION = "sparrow-baseline", 1
UPDATING = "--update-baseline writes it"
FINGERPRINT = re.compile(r"[0-9a-f]{32}")


class Fingerprints:
    """Gives the fingerprints of a report's warnings, in their order."""

    def __init__(self) -> None:
        self.counts: dict[tuple[str, str, str], int] = {}
        # The sum of each text: a line may be long, and have many warnings.
        self.sums: dict[str, str] = {}

    def next(self, kind: str, file: str, text: str) -> str:
        """The fingerprint of the next warning of that kind in a line of a file."""
        if text not in self.sums:
            self.sums[text] = sum_of("".join(without_comments(text).split()))
        key = (kind, file, self.sums[text])
        ordinal = self.counts.get(key, 0)
        self.counts[key] = ordinal + 1
        return sum_of("\0".join((*key, str(ordinal))))[:32]


def sum_of(text: str) -> str:
    """The sum of a text whose characters are bytes."""
    return hashlib.sha256(text.encode("latin-1")).hexdigest()


def read_baseline(path: str) -> set[str]:
    """The fingerprints of a file."""
    try:
        with open(path, encoding="utf-8") as file:
            content = json.load(file)
    except OSError as error:
        is_missing = isinstance(error, FileNotFoundError)
        raise unreadable(path, error, UPDATING if is_missing else None) from error
    except (ValueError, RecursionError) as error:
        raise Failure(USAGE, f"{path} is no baseline") from error
    if (
        not isinstance(content, dict)
        or content.get("format") != FORMAT
        or content.get("version") != VERSION
        or not isinstance(content.get("warnings"), list)
    ):
        raise Failure(USAGE, f"{path} is no baseline")
    found: set[str] = set()
    for entry in content["warnings"]:
        fingerprint = entry.get("fingerprint") if isinstance(entry, dict) else None
        if not isinstance(fingerprint, str) or not FINGERPRINT.fullmatch(fingerprint):
            raise Failure(USAGE, f"{path} has a warning without its fingerprint")
        found.add(fingerprint)
    return found


def baseline_of(warnings: Iterable[tuple[str, str, str, str]]) -> str:
    """The file for warnings: fingerprint, kind, file and line of each. Their order stays."""
    names = ("fingerprint", "kind", "file", "text")
    lines = [json.dumps(dict(zip(names, warning))) for warning in warnings]
    head = f'{{"format": "{FORMAT}", "version": {VERSION}, "warnings": ['
    return "\n".join([head, ",\n".join(lines), "]}", ""]) if lines else f"{head}]}}\n"
