"""The lines of source files, as they are when the report is written."""

from __future__ import annotations

import os
import re
import stat
from typing import Optional

# A marker may name any file, so one that is endless or past the program's limit isn't read.
MOST_BYTES = 16_777_216

ESCAPED = re.compile(r"\\(.)", re.DOTALL)


def unescaped(name: str) -> str:
    """The name of a file that a marker spells: there a quote has a backslash before it."""
    return ESCAPED.sub(r"\1", name) if "\\" in name else name


class Sources:
    """Files by their names, each read once. A character is a byte."""

    def __init__(self) -> None:
        self.files: dict[str, list[str]] = {}

    def lines(self, name: str) -> list[str]:
        """The lines of a file; none where it can't be read."""
        if name not in self.files:
            lines = read_text(name).split("\n")
            # The last line break ends a line, and begins none.
            self.files[name] = lines if lines[-1] else lines[:-1]
        return self.files[name]

    def line(self, name: str, number: int) -> Optional[str]:
        """A line by its number from 1, where the file has it."""
        lines = self.lines(name)
        return lines[number - 1].rstrip("\r") if 1 <= number <= len(lines) else None


def read_text(name: str) -> str:
    """A regular file's text; of others nothing is told."""
    path = name.encode("latin-1")
    try:
        about = os.stat(path)
        if not stat.S_ISREG(about.st_mode) or about.st_size > MOST_BYTES:
            return ""
        with open(path, "rb") as file:
            return file.read(MOST_BYTES).decode("latin-1")
    except (OSError, ValueError):
        return ""
