"""The examples of the documents are true: each block of a command with what it writes is run in the
top folder, and its standard output compared. A line `...` in a document stands for any lines."""

from __future__ import annotations

import os
import re
import subprocess
import sys

from told import tell

TOP = os.path.dirname(os.path.dirname(os.path.abspath(__file__)))
DOCUMENTS = ("README.md", "docs/REPORT.md", "docs/LANGUAGE.md")
INDENT, PROMPT = "    ", "    $ "
GAP = "..."


def examples_in(text: str) -> list[tuple[str, list[str]]]:
    """The commands of a document, each with the lines that it writes."""
    found: list[tuple[str, list[str]]] = []
    is_open = False
    for line in text.split("\n"):
        if line.startswith(PROMPT):
            found.append((line[len(PROMPT) :], []))
            is_open = True
        elif is_open and line.startswith(INDENT):
            found[-1][1].append(line[len(INDENT) :])
        else:
            is_open = False
    return found


def is_written(lines: list[str], said: str) -> bool:
    """Whether a command has written these lines."""
    parts = ["(?:.*\n)*?" if line == GAP else re.escape(line) + "\n" for line in lines]
    return re.fullmatch("".join(parts), said) is not None


def main() -> int:
    """Runs all examples."""
    faults: dict[str, str] = {}
    for document in DOCUMENTS:
        with open(os.path.join(TOP, document), encoding="utf-8") as file:
            examples = examples_in(file.read())
        for command, lines in examples:
            done = subprocess.run(
                ["bash", "-c", command], cwd=TOP, capture_output=True, text=True, check=False
            )
            # A command stands in more than one document, or twice in one.
            name = f"{document}, example {len(faults) + 1}: {command}"
            faults[name] = "" if is_written(lines, done.stdout) else f"it writes\n{done.stdout}"
    return tell(faults)


if __name__ == "__main__":
    sys.exit(main())
