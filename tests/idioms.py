#!/usr/bin/env python3
"""Everyday idioms of C, each as a right program and as one with a bug (tests/idioms): what a program says of them in
the plain and the sharp mode, by both engines, and what `source` says, compared with the table of docs/PRECISION.md.

usage: tests/idioms.py PROGRAM [--write]

A right program should have no alarm; the table tells how many lines have one. A wrong program must have an alarm in a
line that has the comment `here`, in both modes and by `source`. With --write the numbers of the table are written; the last cell of a
row, why there are alarms, stays.
"""
from __future__ import annotations

import os
import re
import subprocess
import sys

from told import tell

TOP = os.path.dirname(os.path.dirname(os.path.abspath(__file__)))
FOLDER = os.path.join("tests", "idioms")
DOCUMENT = os.path.join(TOP, "docs", "PRECISION.md")
ENGINES = ("analyse", "dense")
MODES: dict[str, tuple[str, ...]] = {"plain": (), "sharp": ("--sharp",)}
# `source` prepares a program, and takes the sharp mode.
SOURCE = "source"
COLUMNS = [*MODES, SOURCE]
HEAD = f"| idiom | {' | '.join(COLUMNS)} | why |"
RULE = "|---" * (len(COLUMNS) + 2) + "|"
ROW = re.compile(r"\| `(\w+)` (?:\| [^|]*)+\| ([^|]*)\|")
TOTAL = "| all |"
HERE = "/* here */"
ALARM = re.compile(r"[^:]*:([0-9]+):[0-9]+: .*")


class Row:
    """The cells of an idiom: how many lines of its right program have an alarm in each mode, and why."""

    def __init__(self, counts: dict[str, int], why: str) -> None:
        self.counts = counts
        self.why = why

    def text(self, name: str) -> str:
        """The line of the table."""
        cells = [str(self.counts[mode]) if self.counts[mode] else "" for mode in COLUMNS]
        return "".join(f"| {cell} " if cell else "| " for cell in (f"`{name}`", *cells, self.why)) + "|"


def path_of(name: str, kind: str) -> str:
    """The file of a program."""
    return os.path.join(FOLDER, f"{name}.{kind}.c")


def names() -> list[str]:
    """The idioms."""
    return sorted(file[: -len(".ok.c")] for file in os.listdir(os.path.join(TOP, FOLDER)) if file.endswith(".ok.c"))


def wrong_lines(name: str) -> set[int]:
    """The lines in which a wrong program goes wrong."""
    with open(os.path.join(TOP, path_of(name, "bad")), encoding="ascii") as file:
        return {number for number, line in enumerate(file, 1) if HERE in line}


def report(program: str, engine: str, mode: str, path: str) -> tuple[int, str]:
    """The status and what is written."""
    if mode == SOURCE:
        words = [os.path.join(TOP, "sparrow"), SOURCE, "--format=plain", path]
    else:
        words = [program, engine, *MODES[mode], path]
    done = subprocess.run(words, cwd=TOP, capture_output=True, text=True, check=False)
    return done.returncode, done.stdout


def lines_of(said: str) -> set[int]:
    """The lines of source that have an alarm."""
    return {int(match.group(1)) for match in map(ALARM.fullmatch, said.splitlines()) if match}


def try_program(program: str, name: str, kind: str, mode: str, faults: dict[str, str]) -> set[int]:
    """The lines that have an alarm, where both engines write the same."""
    path = path_of(name, kind)
    engines = ENGINES if mode in MODES else ENGINES[:1]
    said = {engine: report(program, engine, mode, path) for engine in engines}
    status, text = said["analyse"]
    lines = lines_of(text)
    row = f"{path}, {mode}"
    same = len(set(said.values())) == 1
    faults[f"{row}: both engines"] = "" if same else "\n".join(map(str, said.items()))
    faults[f"{row}: status"] = "" if status == int(bool(lines)) else f"status {status}\n{text}"
    return lines


def measured(program: str, name: str, faults: dict[str, str]) -> dict[str, int]:
    """How many lines of the right program have an alarm in each mode; the bug has one in both."""
    counts = {}
    for mode in COLUMNS:
        counts[mode] = len(try_program(program, name, "ok", mode, faults))
        found = try_program(program, name, "bad", mode, faults)
        wanted = wrong_lines(name)
        is_told = bool(found & wanted)
        faults[f"{name}: its bug, {mode}"] = "" if is_told else f"wanted one of {wanted}, got {found}"
    return counts


def document() -> list[str]:
    """The lines of the document."""
    with open(DOCUMENT, encoding="utf-8") as file:
        return file.read().split("\n")


def why_by_name(lines: list[str]) -> dict[str, str]:
    """The last cells of the rows."""
    return {match.group(1): match.group(2).strip() for match in map(ROW.match, lines) if match}


def total(rows: dict[str, Row]) -> str:
    """The last row: how many idioms have an alarm."""
    counts = [sum(row.counts[mode] > 0 for row in rows.values()) for mode in COLUMNS]
    lines = [sum(row.counts[mode] for row in rows.values()) for mode in COLUMNS]
    cells = [f"{count} idioms, {line} lines" for count, line in zip(counts, lines)]
    return f"{TOTAL} {' | '.join(cells)} | of {len(rows)} |"


def table(rows: dict[str, Row]) -> list[str]:
    """The lines of the table, with those idioms that have an alarm in some mode."""
    told = [row.text(name) for name, row in rows.items() if any(row.counts.values())]
    return [HEAD, RULE, *told, total(rows)]


def is_of_table(line: str) -> bool:
    """Whether a line of the document is one of the table."""
    return line.startswith(("| idiom |", "| `", TOTAL, "|---"))


def main() -> int:
    """Compares, or writes the table."""
    program = os.path.abspath(sys.argv[1])
    faults: dict[str, str] = {}
    lines = document()
    why = why_by_name(lines)
    rows = {name: Row(measured(program, name, faults), why.get(name, "")) for name in names()}
    if "--write" in sys.argv[2:]:
        first = next(place for place, line in enumerate(lines) if is_of_table(line))
        rest = [line for line in lines if not is_of_table(line)]
        with open(DOCUMENT, "w", encoding="utf-8") as file:
            file.write("\n".join(rest[:first] + table(rows) + rest[first:]))
    else:
        got = [line for line in lines if is_of_table(line)]
        for want in table(rows):
            name = want.split("|")[1].strip() or "the head"
            faults[f"docs/PRECISION.md: {name}"] = "" if want in got else f"it must be\n{want}"
        extra = [line for line in got if line not in table(rows)]
        faults["docs/PRECISION.md: rows that are wrong"] = "\n".join(extra)
    return tell(faults)


if __name__ == "__main__":
    sys.exit(main())
