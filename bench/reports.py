"""What folding and copies for each call make of the reports of seven real programs, as a table.

usage: python3 bench/reports.py ROOM [--plain] [PROGRAM..], with a ROOM as bench/survey.py makes it, or
an empty folder: the packages are fetched by apt-get source. cproto needs byacc and flex. With --plain
the sharp mode is off.
"""

from __future__ import annotations

import json
import os
import resource
import subprocess
import sys
from typing import NamedTuple

from programs import LATE, MODE, NAMED, asked_room, lines_of
from survey import TOP, configure_apt, folder_of, packages, run_logged

PROGRAMS = ("byacc", "bzip2", "figlet", "ncompress", "unifdef", "cproto", "minigzip")
# What a program's files are made by, beside what the survey does.
MAKING = {"cproto": "./configure && make y.tab.c lex.yy.c YACC=byacc LEX=flex"}
COLUMNS = ("alarms", "warnings", "places", "s")


class Figures(NamedTuple):
    """What a report has: the program's lines, what they are folded to, places, and seconds."""

    alarms: int
    warnings: int
    places: int
    seconds: float

    def cells(self) -> str:
        """The cells of a row."""
        return f"{self.alarms} | {self.warnings} | {self.places} | {self.seconds:.1f}"


class Chosen(NamedTuple):
    """A line of programs.tsv."""

    name: str
    package: str
    options: list[str]
    files: list[str]


def chosen(names: list[str]) -> list[Chosen]:
    """The programs with these names."""
    with open(os.path.join(TOP, "bench", "programs.tsv"), encoding="ascii") as rows:
        fields = [row.rstrip("\n").split("\t") for row in rows if not row.startswith("#")]
    found = [Chosen(name, package, options.split(), files.split())
             for name, package, options, files in fields if name in names]
    return sorted(found, key=lambda each: names.index(each.name))


def place_of(room: str, program: Chosen) -> str | None:
    """The folder of a program, fetched and made; None where that fails."""
    folder = folder_of(room, packages([program.package])[0])
    if folder is not None and program.name in MAKING:
        if not all(os.path.exists(os.path.join(folder, file)) for file in program.files):
            log = os.path.join(room, f"{program.name}.log")
            run_logged(["sh", "-c", MAKING[program.name]], folder, log, LATE)
    return folder


def figures(words: list[str], folder: str) -> Figures | None:
    """The figures of a report; None where there is none."""
    before = resource.getrusage(resource.RUSAGE_CHILDREN)
    command = [sys.executable, "-I", os.path.join(TOP, "source"), "--format=json", *MODE, *words]
    try:
        done = subprocess.run(
            command, cwd=folder, stdout=subprocess.PIPE, stderr=subprocess.DEVNULL, timeout=LATE,
            check=False,
        )
    except subprocess.TimeoutExpired:
        return None
    after = resource.getrusage(resource.RUSAGE_CHILDREN)
    report = json.loads(done.stdout or "{}")
    if report.get("status") not in (0, 1):
        return None
    warnings = report["warnings"]
    places = {(each["file"], each["line"], each["column"]) for each in warnings}
    seconds = after.ru_utime + after.ru_stime - before.ru_utime - before.ru_stime
    alarms = sum(each["alarms"] for each in warnings)
    return Figures(alarms, len(warnings), len(places), seconds)


def row(room: str, program: Chosen) -> str:
    """A program's row."""
    folder = place_of(room, program)
    if folder is None:
        return f"| {program.name} | not fetched |"
    words = [*program.options, *program.files]
    both = [figures(["--no-contexts", *words], folder), figures(words, folder)]
    cells = ["no report" if each is None else each.cells() for each in both]
    return f"| {program.name} | {lines_of(folder, program.files)} | {' | '.join(cells)} |"


def main() -> int:
    """Prints the table."""
    room = asked_room(__doc__)
    if not os.path.isdir(os.path.join(room, "sources")):
        configure_apt(room)
        run_logged(["apt-get", "update"], room, os.path.join(room, "apt", "log"), LATE)
    names = [*COLUMNS, *(f"{column}, copies" for column in COLUMNS)]
    print(f"| program | lines | {' | '.join(names)} |")
    print("|---" * (len(names) + 2) + "|")
    for program in chosen(NAMED or list(PROGRAMS)):
        print(row(room, program), flush=True)
    return 0


if __name__ == "__main__":
    sys.exit(main())
