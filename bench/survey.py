"""How much of real C is accepted: runs ./sparrow source on each unit alone of some Debian packages,
as it is (--strict) and rewritten, and prints the tables of docs/REAL_CODE.md.

usage: python3 bench/survey.py ROOM [PACKAGE..]. ROOM keeps the sources, and a line for each unit in
units.tsv. It needs apt-get, dpkg-source, make, gcc and the network.
"""

from __future__ import annotations

import os
import re
import resource
import subprocess
import sys
from collections import Counter
from typing import NamedTuple

TOP = os.path.dirname(os.path.dirname(os.path.abspath(__file__)))
KEYRING = "/usr/share/keyrings/debian-archive-keyring.gpg"
ARCHIVE = f"deb-src [signed-by={KEYRING}] http://deb.debian.org/debian bookworm main\n"
REFUSAL = re.compile(r":[0-9]+:[0-9]+: refused ?([A-Z]+[0-9]+)?:")
# A unit without `main` has passed all checks.
ACCEPTED = frozenset(["analysed", "F25"])
# Seconds that a unit, or a package's own preparation, may take.
LATE = 100
PREPARING = 1800
# What is run in a package before its units compile: for config.h and sources that its own programs
# write. The tools that would write its makefiles anew are left out.
CONFIGURE = "./configure"
PREPARATIONS = {
    "": "true",
    "configure": CONFIGURE,
    "make": f"{{ [ ! -x configure ] || {CONFIGURE}; }} && make -k ACLOCAL=: AUTOCONF=: AUTOMAKE=:"
    " AUTOHEADER=: MAKEINFO=:",
    "lua": "echo '#define DEB_HOST_MULTIARCH \"x86_64-linux-gnu\"' >src/lua5.1-deb-multiarch.h",
    "libpng": "cp scripts/pnglibconf.h.prebuilt pnglibconf.h",
}


class Package(NamedTuple):
    """A line of survey.tsv."""

    name: str
    folders: list[str]
    preparation: str
    options: list[str]


class Outcome(NamedTuple):
    """What came of a unit: `analysed`, the code of its refusal, or why there was none."""

    kind: str
    seconds: float
    line: str


def packages(wanted: list[str]) -> list[Package]:
    """The packages of survey.tsv, or those of them that are wanted."""
    found = []
    with open(os.path.join(TOP, "bench", "survey.tsv"), encoding="ascii") as rows:
        for row in rows:
            if row.startswith("#"):
                continue
            name, folders, preparation, options = row.rstrip("\n").split("\t")
            if not wanted or name in wanted:
                found.append(Package(name, folders.split(), preparation, options.split()))
    return found


def configure_apt(room: str) -> None:
    """Gives apt a list of sources of its own, so that the machine's stays as it is."""
    apt = os.path.join(room, "apt")
    for folder in ("lists/partial", "cache/archives/partial"):
        os.makedirs(os.path.join(apt, folder), exist_ok=True)
    with open(f"{apt}/sources.list", "w", encoding="ascii") as file:
        file.write(ARCHIVE)
    with open(f"{apt}/apt.conf", "w", encoding="utf-8") as file:
        file.write(f'Dir::Etc::sourcelist "{apt}/sources.list";\nDir::Etc::sourceparts "-";\n')
        file.write(f'Dir::State::lists "{apt}/lists";\nDir::Cache "{apt}/cache";\n')
        file.write('APT::Sandbox::User "root";\n')
    os.environ["APT_CONFIG"] = f"{apt}/apt.conf"


def run_logged(words: list[str], folder: str, log: str, seconds: float) -> bool:
    """Runs a program, whose words go to a file; tells whether it went well."""
    with open(log, "ab") as file:
        try:
            done = subprocess.run(
                words, cwd=folder, stdin=subprocess.DEVNULL, stdout=file, stderr=file,
                timeout=seconds, check=False,
            )
        except subprocess.TimeoutExpired:
            return False
    return done.returncode == 0


def folder_of(room: str, package: Package) -> str | None:
    """The folder of a package's sources, fetched and made ready; None where they can't be had."""
    log = os.path.join(room, f"{package.name}.log")
    known = os.path.join(room, "sources", package.name)
    if not os.path.isdir(known):
        os.makedirs(known)
        run_logged(["apt-get", "source", package.name], known, log, PREPARING)
    folders = [name for name in sorted(os.listdir(known)) if os.path.isdir(f"{known}/{name}")]
    if not folders:
        return None
    folder = os.path.join(known, folders[0])
    if not os.path.exists(f"{known}/ready"):
        words = ["sh", "-c", PREPARATIONS[package.preparation]]
        run_logged(words, folder, log, PREPARING)
        open(f"{known}/ready", "w", encoding="ascii").close()
    return folder


def units_of(package: Package, folder: str) -> list[str]:
    """The units that gcc compiles; others are for another system, or need a missing package."""
    units = []
    for inside in package.folders:
        place = os.path.join(folder, inside)
        for name in sorted(os.listdir(place)) if os.path.isdir(place) else []:
            unit = os.path.normpath(os.path.join(inside, name))
            words = ["gcc", "-fsyntax-only", "-w", *package.options, unit]
            if name.endswith(".c") and run_logged(words, folder, os.devnull, LATE):
                units.append(unit)
    return units


def outcome_of(words: list[str], folder: str) -> Outcome:
    """Runs ./sparrow source with these words, by the package that it starts."""
    before = resource.getrusage(resource.RUSAGE_CHILDREN)
    source = os.path.join(TOP, "source")
    command = [sys.executable, "-I", source, "--format=plain", "--no-contexts", *words]
    try:
        done = subprocess.run(command, cwd=folder, capture_output=True, timeout=LATE, check=False)
        status, said = done.returncode, (done.stdout or done.stderr).decode("latin-1")
    except subprocess.TimeoutExpired:
        status, said = 124, ""
    after = resource.getrusage(resource.RUSAGE_CHILDREN)
    seconds = after.ru_utime + after.ru_stime - before.ru_utime - before.ru_stime
    refusal = REFUSAL.search(said)
    kind = {0: "analysed", 1: "analysed", 3: "unprepared", 124: "late"}.get(status, str(status))
    if status == 2 and refusal is not None:
        kind = refusal.group(1) or "layout"
    error = re.search(r"[^\n]*error:[^\n]*", said) if status == 3 else None
    return Outcome(kind, seconds, error.group() if error is not None else said.split("\n")[0])


class Survey:
    """Counts what came of the units of all packages."""

    def __init__(self) -> None:
        self.rows: list[str] = []
        self.totals: Counter[str] = Counter()
        self.first: dict[str, Counter[str]] = {"strict": Counter(), "rewritten": Counter()}
        self.seconds = 0.0

    def add(self, package: Package, folder: str, log: list[str]) -> None:
        """Runs the units of a package."""
        counts: Counter[str] = Counter()
        seconds = [0.0]
        for unit in units_of(package, folder):
            counts["units"] += 1
            strict = outcome_of(["--strict", *package.options, unit], folder)
            answer = outcome_of([*package.options, unit], folder)
            for name, outcome in (("strict", strict), ("rewritten", answer)):
                if outcome.kind in ACCEPTED:
                    counts[name] += 1
                else:
                    self.first[name][outcome.kind] += 1
            counts["prepared"] += answer.kind != "unprepared"
            counts["analysed"] += answer.kind == "analysed"
            seconds.append(answer.seconds)
            log.append("\t".join([package.name, unit, strict.kind, answer.kind, answer.line]))
        if not counts["units"]:
            print(f"{package.name}: no unit compiles here", file=sys.stderr)
            return
        self.totals.update(counts)
        self.seconds += sum(seconds)
        self.rows.append(self.row(package.name, counts, sum(seconds), max(seconds)))

    def row(self, name: str, counts: Counter[str], seconds: float, slowest: float) -> str:
        """A row of the table."""
        keys = ("units", "prepared", "strict", "rewritten", "analysed")
        numbers = [str(counts[key]) for key in keys]
        longest = f"{slowest:.1f} s" if slowest else ""
        return f"| {name} | {' | '.join(numbers)} | {seconds:.1f} s | {longest} |"

    def print(self) -> None:
        """Prints the tables."""
        heads = "package | units | preprocessed | --strict | rewritten | analysed | time | slowest"
        print(f"| {heads} |")
        print("|---|---|---|---|---|---|---|---|")
        print("\n".join(self.rows))
        print(self.row("all", self.totals, self.seconds, 0.0))
        print("\n| first refusal | --strict | rewritten |\n|---|---|---|")
        strict, rewritten = self.first["strict"], self.first["rewritten"]
        for kind, _ in (strict + rewritten).most_common():
            print(f"| {kind} | {strict[kind]} | {rewritten[kind]} |")


def prepare_environment() -> None:
    """Builds the program where that is needed, and tells the package where it is."""
    if "SPARROW_PROGRAM" not in os.environ:
        command = [os.path.join(TOP, "sparrow"), "--program"]
        said = subprocess.run(command, capture_output=True, text=True, check=True)
        os.environ["SPARROW_PROGRAM"] = said.stdout.rstrip("\n")
    os.environ["SPARROW_INCLUDE"] = os.path.join(TOP, "include")


def main() -> int:
    """Surveys the packages."""
    if len(sys.argv) < 2:
        print(__doc__, file=sys.stderr)
        return 3
    room = os.path.abspath(sys.argv[1])
    os.makedirs(room, exist_ok=True)
    configure_apt(room)
    prepare_environment()
    run_logged(["apt-get", "update"], room, os.path.join(room, "apt", "log"), PREPARING)
    survey, log = Survey(), ["package\tunit\tstrict\trewritten\tline"]
    for package in packages(sys.argv[2:]):
        folder = folder_of(room, package)
        if folder is None:
            print(f"{package.name}: no sources", file=sys.stderr)
            continue
        survey.add(package, folder, log)
        with open(os.path.join(room, "units.tsv"), "w", encoding="latin-1") as file:
            file.write("\n".join(log) + "\n")
    survey.print()
    return 0


if __name__ == "__main__":
    sys.exit(main())
