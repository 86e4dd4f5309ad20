"""Whole programs of the survey's packages: alarms, how many of their places are tokens of the text
before it was rewritten, and seconds. Prints the table of docs/REAL_CODE.md.

usage: python3 bench/programs.py ROOM [--plain] [PROGRAM..], with the ROOM of bench/survey.py. With
--plain the sharp mode is off.
"""

from __future__ import annotations

import glob
import os
import re
import resource
import subprocess
import sys
import tempfile

from survey import TOP, prepare_environment

sys.path.insert(0, os.path.join(TOP, "source"))

from c.places import Places  # noqa: E402
from c.tokens import Tokens  # noqa: E402

ALARM = re.compile(r"^(.*):([0-9]+):([0-9]+): (?!refused)", re.MULTILINE)
# How a report ends.
WHOLE = ("alarm\n", "alarms\n")
# Seconds that a program may take.
LATE = 600
# The words behind ROOM: what switches the sharp mode off, and the programs.
MODE = [word for word in sys.argv[2:] if word == "--plain"]
NAMED = [word for word in sys.argv[2:] if word != "--plain"]


def token_places(folder: str) -> set[tuple[str, str, str]]:
    """The places of all tokens of the texts in a folder."""
    found = set()
    for path in glob.glob(os.path.join(folder, "*.i")):
        with open(path, encoding="latin-1", newline="") as file:
            text = file.read()
        tokens, places = Tokens(text), Places(text, path)
        for start in tokens.starts[: tokens.count]:
            place = places.of(start)
            found.add((place.file, str(place.line), str(place.column)))
    return found


def run(words: list[str], folder: str) -> tuple[str, float]:
    """What ./sparrow source writes, and its seconds of processors."""
    before = resource.getrusage(resource.RUSAGE_CHILDREN)
    source = os.path.join(TOP, "source")
    command = [sys.executable, "-I", source, "--format=plain", "--no-contexts", *MODE, *words]
    try:
        done = subprocess.run(command, cwd=folder, capture_output=True, timeout=LATE, check=False)
        said = done.stdout.decode("latin-1") or done.stderr.decode("latin-1")
    except subprocess.TimeoutExpired:
        said = f"more than {LATE} s"
    after = resource.getrusage(resource.RUSAGE_CHILDREN)
    return said, after.ru_utime + after.ru_stime - before.ru_utime - before.ru_stime


def lines_of(folder: str, files: list[str]) -> int:
    """How many lines the files have, without those of headers."""
    count = 0
    for name in files:
        with open(os.path.join(folder, name), "rb") as file:
            count += file.read().count(b"\n")
    return count


def row(name: str, folder: str, options: list[str], files: list[str]) -> str:
    """A program's row."""
    words = [*options, *files]
    said, seconds = run(words, folder)
    lines = lines_of(folder, files)
    if not said.endswith(WHOLE):
        refusal = said.splitlines()[0]
        return f"| {name} | {len(files)} | {lines} | | {refusal} | | | | {seconds:.1f} s |"
    with tempfile.TemporaryDirectory() as kept:
        strict, _ = run(["--strict", "--keep", kept, *words], folder)
        tokens = token_places(kept)
    alarms = ALARM.findall(said)
    places = set(alarms)
    right = len(places & tokens)
    is_new = "" if strict.endswith(WHOLE) else "yes"
    numbers = f"{len(alarms)} | {len(places)} | {100 * len(places) / lines:.0f} | {right}"
    return f"| {name} | {len(files)} | {lines} | {is_new} | {numbers} | {seconds:.1f} s |"


def asked_room(usage: str | None) -> str:
    """The folder that the first word names; without it the usage is told, and the status is 3."""
    if len(sys.argv) < 2:
        print(usage, file=sys.stderr)
        sys.exit(3)
    prepare_environment()
    return os.path.abspath(sys.argv[1])


def main() -> int:
    """Runs the programs."""
    room = asked_room(__doc__)
    numbers = "alarms | places | a hundred lines | at a token"
    print(f"| program | files | lines | rewritten | {numbers} | time |")
    print("|---|---|---|---|---|---|---|---|---|")
    with open(os.path.join(TOP, "bench", "programs.tsv"), encoding="ascii") as rows:
        for line in rows:
            if line.startswith("#") or not line.strip():
                continue
            name, package, options, files = line.rstrip("\n").split("\t")
            folders = sorted(glob.glob(os.path.join(room, "sources", package, "*", "")))
            if not folders or (NAMED and name not in NAMED):
                continue
            if all(os.path.exists(os.path.join(folders[0], file)) for file in files.split()):
                print(row(name, folders[0], options.split(), files.split()), flush=True)
    return 0


if __name__ == "__main__":
    sys.exit(main())
