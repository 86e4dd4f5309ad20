"""Programs that behave alike before and after they are rewritten: gcc builds both of each of
tests/source/alike. And small wrong programs of tests/source/wrong.tsv: where a build of the
original with the address sanitizer stops, ./sparrow source has an alarm in that line."""

from __future__ import annotations

import os
import re
import subprocess
import sys
import tempfile

HERE = os.path.dirname(os.path.abspath(__file__))
TOP = os.path.dirname(HERE)
sys.path.insert(0, os.path.join(TOP, "source"))

from rewriting.program import rewrite  # noqa: E402

STOPPED = re.compile(r"#[0-9]+ 0x[0-9a-f]+ in \w+ \S*/a\.c:([0-9]+)")


def written(path: str, text: str) -> str:
    """Writes a file."""
    with open(path, "w", encoding="latin-1") as file:
        file.write(text)
    return path


def ran(words: list[str]) -> tuple[int, str]:
    """The status of a program, and what it writes."""
    done = subprocess.run(words, capture_output=True, check=False)
    return done.returncode, (done.stdout + done.stderr).decode("latin-1")


def alike_fault(room: str, name: str) -> str:
    """What differs between a program and what is made of it."""
    path, program = os.path.join(HERE, "source", "alike", name), os.path.join(room, "program")
    answers = []
    text = ran(["gcc", "-E", "-w", "-std=gnu90", path])[1]
    rewritten = rewrite([(path, text)])[0]
    if rewritten.left:
        return rewritten.left[0]
    for place, standard in ((path, "gnu11"), (written(f"{room}/a.i", rewritten.text), "gnu90")):
        status, said = ran(["gcc", "-w", f"-std={standard}", "-o", program, place])
        if status != 0:
            return said
        answers.append(ran([program]))
    if answers[0] != answers[1] or answers[0][0] != 0:
        return f"{answers[0]} and {answers[1]}"
    is_c90 = ran(["gcc", "-std=c90", "-pedantic-errors", "-w", "-fsyntax-only", f"{room}/a.i"])
    return "" if is_c90[0] == 0 else is_c90[1]


def wrong_fault(room: str, text: str) -> str:
    """Whether the line where a wrong program stops has no alarm."""
    path, program = written(f"{room}/a.c", text), f"{room}/wrong"
    build = ["gcc", "-w", "-g", "-O0", "-fsanitize=address", "-std=gnu11", "-o", program, path]
    status, said = ran(build)
    if status != 0:
        return said
    stopped = STOPPED.search(ran([program])[1])
    if stopped is None:
        return "it doesn't stop"
    answer = ran([os.path.join(TOP, "sparrow"), "source", path])[1]
    return "" if f"{path}:{stopped.group(1)}:" in answer else f"line {stopped.group(1)}: {answer}"


def has_sanitizer(room: str) -> bool:
    """Whether gcc builds with the address sanitizer here."""
    path = written(f"{room}/a.c", "int main(void) { return 0; }\n")
    return ran(["gcc", "-fsanitize=address", "-o", f"{room}/a", path])[0] == 0


def main() -> int:
    """Tries all programs."""
    found = {}
    with tempfile.TemporaryDirectory() as room:
        for name in sorted(os.listdir(os.path.join(HERE, "source", "alike"))):
            found[name] = alike_fault(room, name)
        if has_sanitizer(room):
            with open(os.path.join(HERE, "source", "wrong.tsv"), encoding="ascii") as rows:
                for row in rows:
                    name, text = row.rstrip("\n").split("\t")
                    found[name] = wrong_fault(room, text.encode().decode("unicode_escape"))
        else:
            print("skipped: gcc has no address sanitizer here")
    failed = 0
    for name, fault in found.items():
        if fault:
            failed += 1
            print(f"FAILED {name}\n{fault}")
    print(f"{len(found) - failed} passed, {failed} failed")
    return 1 if failed else 0


if __name__ == "__main__":
    sys.exit(main())
