"""Compares the machine of tests/soundness.py with what gcc's sanitizers find in the same runs."""
from __future__ import annotations

import os
import re
import subprocess
import sys
from collections import Counter
from pathlib import Path
from typing import Optional

from soundness_machine import Machine, Outcome
from soundness_statements import Program

FLAGS = ["-std=c90", "-w", "-g", "-fsanitize=address,undefined", "-fno-sanitize-recover=all"]
INPUT = """#include <stdlib.h>
int input(void) {
  static char *at = 0;
  if (at == 0 || *at == 0) at = getenv("INPUTS");
  return (int)strtol(at, &at, 10);
}
"""
PLACE = re.compile(r"\ba\.c:(\d+)")


class Comparison:
    """Counts where the two agree. Of an overrun within an object the sanitizers see nothing, and the run goes on."""

    def __init__(self, folder: str) -> None:
        self.folder = folder
        self.counts: Counter[str] = Counter()
        Path(folder, "input.c").write_text(INPUT, encoding="ascii")
        self.gcc("-c", "input.c", "-o", "input.o")

    def gcc(self, *words: str) -> None:
        subprocess.run(["gcc", *FLAGS, *words], cwd=self.folder, check=True)

    def reported(self, numbers: list[int]) -> tuple[int, Optional[int], str]:
        """The status of a run, the line of the sanitizer's report, and what it says."""
        own = {**os.environ, "INPUTS": " ".join(map(str, numbers)), "ASAN_OPTIONS": "detect_leaks=0"}
        ended = subprocess.run(["./a"], cwd=self.folder, env=own, capture_output=True, text=True, check=False)
        found = PLACE.search(ended.stderr)
        return ended.returncode, int(found[1]) if found else None, ended.stderr[:2000]

    def one(self, seed: int, program: Program, inputs: list[list[int]]) -> None:
        text = program.text()
        Path(self.folder, "a.c").write_text(text, encoding="ascii")
        self.gcc("a.c", "input.o", "-o", "a")
        machine = Machine(program)
        for numbers in inputs:
            outcome = machine.run(numbers)
            if outcome.what == "none":
                self.counts["without verdict"] += 1
                continue
            status, line, said = self.reported(numbers)
            answer = self.answer(outcome, status, line)
            self.counts[answer] += 1
            if answer.startswith("differs"):
                print(f"FAILED seed {seed}: the machine says {outcome}, inputs {numbers}\n{text}{said}", file=sys.stderr)

    def answer(self, outcome: Outcome, status: int, line: Optional[int]) -> str:
        if outcome.what == "ended":
            return "ended in both" if status == 0 and line is None else "differs: ended"
        if line == outcome.line:
            return f"same line: {outcome.what}"
        if outcome.what == "overrun":
            return "overrun that isn't seen" if line is None else "overrun that isn't seen, and a later error"
        return f"differs: {outcome.what}"

    def tell(self) -> int:
        for answer, count in sorted(self.counts.items()):
            print(f"  {count} {answer}")
        wrong = sum(count for answer, count in self.counts.items() if answer.startswith("differs"))
        print(f"{sum(self.counts.values()) - wrong} passed, {wrong} failed")
        return int(wrong > 0)
