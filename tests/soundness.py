#!/usr/bin/env python3
"""Looks for a program of C90 in which the first error has no alarm at its line: random programs are run by a machine of
the definitions of C90 alone, and what goes wrong must be in Sparrow's report.

usage: tests/soundness.py [--programs N] [--seed S] [--modes plain,sharp] [--program PATH] [--against-gcc]

Program I is made of the seed S + I alone. Without --modes the sharp mode is tested where the program takes `--sharp`.
--against-gcc compares the machine with what gcc's sanitizers find, and asks nothing of Sparrow.
"""
from __future__ import annotations

import argparse
import random
import re
import subprocess
import sys
import tempfile
from collections import Counter
from pathlib import Path
from typing import Optional

from soundness_gcc import Comparison
from soundness_machine import Machine, Outcome
from soundness_probes import Prober, repaired, shrunk
from soundness_programs import generated
from soundness_statements import Program

ERRORS = ("overrun", "zero", "pointer", "punned")
ALARM = re.compile(r"a\.c:(\d+):\d+: (\w+): .*")
RUNS, PROBES = 3, 4
MODES = {"plain": ["analyse"], "sharp": ["analyse", "--sharp"]}
INPUTS = [0, 0, 1, 1, 2, 3, 4, 5, 6, 7, 8, 9, 10, 15, 16, 31, 63, 100, 127, 255, 256, -1, -1, -2, -7, 1000, 65536, -40000]


class Tester:
    """Makes programs, and compares their runs with the reports."""

    def __init__(self, program: str, modes: list[str], folder: str) -> None:
        self.program, self.modes, self.folder = program, modes, folder
        self.counts: Counter[str] = Counter()
        self.passed = self.failed = 0

    def alarms(self, text: str, mode: str) -> Optional[set[tuple[int, str]]]:
        """The line and the kind of each alarm; nothing where there is no report."""
        Path(self.folder, "a.c").write_text(text, encoding="ascii")
        words = [self.program, *MODES[mode], "a.c"]
        ended = subprocess.run(words, cwd=self.folder, capture_output=True, text=True, check=False)
        if ended.returncode > 1:
            return None
        found = (ALARM.fullmatch(line) for line in ended.stdout.splitlines())
        return {(int(it[1]), it[2]) for it in found if it}

    def takes(self, mode: str) -> bool:
        return self.alarms("int main(void){return 0;}\n", mode) is not None

    def one(self, seed: int) -> None:
        program, runs, probes = made(seed)
        text = program.text()
        machine = Machine(program)
        outcomes = [(numbers, machine.run(numbers)) for numbers in runs + probes]
        self.counts["programs"] += 1
        self.counts["probes"] += len(probes)
        for _, outcome in outcomes:
            self.counts[f"without verdict: {outcome.why}" if outcome.why else outcome.what] += 1
        for mode in self.modes:
            alarms = self.alarms(text, mode)
            errors = [run for run in outcomes if run[1].what in ERRORS]
            missed = [run for run in errors if alarms is None or (run[1].line, run[1].what) not in alarms]
            self.passed += len(errors) - len(missed)
            self.failed += max(len(missed), int(alarms is None))
            if alarms is None:
                print(f"FAILED seed {seed}, {mode}: no report\n{text}", file=sys.stderr)
            elif missed:
                self.tell_missed(seed, mode, *missed[0])

    def tell_missed(self, seed: int, mode: str, numbers: list[int], outcome: Outcome) -> None:
        """Writes the program, and what is left of it when all has gone without which it fails too."""
        program = made(seed)[0]
        print(f"FAILED seed {seed}, {mode}: {outcome.what} at line {outcome.line} without an alarm, inputs {numbers}\n"
              f"{program.text()}", file=sys.stderr)
        shrunk(program, lambda: self.missed(program, numbers, mode) is not None)
        left = self.missed(program, numbers, mode)
        if left is not None:
            print(f"The same, shrunk: {left.what} at line {left.line}\n{program.text()}", file=sys.stderr)

    def missed(self, program: Program, numbers: list[int], mode: str) -> Optional[Outcome]:
        """The first error of a run, where the report hasn't it."""
        try:
            text = program.text()
            outcome = Machine(program).run(numbers)
        except (KeyError, IndexError):
            return None
        if outcome.what not in ERRORS:
            return None
        alarms = self.alarms(text, mode)
        return outcome if alarms is not None and (outcome.line, outcome.what) not in alarms else None

    def tell(self) -> int:
        errors = ", ".join(f"{self.counts.pop(kind, 0)} {kind}" for kind in ERRORS)
        print(f"{self.counts.pop('programs', 0)} programs with {self.counts.pop('probes', 0)} probes, "
              f"modes {' '.join(self.modes)}; runs: {errors}, {self.counts.pop('ended', 0)} ended")
        for why, count in self.counts.most_common():
            print(f"  {count} {why}")
        print(f"{self.passed} passed, {self.failed} failed")
        return int(self.failed > 0)


def made(seed: int) -> tuple[Program, list[list[int]], list[list[int]]]:
    """A program, and the inputs of its runs without a probe and with one."""
    rng = random.Random(seed)
    program = generated(rng)
    runs = [[0, *rng.choices(INPUTS, k=30)] for _ in range(RUNS)]
    repaired(rng, program, runs)
    machine = Machine(program)
    outcomes = [machine.run(numbers) for numbers in runs]
    probes = Prober(rng, program, runs).probed(outcomes, PROBES)
    return program, runs, probes


def words() -> argparse.Namespace:
    parser = argparse.ArgumentParser()
    parser.add_argument("--programs", type=int, default=150)
    parser.add_argument("--seed", type=int, default=0)
    parser.add_argument("--modes")
    parser.add_argument("--program")
    parser.add_argument("--against-gcc", action="store_true")
    return parser.parse_args()


def against_gcc(seeds: range) -> int:
    with tempfile.TemporaryDirectory() as folder:
        comparison = Comparison(folder)
        for seed in seeds:
            program, runs, probes = made(seed)
            comparison.one(seed, program, runs + probes)
        return comparison.tell()


def main() -> int:
    asked = words()
    sys.setrecursionlimit(20000)
    seeds = range(asked.seed, asked.seed + asked.programs)
    if asked.against_gcc:
        return against_gcc(seeds)
    top = Path(__file__).resolve().parent.parent
    program = asked.program or subprocess.run([str(top / "sparrow"), "--program"], check=True, capture_output=True,
                                              text=True).stdout.strip()
    with tempfile.TemporaryDirectory() as folder:
        tester = Tester(program, list(MODES), folder)
        tester.modes = asked.modes.split(",") if asked.modes else [mode for mode in MODES if tester.takes(mode)]
        for seed in seeds:
            tester.one(seed)
        return tester.tell()


if __name__ == "__main__":
    sys.exit(main())
