#!/usr/bin/env python3
"""Gives Sparrow texts as no one writes them: changed bytes, tokens and lines of programs, and programs at each limit.

usage: tests/hostile.py [--inputs N] [--seed S] [--program PATH] [--jobs J] [--texts FOLDER] [--keep FOLDER]

Input I is made of the seed S + I alone, so `--seed X --inputs 1` makes one again. `analyse` and `dense` must give the
same bytes and status: a report as docs/REPORT.md has it, or a refusal of one line. Standard error stays empty, and a
run takes less than 20 s of a processor and 2 GiB. Where the program takes `--sharp`, half the inputs have it.
--texts adds the texts *.c and *.i of a folder to those that are changed; then a seed makes other inputs.
--keep leaves the files of the inputs that fail in FOLDER; of a single input it leaves them anyhow.
"""
from __future__ import annotations

import argparse
import functools
import multiprocessing
import os
import subprocess
import sys
import tempfile
from collections import Counter
from dataclasses import dataclass, field
from pathlib import Path
from typing import Iterator, Optional

from hostile_answers import fault, refusal
from hostile_inputs import Input, made
from hostile_limits import ACCEPTED
from hostile_runs import Answer, Runner
from hostile_texts import Corpus

MODES: dict[str, list[str]] = {"plain": [], "sharp": ["--sharp"]}
PART = 50  # inputs of a task


@dataclass
class Told:
    """What came of some inputs."""

    failures: list[str] = field(default_factory=list)
    counts: Counter[str] = field(default_factory=Counter)
    seconds: float = 0.0
    memory: int = 0

    def add(self, other: Told) -> None:
        self.failures += other.failures
        self.counts += other.counts
        self.seconds, self.memory = max(self.seconds, other.seconds), max(self.memory, other.memory)


@dataclass(frozen=True)
class Task:
    """Some inputs, and where their texts come from and go to."""

    program: str
    texts: Optional[Path]
    keep: Optional[Path]
    seeds: range
    keep_each: bool


class Tester:
    """Runs the program on inputs in the current folder, and says what is wrong with the answers."""

    def __init__(self, program: str, corpus: Corpus, keep: Optional[Path]) -> None:
        self.runner, self.corpus, self.keep = Runner(program), corpus, keep
        self.modes = [words for words in MODES.values() if not words or self.takes(["analyse", *words])]
        self.has_calls = self.takes(["calls"])

    def takes(self, words: list[str]) -> bool:
        Path("a.c").write_bytes(b"int main(void){return 0;}\n")
        return self.runner.run([*words, "a.c"]).status == 0

    def all(self, seeds: range, keep_each: bool) -> Told:
        told = Told()
        for seed in seeds:
            it = made(seed, self.corpus)
            faults = self.one(it, told.counts)
            told.failures += [f"FAILED seed {seed}, {it.kind}, {what}: {it.beginning()}" for what in faults]
            if self.keep is not None and (faults or keep_each):
                written(it.texts, self.keep / str(seed))
        told.seconds, told.memory = self.runner.most_seconds, self.runner.most_bytes
        return told

    def one(self, it: Input, counts: Counter[str]) -> list[str]:
        """What is wrong, each with the words of its run."""
        written(it.texts, Path())
        flags = [*self.modes[it.mode % len(self.modes)], *it.flags]
        names = list(it.texts)
        commands = [["analyse", *flags], ["dense", *flags], *([["calls"]] if it.calls and self.has_calls else [])]
        answers = [self.runner.run([*words, *names]) for words in commands]
        counts["inputs"] += 1
        counts["limit" if it.wanted else it.kind] += 1
        counts[f"status {answers[0].status}"] += 1
        for name in names:
            os.unlink(name)
        tries = [(" ".join(words), fault(answer, it.texts) or unwanted(it.wanted, answer))
                 for words, answer in zip(commands, answers)]
        wrong = [f"{words}, {what}" for words, what in tries if what]
        unequal = [f"{' '.join(words)}, {what}" for words, answer in zip(commands[1:], answers[1:])
                   if (what := difference(answers[0], answer))]
        return wrong or unequal


def unwanted(wanted: str, answer: Answer) -> str:
    """Whether a program at a limit gets another answer than its row says. Of slots the dense engine may have too few."""
    code = refusal(answer)
    if not wanted or code == "M8" or (code or ACCEPTED) == wanted:
        return ""
    return f"{code or 'accepted'}, not {wanted}"


def difference(analyse: Answer, other: Answer) -> str:
    """How the answers of two commands disagree. M6 is a limit of `analyse` alone, and M8 one of `dense`."""
    code, other_code = refusal(analyse), refusal(other)
    if "M6" == code or "M8" == other_code:
        agree = code in (None, "M6") and other_code in (None, "M8")
    elif other.words[0] == "calls" and code is None:
        agree = other_code is None
    else:
        agree = (analyse.status, analyse.out) == (other.status, other.out)
    return "" if agree else f"another answer than analyse: {first_other_line(other.out, analyse.out)}"


def first_other_line(got: bytes, wanted: bytes) -> str:
    pairs = zip(got.split(b"\n") + [b""], wanted.split(b"\n") + [b""])
    one, other = next(((one, other) for one, other in pairs if one != other), (b"", b""))
    return f"{one[:150]!r} where analyse has {other[:150]!r}"


def written(texts: dict[str, bytes], folder: Path) -> None:
    folder.mkdir(parents=True, exist_ok=True)
    for name, text in texts.items():
        (folder / name).write_bytes(text)


@functools.lru_cache(maxsize=1)
def corpus_of(texts: Optional[Path]) -> Corpus:
    """Each process reads the texts once."""
    return Corpus(texts)


def ran(task: Task) -> Told:
    """A task, in a folder of its own."""
    before = os.getcwd()
    with tempfile.TemporaryDirectory() as folder:
        os.chdir(folder)
        try:
            return Tester(task.program, corpus_of(task.texts), task.keep).all(task.seeds, task.keep_each)
        finally:
            os.chdir(before)


def told_of(tasks: list[Task], jobs: int) -> Iterator[Told]:
    """What came of each task, as soon as it and those before it are done."""
    if jobs == 1:
        yield from map(ran, tasks)
        return
    with multiprocessing.Pool(jobs) as pool:
        yield from pool.imap(ran, tasks)


def words() -> argparse.Namespace:
    parser = argparse.ArgumentParser()
    parser.add_argument("--inputs", type=int, default=6000)
    parser.add_argument("--seed", type=int, default=0)
    parser.add_argument("--program")
    parser.add_argument("--jobs", type=int, default=1)
    parser.add_argument("--texts", type=Path)
    parser.add_argument("--keep", type=Path)
    return parser.parse_args()


def main() -> int:
    asked = words()
    top = Path(__file__).resolve().parent.parent
    program = asked.program or subprocess.run([str(top / "sparrow"), "--program"], check=True, capture_output=True,
                                              text=True).stdout.strip()
    texts, keep = (it and it.resolve() for it in (asked.texts, asked.keep))
    seeds = range(asked.seed, asked.seed + asked.inputs)
    tasks = [Task(str(Path(program).resolve()), texts, keep, seeds[at:at + PART], len(seeds) == 1)
             for at in range(0, len(seeds), PART)]
    all_told = Told()
    for told in told_of(tasks, asked.jobs):
        all_told.add(told)
        for failure in told.failures:
            print(failure, flush=True)
    return tell(all_told)


def tell(told: Told) -> int:
    failed = len({failure.split(",", 1)[0] for failure in told.failures})
    inputs = told.counts.pop("inputs", 0)
    print(f"{inputs} inputs: {', '.join(f'{count} {kind}' for kind, count in sorted(told.counts.items()))}; "
          f"at most {told.seconds:.1f} s and {told.memory >> 20} MiB")
    print(f"{inputs - failed} passed, {failed} failed")
    return int(failed > 0)


if __name__ == "__main__":
    sys.setrecursionlimit(20000)
    sys.exit(main())
