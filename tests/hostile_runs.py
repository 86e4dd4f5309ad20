"""Runs the program of tests/hostile.py on files, within limits of time and memory."""
from __future__ import annotations

import os
import resource
import select
import signal
from dataclasses import dataclass
from pathlib import Path

SECONDS = 20
MEMORY = 2 << 30
# A busy machine gives a process a small part of a processor; what waits for nothing is ended all the same.
PATIENCE = 30 * SECONDS
# What an endless answer may fill of the disk.
WRITTEN = 1 << 30
LIMITS = [(resource.RLIMIT_CPU, SECONDS), (resource.RLIMIT_AS, MEMORY), (resource.RLIMIT_FSIZE, WRITTEN),
          (resource.RLIMIT_CORE, 0)]


@dataclass(frozen=True)
class Answer:
    """What a run wrote, its status, which is below 0 for a signal, and what it took."""

    words: tuple[str, ...]
    status: int
    out: bytes
    err: bytes
    seconds: float
    bytes_held: int
    hung: bool


class Runner:
    """Runs the program in the current folder, where the files of an input are written."""

    def __init__(self, program: str) -> None:
        self.program = program
        self.most_seconds, self.most_bytes = 0.0, 0

    def run(self, words: list[str]) -> Answer:
        pid = self.started(words)
        hung = not ended(pid)
        _, code, usage = os.wait4(pid, 0)
        answer = Answer(tuple(words), os.waitstatus_to_exitcode(code), Path("out").read_bytes(), Path("err").read_bytes(),
                        usage.ru_utime + usage.ru_stime, usage.ru_maxrss << 10, hung)
        self.most_seconds = max(self.most_seconds, answer.seconds)
        self.most_bytes = max(self.most_bytes, answer.bytes_held)
        return answer

    def started(self, words: list[str]) -> int:
        """The limits are set on the process once it has begun: a copy of this one, to set them before, takes longer
        than most runs."""
        written = os.O_WRONLY | os.O_CREAT | os.O_TRUNC
        opened = [(os.POSIX_SPAWN_OPEN, 0, os.devnull, os.O_RDONLY, 0), (os.POSIX_SPAWN_OPEN, 1, "out", written, 0o600),
                  (os.POSIX_SPAWN_OPEN, 2, "err", written, 0o600)]
        pid = os.posix_spawn(self.program, [self.program, *words], os.environ, file_actions=opened)
        for kind, limit in LIMITS:
            resource.prlimit(pid, kind, (limit, limit))
        return pid


def ended(pid: int) -> bool:
    """Whether a process ends by itself. One that doesn't is ended."""
    file = os.pidfd_open(pid)
    try:
        if select.select([file], [], [], PATIENCE)[0]:
            return True
        os.kill(pid, signal.SIGKILL)
        return False
    finally:
        os.close(file)
