"""Runs other programs. A signal that ends this one ends the program that runs, too."""

from __future__ import annotations

# The built-in module: `signal` makes enumerations of it, for longer than all else takes here.
import _signal as signal  # type: ignore[import]
import os
from types import FrameType

from .failure import Stopped

ENDING = (signal.SIGHUP, signal.SIGINT, signal.SIGTERM)
running: int | None = None


def hear_signals() -> None:
    """Makes signals that end a program end this one in order. Ignored ones stay ignored."""
    for number in ENDING:
        if signal.getsignal(number) != signal.SIG_IGN:
            signal.signal(number, stop)


def stop(number: int, frame: FrameType | None) -> None:
    """Ends the program that runs, and then this one."""
    for other in ENDING:
        signal.signal(other, signal.SIG_IGN)
    if running is not None:
        try:
            os.kill(running, signal.SIGTERM)
            os.waitpid(running, 0)
        except OSError:
            pass
    raise Stopped(number)


def run(words: list[str], output: str | None = None, errors: str | None = None) -> int:
    """The status of a program, 128 and more where a signal ended it. Files take what it writes."""
    global running
    actions = [
        (os.POSIX_SPAWN_OPEN, descriptor, path, os.O_WRONLY | os.O_CREAT | os.O_TRUNC, 0o600)
        for descriptor, path in ((1, output), (2, errors))
        if path is not None
    ]
    # A signal waits until it is known which program it has to end.
    heard = signal.pthread_sigmask(signal.SIG_BLOCK, ENDING)
    try:
        running = os.posix_spawnp(
            words[0],
            words,
            os.environ,
            file_actions=actions,
            setsigmask=heard,
            # Python ignores these, and a program that it starts would too.
            setsigdef=[signal.SIGPIPE, signal.SIGXFSZ],
        )
    finally:
        signal.pthread_sigmask(signal.SIG_SETMASK, heard)
    ended = os.waitpid(running, 0)[1]
    running = None
    status = os.waitstatus_to_exitcode(ended)
    return status if status >= 0 else 128 - status


def is_command(name: str) -> bool:
    """Whether a program of that name can be run."""
    if "/" in name:
        return os.access(name, os.X_OK)
    folders = os.environ.get("PATH", os.defpath).split(os.pathsep)
    return any(os.access(os.path.join(folder, name), os.X_OK) for folder in folders)
