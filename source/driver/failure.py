"""How a run ends without a report: a status, and what is said of it on standard error."""

from __future__ import annotations

import sys

CLEAN, ALARMS, REFUSED, USAGE, UNREADABLE, UNWRITTEN, NO_MEMORY, NOT_RUN = range(8)

HELP = "sparrow --help tells more"
SAID_OF_STATUS = {
    USAGE: f"the command is: source [OPTION..] FILE.c..; {HELP}",
    UNREADABLE: "a file can't be read",
    UNWRITTEN: "standard output can't be written",
    NO_MEMORY: "out of memory",
    NOT_RUN: "the words of the command line can't be read",
}

# Why a file isn't opened, where the system says it in other words.
REASONS: dict[type[Exception], str] = {
    FileNotFoundError: "no such file",
    IsADirectoryError: "it is a folder",
}


class Failure(Exception):
    """Ends the run with a status; the text goes to standard error, and then what may help."""

    def __init__(self, status: int, text: str, hint: str | None = None) -> None:
        super().__init__(text)
        self.status = status
        self.text = text
        self.hint = hint

    def say(self) -> None:
        """Writes both."""
        say(self.text)
        if self.hint is not None:
            say(f"hint: {self.hint}")


class Misused(Failure):
    """Words that are no command; the program's line of usage goes to standard output."""

    def __init__(self, text: str) -> None:
        super().__init__(USAGE, f"{text}; {HELP}")


class Stopped(BaseException):
    """A signal that ends the run."""

    def __init__(self, number: int) -> None:
        super().__init__(number)
        self.status = 128 + number


def unreadable(file: str, error: Exception, hint: str | None = None) -> Failure:
    """The failure of a file that can't be read."""
    return Failure(UNREADABLE, f"{file} can't be read: {reason_of(error)}", hint)


def reason_of(error: Exception) -> str:
    """Why the system doesn't open a file."""
    if not isinstance(error, OSError):
        return "it has no name of a file"
    return REASONS.get(type(error), str(error.strerror).lower())


def say(text: str) -> None:
    """Writes a line to standard error. Where that is closed, nobody listens."""
    try:
        sys.stderr.write(f"sparrow: {text}\n")
        sys.stderr.flush()
    except (OSError, ValueError, AttributeError):
        pass
