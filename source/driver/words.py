"""The words behind `source`: options of its own, options of the preprocessor, and files."""

from __future__ import annotations

from report.wanted import SHARP, Wanted

from .failure import USAGE, Failure, Misused
from .outputs import words_of_output

# Options of the preprocessor that may have their argument in the next word.
WITH_ARGUMENT = frozenset(
    ["-D", "-I", "-U", "-idirafter", "-imacros", "-include", "-iquote", "-isystem"]
)
# Options of the command with an argument, and what that is.
OWN = {"--keep": "a DIR", "--compile-commands": "a FILE", "--target": "a NAME"}


class Source:
    """A file of the program, and the options of the preprocessor for it."""

    def __init__(self, file: str, options: list[str]) -> None:
        self.file = file
        self.options = options


class Request:
    """What the words ask for."""

    def __init__(self) -> None:
        self.flags: list[str] = []
        self.keep: str | None = None
        self.is_strict = False
        # Whether each step of the run is a line on standard error.
        self.has_progress = False
        # Functions of up to so many tokens are copied for each call, as wrappers are; None is none.
        self.copied: int | None = 0
        # Whether models stand for functions of the library.
        self.has_models = True
        self.database: str | None = None
        self.target: str | None = None
        self.options: list[str] = []
        self.files: list[str] = []
        self.report = Wanted()

    @property
    def asked(self) -> list[str]:
        """What the program is asked for beside the report."""
        flags = ["--values", "--nodes"] if self.report.is_why else self.flags
        return [SHARP, *flags] if self.report.mode == SHARP else flags


def read_words(words: list[str]) -> Request:
    """The request of the words."""
    request = Request()
    at = 0
    while at < len(words) and words[at] != "--":
        at += request.report.take(words, at) or take(request, words, at)
    request.files += words[at + 1 :]
    if request.database is None and request.target is not None:
        raise Misused("--target needs --compile-commands")
    if request.database is None and not request.files:
        raise Misused("no file is given")
    request.report.check(bool(request.flags))
    return request


def take(request: Request, words: list[str], at: int) -> int:
    """Takes an option or a file, and tells how many words that are."""
    word = words[at]
    option, equals, argument = word.partition("=")
    count = words_of_output(word) or 1 + int(word in OWN or word in WITH_ARGUMENT)
    if at + count > len(words) or (option in OWN and equals and not argument):
        raise Misused(f"{option} needs {OWN.get(option, 'an argument')}")
    if words_of_output(word):
        return count
    if word == "--values":
        request.flags.append(word)
    elif word == "--strict":
        request.is_strict = True
    elif word == "--no-models":
        request.has_models = False
    elif word == "--progress":
        request.has_progress = True
    elif word == "--no-contexts":
        request.copied = None
    elif option == "--contexts":
        request.copied = number_of(argument)
    elif count == 2:
        take_argument(request, word, words[at + 1])
    elif option in OWN:
        take_argument(request, option, argument)
    elif len(word) > 1 and word.startswith("-"):
        request.options.append(word)
    else:
        request.files.append(word)
    return count


def number_of(argument: str) -> int:
    """The number of tokens that functions which are copied may have."""
    if not argument.isascii() or not argument.isdigit() or len(argument) > 6:
        raise Failure(USAGE, "--contexts takes a number, as --contexts=50")
    return int(argument)


def take_argument(request: Request, word: str, argument: str) -> None:
    """An option with its argument."""
    if word == "--keep":
        request.keep = argument
    elif word == "--compile-commands":
        request.database = argument
    elif word == "--target":
        request.target = argument
    else:
        request.options += [word, argument]
