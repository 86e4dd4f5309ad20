"""What the words of the command ask of the report. A plain one loads no more of this package."""

from __future__ import annotations

from driver.failure import USAGE, Failure, Misused

FORMATS = ("text", "plain", "json", "sarif", "html")
CHOICES = {
    "--format": FORMATS,
    "--color": ("auto", "always", "never"),
    "--fail-on": ("any", "new"),
}
FILES = ("--output", "--baseline")
UPDATE = "--update-baseline"
WHY = "--why"
# How the analysis goes on behind an access: as its check says, or as before.
SHARP, PLAIN = "--sharp", "--plain"
# What is known at each place is told where there is room for it.
WITH_VALUES = ("text", "plain", "json")


def needed(option: str) -> str:
    """What an option wants as its argument."""
    return "a FILE" if option in FILES else f"one of {', '.join(CHOICES[option])}"


class Wanted:
    """The form of the report, and where it goes."""

    def __init__(self) -> None:
        self.chosen = {option: choices[0] for option, choices in CHOICES.items()}
        self.files: dict[str, str] = {}
        self.is_updating = False
        # Whether the cause of each warning is told, and the values of all nodes.
        self.is_why = False
        self.has_values = False
        # The words of modes; one at most is taken.
        self.modes: list[str] = []

    @property
    def mode(self) -> str:
        """How the analysis goes on behind an access."""
        return self.modes[-1] if self.modes else SHARP

    @property
    def format(self) -> str:
        """The form of the report."""
        return self.chosen["--format"]

    @property
    def output(self) -> str | None:
        """The file that the report goes to; None is standard output."""
        return self.files.get("--output")

    @property
    def baseline(self) -> str | None:
        """The file of the warnings that are known."""
        return self.files.get("--baseline")

    @property
    def is_plain(self) -> bool:
        """Whether the program's own lines go to standard output."""
        return self.format == "plain" and self.output is None

    def take(self, words: list[str], at: int) -> int:
        """How many words an option takes there, and 0 for others."""
        option, equals, argument = words[at].partition("=")
        if words[at] in (UPDATE, WHY):
            self.is_updating |= words[at] == UPDATE
            self.is_why |= words[at] == WHY
            return 1
        if words[at] in (SHARP, PLAIN):
            self.modes.append(words[at])
            return 1
        if option not in CHOICES and option not in FILES:
            return 0
        if not equals and at + 1 < len(words):
            argument = words[at + 1]
        elif not argument:
            raise Misused(f"{option} needs {needed(option)}")
        self.keep(option, argument)
        return 1 if equals else 2

    def keep(self, option: str, argument: str) -> None:
        """Keeps an option's argument."""
        choices = CHOICES.get(option)
        if choices is None:
            self.files[option] = argument
        elif argument in choices:
            self.chosen[option] = argument
        else:
            raise Failure(USAGE, f"{option} is one of {', '.join(choices)}, and not {argument}")

    def check(self, has_values: bool) -> None:
        """Ends where options don't go together."""
        self.has_values = has_values
        if len(self.modes) > 1:
            raise Misused(f"{SHARP} or {PLAIN} is given once")
        if self.is_why and self.format == "plain":
            raise Failure(USAGE, f"{WHY} and --format=plain don't go together")
        if self.baseline is None:
            for is_given, option in (
                (self.is_updating, UPDATE),
                (self.chosen["--fail-on"] == "new", "--fail-on=new"),
            ):
                if is_given:
                    raise Failure(USAGE, f"{option} needs --baseline FILE")
        elif self.format == "plain":
            raise Failure(USAGE, "--baseline and --format=plain don't go together")
        if has_values and self.format not in WITH_VALUES:
            raise Failure(USAGE, f"--values and --format={self.format} don't go together")
