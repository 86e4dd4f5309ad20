"""Runs the preprocessor over the headers of include/ and the options given."""

from __future__ import annotations

import os

from .failure import USAGE, Failure
from .processes import is_command, run

# gnu90 with these names taken away or given is C90 with the comments `//`, which the program reads.
# Words that GNU C and C99 add fall away where no meaning goes with them; attributes stay, to be
# looked at. No attribute and no builtin is said to be there.
LANGUAGE = (
    "-x c -std=gnu90 -trigraphs -w -D__STRICT_ANSI__ -Ulinux -Uunix -D__SPARROW__ -nostdinc".split()
)
NAMES = (
    "-U__GNUC__ -U__GNUC_MINOR__ -U__GNUC_PATCHLEVEL__ -U__SIZEOF_INT128__ -U__SSE2__"
    " -D__has_attribute(word)=0 -D__has_c_attribute(word)=0 -D__has_builtin(word)=0"
    " -D__extension__= -D_Noreturn="
    " -Dinline= -D__inline= -D__inline__= -Drestrict= -D__restrict= -D__restrict__="
    " -D__const=const -D__const__=const -D__volatile=volatile -D__volatile__=volatile"
    " -D__signed=signed -D__signed__=signed"
    " -D__builtin_expect(value,guess)=((long)(value))"
).split()


# Where headers of other libraries are.
SYSTEM = ("/usr/include", "/usr/include/x86_64-linux-gnu")


class Preprocessor:
    """The preprocessor that the variable CPP names; it may be several words."""

    def __init__(self) -> None:
        self.name = os.environ.get("CPP") or "gcc -E"
        self.words = self.name.split()
        first = self.words[0] if self.words else self.name
        if not self.words or not is_command(first):
            raise Failure(USAGE, f"there is no {first} to preprocess with; CPP names another")
        include = os.environ["SPARROW_INCLUDE"]
        headers = ["-isystem", f"{include}/c90", "-isystem", f"{include}/posix"]
        self.words += LANGUAGE + headers + NAMES

    def write(self, file: str, options: list[str], text: str) -> None:
        """Writes the file, preprocessed, to the place `text`."""
        # A name that begins with - would be an option.
        name = f"./{file}" if file.startswith("-") else file
        words = self.words + options + [name]
        if run(words, output=text) != 0:
            # Once more, since what the preprocessor says is read only where it fails.
            run(words, output=text, errors=f"{text}.said")
            hint = hint_for_options(options, f"{text}.said") or hint_for_headers(words, text)
            raise Failure(USAGE, f"{file} was not preprocessed by {self.name}", hint)


def hint_for_options(options: list[str], said: str) -> str | None:
    """What helps where the preprocessor names a long option, which is meant for `source`."""
    with open(said, encoding="utf-8", errors="replace") as file:
        text = file.read()
    for option in options:
        if option.startswith("--") and "unrecognized" in text and option in text:
            return f"source has no option {option}; sparrow --help tells which there are"
    return None


def hint_for_headers(words: list[str], text: str) -> str | None:
    """What helps where the preprocessor has said that a header is missing: all folders at once."""
    said = f"{text}.said"
    found: dict[str, str] = {}
    name = missing_header(said)
    while name is not None:
        there = (folder for folder in SYSTEM if os.path.exists(os.path.join(folder, name)))
        folder = next(there, None)
        if folder is None or folder in found:
            break
        found[folder] = name
        behind = [word for each in found for word in ("-idirafter", each)]
        if run(words + behind, output=text, errors=said) == 0:
            break
        name = missing_header(said)
    if found:
        options = " ".join(f"-idirafter {folder}" for folder in found)
        return f"{options} gives {' and '.join(found.values())}"
    return f"-I tells in which folder {name} is" if name is not None else None


def missing_header(said: str) -> str | None:
    """The header that the preprocessor has said is missing."""
    import re

    with open(said, encoding="utf-8", errors="replace") as file:
        text = file.read()
    match = re.search(r'#[ \t]*include[ \t]*[<"]([^>"\n]+)[>"]', text)
    if match is None or f": {match.group(1)}: " not in text:
        return None
    return match.group(1)
