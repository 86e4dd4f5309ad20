"""The refusal of a program, and the first fault of each of its files."""

from __future__ import annotations

import os
import re
from typing import Iterator, NamedTuple, Optional

from .failure import REFUSED
from .processes import run
from .room import Room

REFUSAL = re.compile(rb"(.*):([0-9]+):([0-9]+): refused ([A-Z]+[0-9]+): ([^\n]*)\n", re.DOTALL)

NAME = re.compile(r"[A-Za-z_]\w*", re.ASCII)

# What no file has alone: the program as a whole is refused for it.
OF_THE_WHOLE = frozenset(["F23", "F24", "F25", "M4", "M5", "M6", "M7", "M8", "M9"])

# A file with a fault of its own. Behind a file without one, it is what is refused.
PROBE = b"@\n"


class Refusal(NamedTuple):
    """A line of refusal; one of this package has no code."""

    file: bytes
    line: int
    column: int
    code: str
    text: bytes

    def bytes(self) -> bytes:
        """The line."""
        code = f" {self.code}".rstrip().encode()
        return b"%b:%d:%d: refused%b: %b\n" % (self.file, self.line, self.column, code, self.text)


def read_refusal(answer: bytes) -> Optional[Refusal]:
    """The refusal that the program wrote."""
    match = REFUSAL.fullmatch(answer)
    if match is None:
        return None
    file, line, column, code, text = match.groups()
    return Refusal(file, int(line), int(column), code.decode(), text)


def first_faults(program: str, room: Room, known: dict[int, Refusal]) -> dict[int, Refusal]:
    """The first fault of each file that has one, by its number; of some files it is known."""
    probe, answer = room.path("probe"), room.path("answer")
    with open(probe, "wb") as file:
        file.write(PROBE)
    faults = {}
    for number, text in enumerate(room.texts):
        fault = known.get(number)
        if fault is None and run([program, "analyse", "--", text, probe], output=answer) == REFUSED:
            with open(answer, "rb") as file:
                fault = read_refusal(file.read())
        if fault is not None and fault.file != os.fsencode(probe):
            faults[number] = fault
    return faults


def with_name(refusal: Refusal, texts: list[str]) -> Refusal:
    """A refusal of an undeclared name with the name, where the place in the texts tells it."""
    if refusal.code != "F8" or b":" in refusal.text:
        return refusal
    names = names_at(refusal, texts)
    if len(names) != 1:
        return refusal
    return refusal._replace(text=refusal.text + b": " + names.pop().encode())


def names_at(refusal: Refusal, texts: list[str]) -> set[str]:
    """The names that begin at the place of a refusal."""
    matches = [NAME.match(text, offset) for text, offset in places_in(refusal, texts)]
    return {match.group() for match in matches if match is not None}


def places_in(refusal: Refusal, texts: list[str]) -> Iterator[tuple[str, int]]:
    """The texts that have the place of a refusal, with its offsets."""
    from c.places import Place, Places

    place = Place(refusal.file.decode("latin-1"), refusal.line, refusal.column)
    for path in texts:
        with open(path, encoding="latin-1", newline="") as file:
            text = file.read()
        for offset in Places(text, path).offsets_of(place):
            yield text, offset
