"""The functions to which indirect calls lead, as the program's command `calls` tells them."""

from __future__ import annotations

import os
import re

from c.places import Place

from .failure import CLEAN
from .processes import run
from .room import Room

CALL = re.compile(r"^(.*):([0-9]+):([0-9]+): ([^:\n]*)\n", re.MULTILINE)
NO_FUNCTION = "none"


def targets_in(room: Room) -> dict[Place, frozenset[str]]:
    """The names of these functions for each place. Of refused texts nothing is known."""
    answer = room.path("calls")
    program = os.environ["SPARROW_PROGRAM"]
    if run([program, "calls", "--", *room.texts], output=answer) != CLEAN:
        return {}
    with open(answer, encoding="latin-1", newline="") as file:
        return targets_of(file.read())


def targets_of(answer: str) -> dict[Place, frozenset[str]]:
    """What an answer tells: more calls than one may stand at one place."""
    found: dict[Place, frozenset[str]] = {}
    for file, line, column, names in CALL.findall(answer):
        place = Place(file, int(line), int(column))
        told = frozenset(names.split()) - {NO_FUNCTION}
        found[place] = found.get(place, frozenset()) | told
    return found
