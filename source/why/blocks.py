"""Where blocks and memory from outside are got: they are named by the node of a call. That node is
among the lines of values only where it uses something, which `malloc(4)` doesn't."""

from __future__ import annotations

import re
from typing import Optional

from c.places import Place
from c.trees import Expression
from outside.words import KNOWN

from .cells import calls, is_function
from .definitions import Definition, Definitions
from .values import Nodes

# A block, or what comes from outside, with the number of the node that gets it.
GIVEN = re.compile(r"%(heap|ext)\.([0-9]+)")
# What main is given is there before the first node.
OF_MAIN = "%ext.0"


class Blocks:
    """The places of calls by the numbers of their nodes."""

    def __init__(self, nodes: Nodes, definitions: Definitions) -> None:
        self.nodes = nodes
        self.definitions = definitions
        self.known_at: Optional[dict[tuple[str, int], list[Definition]]] = None

    def place(self, region: str) -> Optional[Place]:
        """Where the memory is got in which a region lies; None for objects of the program."""
        match = GIVEN.match(region)
        if match is None:
            return None
        if match.group() == OF_MAIN:
            given = self.definitions.given
            return given[-1].place if given else None
        known = self.nodes.places.get(int(match.group(2)))
        taken = self.nodes.taken.get(match.group())
        if known is not None or taken is None:
            return known
        places = [
            made.unit.places.of(made.unit.tokens.starts[call.first])
            for made in self.at.get((taken.file, taken.line), ())
            for call in (self.calls(made) if made.place <= taken <= made.end else ())
        ]
        # Without a call that is the only one there, where its result is taken.
        return places[0] if len(set(places)) == 1 else taken

    def calls(self, made: Definition) -> list[Expression]:
        """The calls of functions that no file defines of which a definition takes the result."""
        found = [] if made.value is None else calls(made.value)
        return [call for call in found if is_function(call.parts[0]) and self.gives(call)]

    def gives(self, call: Expression) -> bool:
        """Whether what a call gives may be memory of its own."""
        name = call.parts[0].text
        return name in KNOWN or name not in self.definitions.functions

    @property
    def at(self) -> dict[tuple[str, int], list[Definition]]:
        """The definitions that begin in each line of a file."""
        if self.known_at is None:
            self.known_at = {}
            for found in self.definitions.by_location.values():
                for made in found:
                    row = made.place.file, made.place.line
                    self.known_at.setdefault(row, []).append(made)
        return self.known_at
