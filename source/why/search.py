"""The nearest cause of a warning: breadth first, from what is wrong at its node to what it is made
of. Each step is an assignment of the texts, a call or a `return`, at which the values that are
printed have what is wrong, too. A cause is one that makes it of values which have it not.
"""

from __future__ import annotations

from typing import NamedTuple, Optional

from c.places import Place
from c.trees import Expression
from outside.words import KNOWN
from report.folding import Finding, is_unknown
from report.kinds import NULL, OVERRUN, UNKNOWN, ZERO

from .badness import PAST, UNSIZED, Badness, badness_of
from .blocks import GIVEN, OF_MAIN, Blocks
from .cells import Cells, calls, computes, constants, is_function
from .definitions import OUTSIDE, STARTS, Definition, Definitions
from .values import Nodes, Uses, Value

# So many locations are looked at for a warning.
MOST_SEEN = 1000
COMPUTED = "is computed here"
BLOCK = "points to a block whose size isn't known"
UNKNOWN_SIZE = {
    "heap": "is a block whose size isn't known",
    "ext": "comes from outside, and its size isn't known",
}
HELD = "is memory from outside"


class Step(NamedTuple):
    """A place where a location gets what is wrong."""

    place: Place
    location: str


class Cause(NamedTuple):
    """Where something wrong comes from, what is said of it, and the way to the warning."""

    place: Place
    location: str
    what: str
    steps: list[Step]


# A location with what is wrong there.
State = tuple[str, Badness]


class Search:
    """Searches for causes. What is known of a location is kept for all warnings."""

    def __init__(self, texts: list[tuple[str, str]], lines: list[str]) -> None:
        self.nodes = Nodes(lines)
        self.definitions = Definitions(texts, self.nodes)
        self.blocks = Blocks(self.nodes, self.definitions)
        self.known: dict[State, tuple[list[Cause], list[tuple[State, Place]]]] = {}

    def cause(self, finding: Finding) -> Optional[Cause]:
        """The nearest cause of a finding."""
        for badness in badness_of(finding):
            for node in self.nodes.alarms.get((finding.place, finding.kind), ()):
                first = self.first(finding, badness, self.nodes.uses.get(node, {}))
                found = self.block(first, node) if badness.kind == UNSIZED else None
                found = found or self.nearest(first)
                if found is not None:
                    return found
        return None

    def block(self, states: list[State], node: int) -> Optional[Cause]:
        """The place where a block is given whose size isn't known: its name has that node."""
        for location, _ in states:
            value = self.nodes.uses[node].get(location)
            for target in value.targets if value is not None else ():
                match = GIVEN.match(target.region)
                # What main is given is told by the parameter that points there.
                if match is not None and match.group() != OF_MAIN and is_unknown(target.size):
                    place = self.blocks.place(match.group())
                    if place is not None:
                        return Cause(place, match.group(), UNKNOWN_SIZE[match.group(1)], [])
        return None

    def first(self, finding: Finding, badness: Badness, uses: Uses) -> list[State]:
        """What is wrong of that which is used for the access at the place of a finding."""
        found: dict[State, None] = {}
        is_moved = finding.kind == UNKNOWN and badness.kind == NULL
        for made in self.definitions.accesses.get(finding.place, ()):
            if made.value is None:
                continue
            # What is changed there is used by a node before.
            cells = Cells(made.function, {**made.cells(self.nodes).uses, **uses})
            for part in parts_used(made.value, finding.kind):
                wanted = badness.of_parts() if computes(part) else badness
                for location in cells.read(part):
                    value = cells.uses.get(location)
                    if value is not None and is_wrong(location, value, wanted):
                        if not is_moved or value.numbers == (0, 0):
                            found[location, wanted] = None
        return list(found)

    def nearest(self, first: list[State]) -> Optional[Cause]:
        """The cause that is reached with the fewest steps from one of these."""
        ways: dict[State, list[Step]] = {state: [] for state in first}
        left = list(first)
        for state in left:
            causes, before = self.expanded(state)
            if causes:
                return causes[0]._replace(steps=ways[state])
            for other, place in before:
                if other not in ways and len(ways) < MOST_SEEN:
                    ways[other] = [Step(place, state[0]), *ways[state]]
                    left.append(other)
        return None

    def expanded(self, state: State) -> tuple[list[Cause], list[tuple[State, Place]]]:
        """The causes that a location itself has, and the locations that it gets it from."""
        if state not in self.known:
            location, badness = state
            causes: list[Cause] = []
            before: list[tuple[State, Place]] = []
            for made in self.definitions.of(location):
                cause, others = self.looked_at(made, location, badness)
                causes += [] if cause is None else [cause]
                before += [(other, made.place) for other in others]
            self.known[state] = causes + self.of_start(location, badness), before
        return self.known[state]

    def looked_at(
        self, made: Definition, location: str, badness: Badness
    ) -> tuple[Optional[Cause], list[State]]:
        """Whether a definition is a cause, or else from where it takes what is wrong."""
        value = made.value
        if value is None:
            return None, []
        cells = made.cells(self.nodes)
        wanted = badness.of_parts() if computes(value) else badness
        others: list[State] = []
        for read in cells.read(value):
            known = cells.uses.get(read)
            if known is not None and is_wrong(read, known, wanted) and read != location:
                others.append((read, wanted))
        if others:
            return None, others
        what = self.made_here(value, cells, badness)
        return (None if what is None else Cause(made.place, location, what, [])), []

    def made_here(self, value: Expression, cells: Cells, badness: Badness) -> Optional[str]:
        """What is said of a value that has what is wrong although nothing that it reads has it."""
        for constant in constants(value):
            if badness.is_of(constant):
                return f"is set to {constant}"
        for call in calls(value):
            if not is_function(call.parts[0]):
                return "is what an indirect call gives"
            name = call.parts[0].text
            if name in KNOWN and badness.kind == UNSIZED:
                return BLOCK
            if name not in KNOWN and name not in self.definitions.functions:
                return f"is what {name} gives, which no file defines"
        return COMPUTED if computes(value) and badness.kind not in (NULL, UNSIZED) else None

    def of_start(self, location: str, badness: Badness) -> list[Cause]:
        """The cause that a location has before the program runs."""
        root = location.split("[")[0]
        while root and root not in self.definitions.starting:
            root = root.rpartition(".")[0]
        if not root:
            return self.of_outside(location)
        made, what = self.definitions.starting[root]
        is_set = what == OUTSIDE and root in self.definitions.by_location
        if is_set or (what == STARTS and badness.kind not in (NULL, ZERO)):
            return []
        return [Cause(made.place, location, what, [])]

    def of_outside(self, location: str) -> list[Cause]:
        """The cause that memory from outside has: what main is given is there from the start."""
        match = GIVEN.match(location)
        if match is None or match.group(1) != "ext":
            return []
        place = self.blocks.place(location)
        return [] if place is None else [Cause(place, location, HELD, [])]


def is_wrong(location: str, value: Value, badness: Badness) -> bool:
    """Whether what is read of a location may be wrong: of bytes from outside it is any number."""
    return badness.is_in(value) or (badness.kind == UNKNOWN and location.startswith("%ext."))


def parts_used(node: Expression, kind: str) -> list[Expression]:
    """The parts of an expression whose values an alarm at its first token may come of."""
    found: list[Expression] = []
    if node.kind in ("binary", "assign"):
        return [node.parts[1]] if kind == ZERO and node.text.rstrip("=") in ("/", "%") else []
    if kind == ZERO:
        return found
    inner = node
    while True:
        if inner.kind == "index":
            found += inner.parts if kind == OVERRUN else inner.parts[:1]
        elif inner.kind == "call":
            # A library function follows its arguments.
            found += inner.parts[1:] if inner.parts[0].text in KNOWN else []
            break
        elif inner.kind == "unary" and inner.text in ("*", "&"):
            found += inner.parts if inner.text == "*" else []
        elif inner.kind == "member":
            found += inner.parts if inner.text == "->" else []
        elif inner.kind not in ("parenthesis", "postfix"):
            break
        inner = inner.parts[0]
    return found
