"""The objects that an access may leave, or takes as another type: those to which its pointer may
point, and the array that it names."""

from __future__ import annotations

from typing import NamedTuple, Optional

from c.places import Place
from c.trees import Expression
from c.types import Array
from report.folding import Finding
from report.kinds import OVERRUN, PUNNED

from .blocks import GIVEN
from .cells import Cells
from .search import Search, parts_used
from .values import Target

# So many objects are told for a warning.
MOST_TOLD = 3


class Object(NamedTuple):
    """A region with the place of its declaration, or where it is allocated, and what is said."""

    place: Place
    region: str
    said: str


def objects_of(search: Search, finding: Finding) -> list[Object]:
    """The objects of a finding whose places are known, at most so many."""
    if finding.kind not in (OVERRUN, PUNNED):
        return []
    found: dict[tuple[Place, str], Object] = {}
    for node in search.nodes.alarms.get((finding.place, finding.kind), ()):
        for region, said in regions_at(search, finding, node):
            place = place_of(search, region)
            if place is not None:
                found.setdefault((place, said), Object(place, region, said))
    return list(found.values())[:MOST_TOLD]


def regions_at(search: Search, finding: Finding, node: int) -> list[tuple[str, str]]:
    """The regions that an access at a node may leave, and what is said of each."""
    uses = search.nodes.uses.get(node, {})
    found: list[tuple[str, str]] = []
    for made in search.definitions.accesses.get(finding.place, ()):
        if made.value is None:
            continue
        # The result of a call that is followed is used by the node before.
        cells = Cells(made.function, {**made.cells(search.nodes).uses, **uses})
        for part in parts_used(made.value, finding.kind):
            if isinstance(part.type, Array):
                found += arrays_of(part, cells)
            else:
                found += targets_of(part, cells, finding)
    return found


def arrays_of(part: Expression, cells: Cells) -> list[tuple[str, str]]:
    """The array that an expression names, or those that are members of what it follows."""
    named = Cells(cells.function, {}).pointed(part)
    if named:
        return [(region, f"'{region.rstrip('[]')}' is declared here") for region in named]
    return [(region, may_be(region)) for region in cells.pointed(part)]


def targets_of(part: Expression, cells: Cells, finding: Finding) -> list[tuple[str, str]]:
    """The regions to which a pointer may point that goes wrong there."""
    values = [cells.uses[location] for location in cells.read(part) if location in cells.uses]
    targets = [target for value in values for target in value.targets]
    return [
        (target.region, may_be(target.region)) for target in targets if is_left(finding, target)
    ]


def may_be(region: str) -> str:
    """What is said of a region to which a pointer may point."""
    return f"it may be in '{region}'"


def is_left(finding: Finding, target: Target) -> bool:
    """Whether a finding may be one of a target: its size is among those that are told."""
    if finding.kind == PUNNED:
        return True
    low, high = finding.intervals["size"]
    return low <= target.size[0] and target.size[1] <= high


def place_of(search: Search, region: str) -> Optional[Place]:
    """Where an object is declared, or a block allocated."""
    if GIVEN.match(region) is not None:
        return search.blocks.place(region)
    root = region.split("[")[0]
    while root and root not in search.definitions.objects:
        root = root.rpartition(".")[0]
    return search.definitions.objects[root].place if root else None
