"""Makes the copies, and writes the texts with them.

Each token keeps its file, line and column: behind each name that is changed, and around each copy,
a marker line and blanks bring the next token to its place.
"""

from __future__ import annotations

from typing import Optional

from c.constants import value_of, wrapped
from c.fresh import FreshNames
from c.trees import Declaration, Symbol
from c.types import Integer

from .functions import TYPED, Call, Calls, Candidate, ContextUnit
from .indirect import ENDING, instead_of
from .meant import cast_for, tells_elements
from .placed import edited, marker
from .scopes import mean_the_same
from .statics import Lifted

# Copies of one wrapper, and of one other function.
MOST_OF_WRAPPERS, MOST_OF_OTHERS = 200, 64
# How deep copies call copies, and typed wrappers typed ones.
DEEPEST, DEEPEST_TYPED = 2, 6
# The tokens that copies may have in a program that is smaller.
LEAST_ROOM = 20_000
# The program's limit of tokens (M1), less what markers and casts may take.
MOST_TOKENS = 1_900_000


class Site:
    """Where copies go: before a function of a unit. The innermost is written first."""

    def __init__(self, caller: Candidate) -> None:
        self.unit = caller.unit
        self.before = caller.node.first
        self.texts: list[str] = []
        # Whether `exit` has to be declared there.
        self.ends = False

    def text(self) -> str:
        """What goes there."""
        return (ENDING if self.ends else "") + "".join(self.texts)


class Copier:
    """Copies functions for calls, as long as there is room."""

    def __init__(self, calls: Calls, size: int) -> None:
        self.calls = calls
        self.fresh = FreshNames({name for unit in calls.units for name in unit.names})
        bodies = sum(each.size for each in calls.candidates)
        tokens = sum(unit.tokens.count for unit in calls.units)
        # The functions of a program grow at most to twice their tokens.
        self.room = max(0, min(max(bodies, LEAST_ROOM), MOST_TOKENS - tokens))
        self.counts: dict[Candidate, int] = {}
        # The functions whose static objects go before them.
        self.lifted: dict[Candidate, Lifted] = {}
        # The calls that stay for want of room, by name.
        self.left: dict[str, int] = {}
        self.copied = self.chosen(size)

    def chosen(self, size: int) -> set[Candidate]:
        """The functions whose calls get copies: there are two calls, or one in a copy."""
        found: set[Candidate] = set()
        left = [each for each in self.calls.candidates if self.calls.uses.get(each, 0) > 1]
        while left:
            candidate = left.pop()
            if candidate in found or not self.may_be_copied(candidate, size):
                continue
            found.add(candidate)
            callees = [self.calls.callee(candidate, call) for call in candidate.calls]
            left += [callee for callee in callees if callee is not None]
        return found

    def may_be_copied(self, candidate: Candidate, size: int) -> bool:
        """Whether a function may have copies, and is a wrapper or small."""
        if candidate.is_bound:
            return False
        if candidate not in self.calls.wrappers and candidate.size > size:
            return False
        return not self.calls.is_recursive(candidate)

    def text(self, unit: ContextUnit) -> str:
        """A unit's text with the copies that its functions call."""
        edits: dict[int, str] = {}
        heads: dict[int, str] = {}
        names: dict[Call, str] = {}
        for caller in unit.candidates:
            site = Site(caller)
            made = self.copies_for(caller, site, 0, None)
            if made:
                names.update(made)
                heads[caller.node.first] = site.text()
        for candidate, lifted in self.lifted.items():
            if candidate.unit is unit:
                first = candidate.node.first
                edits.update(lifted.edits())
                heads[first] = lifted_text(lifted, unit) + heads.get(first, "")
        name_calls(unit, edits, names)
        if not edits:
            return unit.tokens.text
        tokens = unit.tokens
        last = tokens.count - 1
        before, behind = tokens.text[: tokens.starts[0]], tokens.text[tokens.end(last) :]
        return before + edited(unit, 0, last, edits, heads) + behind

    def copies_for(
        self, caller: Candidate, site: Site, level: int, cast: Optional[str]
    ) -> dict[Call, str]:
        """The names of the copies that the calls of a function get."""
        names = {}
        for call in caller.calls:
            if call.is_indirect and not self.may_end(caller, site):
                continue
            name = self.copy_for(caller, call, site, level, cast)
            if name is not None:
                names[call] = name
                site.ends |= call.is_indirect
        return names

    def may_end(self, caller: Candidate, site: Site) -> bool:
        """Whether `exit` is the library's there, or may be declared."""
        known = site.unit.scope.names.get("exit")
        is_other = "exit" in caller.locals or "exit" in self.calls.only
        return not is_other and (known is None or known.first < site.before)

    def copy_for(
        self, caller: Candidate, call: Call, site: Site, level: int, cast: Optional[str]
    ) -> Optional[str]:
        """The name of a copy for a call, which is made; None where the call stays."""
        callee = self.calls.callee(caller, call)
        if callee is None or callee not in self.copied:
            return None
        is_wrapper = callee in self.calls.wrappers
        if call.is_indirect and not is_wrapper:
            return None
        if level == 0 or tells_elements(call.meant):
            # In a copy from another unit the type has no name here, and there is no cast.
            cast = cast_for(call.meant, site.unit.scope, site.before)
        if level >= (DEEPEST_TYPED if is_wrapper and cast is not None else DEEPEST):
            return None
        if not is_visible(callee, site) or (callee.statics and not is_before(callee, site)):
            return None
        most = MOST_OF_WRAPPERS if is_wrapper else MOST_OF_OTHERS
        if self.counts.get(callee, 0) >= most or callee.size > self.room:
            self.left[callee.name] = self.left.get(callee.name, 0) + 1
            return None
        self.counts[callee] = self.counts.get(callee, 0) + 1
        self.room -= callee.size
        name = self.fresh.make(callee.name)
        where = (site, level, cast if is_wrapper else None)
        site.texts.append(self.copy(callee, call, name, where))
        return name

    def copy(
        self, callee: Candidate, call: Call, name: str, where: tuple[Site, int, Optional[str]]
    ) -> str:
        """The text of a copy; those that it calls are made before it."""
        site, level, cast = where
        unit, node = callee.unit, callee.node
        edits: dict[int, str] = {}
        fixed = fixed_parameters(callee, call)
        for symbol, value in fixed:
            # Where it goes on as an argument its value is known, too.
            symbol.value = value
        names = self.copies_for(callee, site, level + 1, cast)
        if callee.statics:
            if callee not in self.lifted:
                self.lifted[callee] = Lifted(callee, self.fresh)
            edits.update(self.lifted[callee].edits())
        for symbol, value in fixed:
            symbol.value = None
            if isinstance(symbol.type, Integer):
                for use in symbol.uses:
                    if node.body.first < use < node.last:
                        edits[use] = f"(({symbol.type.spelling})({value}))"
        if cast is not None:
            for inner in callee.calls:
                is_library = self.calls.callee(callee, inner) is None
                if inner.name in TYPED and is_library and not tells_elements(inner.meant):
                    edits[inner.token] = f"{cast}{inner.name}"
        edits[node.declarator.token] = name
        for token in range(node.specifiers.first, node.specifiers.last + 1):
            if unit.tokens.values[token] in ("static", "extern"):
                edits[token] = ""
        name_calls(unit, edits, names)
        text = edited(unit, node.first, node.last, edits, {})
        return f"\nstatic{marker(unit, node.first)}{text}"


def name_calls(unit: ContextUnit, edits: dict[int, str], names: dict[Call, str]) -> None:
    """Gives calls the names of copies, beside all other edits of their functions."""
    edits.update((call.token, name) for call, name in names.items() if not call.is_indirect)
    others = dict(edits)
    for call, name in names.items():
        if call.is_indirect:
            edits.update(instead_of(unit, call, name, others))


def fixed_parameters(callee: Candidate, call: Call) -> list[tuple[Symbol, int]]:
    """The parameters that the call gives a constant, each with its value."""
    parameters = callee.parameters()
    if len(parameters) != len(call.arguments):
        return []
    found = []
    for symbol, argument in zip(parameters, call.arguments):
        if symbol is None or not callee.may_be_fixed(symbol):
            continue
        value, kind = value_of(argument), symbol.type
        if value is not None and isinstance(kind, Integer) and wrapped(value, kind) == value:
            if abs(value) < 2**63:
                found.append((symbol, value))
    return found


def is_visible(callee: Candidate, site: Site) -> bool:
    """Whether all that a copy needs is declared before its place, and means the same there."""
    scope, own = site.unit.scope, callee.unit.scope
    names, tags = callee.free
    for wanted, here, there in ((names, scope.names, own.names), (tags, scope.tags, own.tags)):
        for name in wanted:
            known, meant = here.get(name), there.get(name)
            if known is None or known.first >= site.before:
                return False
            if site.unit is not callee.unit and (meant is None or not mean_the_same(known, meant)):
                return False
    return True


def is_before(callee: Candidate, site: Site) -> bool:
    """Whether the static objects of a function stand before a place, in the same text."""
    return callee.unit is site.unit and callee.node.first < site.before


def lifted_text(lifted: Lifted, unit: ContextUnit) -> str:
    """The declarations that go before a function."""
    return "".join(
        marker(unit, each.first) + edited(unit, each.first, each.last, named(lifted, each), {})
        for each in lifted.declarations
    )


def named(lifted: Lifted, declaration: Declaration) -> dict[int, str]:
    """The new names in a declaration."""
    tokens = range(declaration.first, declaration.last + 1)
    return {token: lifted.names[token] for token in tokens if token in lifted.names}
