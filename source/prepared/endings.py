"""Calls that don't return, as one of `die`, which prints and exits.

What the analysis knows behind a call is joined from all ways on which it may return, and values of
objects that the function doesn't use go past it. So `, exit(1)` behind such a call says that
nothing goes on there: `if (p == 0) die("p");` tells of p then.
"""

from __future__ import annotations

from typing import Optional

from c.constants import value_of
from c.rules import stripped
from c.trees import Expression, Statement
from c.types import Function, Integer, MaybeType, Void
from contexts.functions import ContextUnit
from rewriting.unit import Program
from rewriting.walk import Context, Rewriting, Walk

from .changes import Changes

# The functions of the library that don't return; `error` is one where its status isn't 0.
ENDING = frozenset(["exit", "abort", "_exit", "_Exit", "err", "errx", "verr", "verrx"])
WITH_STATUS = "error"
# Those of which the analysis itself knows that.
KNOWN = frozenset(["exit", "abort"])
JUMPS = frozenset(["goto", "label", "case", "default", "asm"])


class Endings:
    """The functions of a program that don't return."""

    def __init__(self, units: list[ContextUnit]) -> None:
        functions = [(id(unit), each.node) for unit in units for each in unit.candidates]
        # What each unit means by a name: its own function, or that of all files.
        self.own = {(unit, node.declarator.name or "") for unit, node in functions}
        self.shared = {
            node.declarator.name or "": unit
            for unit, node in functions
            if "static" not in node.specifiers.storage
        }
        self.found: set[tuple[int, str]] = set()
        left = [each for each in functions if not has_return(each[1].body)]
        before = -1
        while before < len(self.found):
            before = len(self.found)
            for unit, node in left:
                if self.ends(unit, node.body):
                    self.found.add((unit, node.declarator.name or ""))

    def is_ending(self, unit: int, call: Expression) -> bool:
        """Whether a call is of a function that doesn't return."""
        function = call.parts[0]
        symbol, name = function.symbol, function.text
        if function.kind != "name" or symbol is None or symbol.kind != "function":
            return False
        if (unit, name) in self.own:
            return (unit, name) in self.found
        if name in self.shared:
            return (self.shared[name], name) in self.found
        if name not in KNOWN and not takes_status(symbol.type):
            # Another function of that name, in a file that isn't given.
            return False
        if name == WITH_STATUS:
            return len(call.parts) > 1 and value_of(call.parts[1]) not in (None, 0)
        return name in ENDING

    def ends(self, unit: int, node: Statement) -> bool:
        """Whether a statement is never left, but by what doesn't return."""
        if node.kind == "expression":
            call = called(node)
            return call is not None and self.is_ending(unit, call)
        if node.kind == "block":
            # A jump may come to what stands behind.
            return any(self.ends(unit, body) for body in node.bodies) and not has(node, JUMPS)
        if node.kind == "if":
            return len(node.bodies) > 1 and all(self.ends(unit, body) for body in node.bodies)
        if node.kind in ("while", "for"):
            condition = node.expressions[0 if node.kind == "while" else 1]
            is_endless = condition is None or value_of(condition) not in (None, 0)
            return is_endless and not has(node.bodies[0], JUMPS | {"jump"})
        return False


class EndingCalls(Rewriting):
    """Writes `exit(1)` behind calls that don't return."""

    def __init__(
        self, unit: ContextUnit, context: Context, endings: Endings, changes: Changes
    ) -> None:
        super().__init__(unit, Program(), context)
        self.endings = endings
        self.changes = changes
        self.is_changed = False

    def statement(self, node: Statement) -> None:
        """A statement that is such a call."""
        call = called(node) if node.kind == "expression" else None
        if call is not None and not isinstance(call.type, Void) and self.is_one(call):
            self.changes.after(call.last, ", exit(1)")
            self.is_changed = True

    def expression(self, node: Expression) -> None:
        """A call without a value."""
        if node.kind == "call" and isinstance(node.type, Void) and self.is_one(node):
            self.changes.before(node.first, "(")
            self.changes.after(node.last, ", exit(1))")
            self.is_changed = True

    def is_one(self, call: Expression) -> bool:
        """Whether a call doesn't return, and the analysis doesn't know that by itself."""
        is_known = call.parts[0].text in KNOWN
        return not is_known and self.endings.is_ending(id(self.unit), call)


def end_calls(unit: ContextUnit, endings: Endings, changes: Changes) -> bool:
    """Rewrites a unit's calls that don't return, and tells whether there are any."""
    if "exit" in endings.shared or (id(unit), "exit") in endings.own:
        return False
    context = Context()
    calls = EndingCalls(unit, context, endings, changes)
    Walk(unit, context, [calls]).walk()
    return calls.is_changed


def takes_status(kind: MaybeType) -> bool:
    """Whether the first parameter of a function is a number, as a status is."""
    parameters = kind.parameters if isinstance(kind, Function) else None
    return parameters is not None and isinstance(next(iter(parameters), None), Integer)


def called(node: Statement) -> Optional[Expression]:
    """The call that a statement is, behind casts."""
    expression = node.expressions[0]
    inner = None if expression is None else stripped(expression)
    while inner is not None and inner.kind == "cast":
        inner = stripped(inner.parts[0])
    return inner if inner is not None and inner.kind == "call" else None


def has(node: Statement, kinds: frozenset[str]) -> bool:
    """Whether a statement of one of these kinds stands within another."""
    return any(body.kind in kinds or has(body, kinds) for body in node.bodies)


def has_return(node: Statement) -> bool:
    """Whether a function may return by a statement."""
    return has(node, frozenset(["return"]))
