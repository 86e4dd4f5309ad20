"""Conditions that name what they test.

A condition tells something of an object by its name. In `(c = getc(file)) != EOF` it is a copy of
c that is compared, so c is named behind: `(c = getc(file), c) != EOF`. `while (n-- > 0) BODY`
compares what n was before. It becomes
`while (1) { if (n > 0) n--; else { n--; break; } BODY }`, and an `if` so that n changes in both its
branches.
"""

from __future__ import annotations

from typing import NamedTuple, Optional

from c.rules import stripped
from c.trees import Expression, Statement
from c.types import Integer, Pointer
from contexts.functions import ContextUnit
from rewriting.unit import Program
from rewriting.walk import Context, Rewriting, Walk

from .changes import Changes

COMPARING = frozenset(["==", "!=", "<", ">", "<=", ">="])


class Step(NamedTuple):
    """A test of what an object was before ++ or --: the test without that, and what changes it."""

    node: Expression
    test: str
    change: str


def name_conditions(unit: ContextUnit, changes: Changes) -> None:
    """Rewrites a unit's conditions."""
    context = Context()
    Walk(unit, context, [Conditions(unit, context, changes)]).walk()


class Conditions(Rewriting):
    """Looks at the conditions of statements, and of `?:`."""

    def __init__(self, unit: ContextUnit, context: Context, changes: Changes) -> None:
        super().__init__(unit, Program(), context)
        self.changes = changes

    def statement(self, node: Statement) -> None:
        """The condition of a statement."""
        place = {"if": 0, "while": 0, "do": 0, "for": 1}.get(node.kind)
        condition = None if place is None else node.expressions[place]
        if condition is None:
            return
        if node.kind in ("while", "for"):
            self.loop(node, condition)
        elif node.kind == "if":
            self.branch(node, condition)
        else:
            self.tested(condition)

    def expression(self, node: Expression) -> None:
        """The condition of `?:`."""
        if node.kind == "conditional" and self.context.function is not None:
            self.tested(node.parts[0])

    def loop(self, node: Statement, condition: Expression) -> None:
        """A loop: a step that its condition is, or ends with, goes into its body. So does one that
        the condition of a `while` begins with, and then all of that does."""
        parts, body = conjuncts(stripped(condition)), node.bodies[0]
        last, first = self.step(parts[-1]), self.step(parts[0])
        if last is not None and len(parts) == 1:
            text = "" if node.kind == "for" else "1"
            self.changes.replace(condition.first, condition.last, text)
            self.enclose(body, f"{{ {taken(last)}")
        elif last is not None:
            self.changes.replace(parts[-2].last + 1, parts[-1].last, "")
            self.enclose(body, f"{{ {taken(last)}")
        elif first is not None and node.kind == "while" and condition.kind == "binary":
            begun = f"1) {{ {taken(first)} if (!("
            self.changes.replace(condition.first, parts[1].first - 1, begun)
            self.changes.replace(condition.last + 1, condition.last + 1, ")) break;")
            self.changes.after(body.last, " }")
        for part in parts:
            self.tested(part)

    def enclose(self, body: Statement, before: str) -> None:
        """Puts a body into braces, behind what comes before it there."""
        self.changes.before(body.first, before)
        self.changes.after(body.last, " }")

    def branch(self, node: Statement, condition: Expression) -> None:
        """An `if`: what its condition changes is changed in both branches."""
        step = self.step(condition)
        if step is None:
            self.tested(condition)
            return
        self.changes.replace(condition.first, condition.last, step.test)
        change = f"{{ {step.change};"
        self.enclose(node.bodies[0], change)
        if len(node.bodies) > 1:
            self.enclose(node.bodies[1], change)
        else:
            self.changes.after(node.bodies[0].last, f" else {step.change};")

    def step(self, node: Expression) -> Optional[Step]:
        """The step that an expression is."""
        inner = stripped(node)
        if inner.kind == "postfix":
            sides = [inner]
        elif inner.kind == "binary" and inner.text in COMPARING:
            sides = [stripped(part) for part in inner.parts]
        else:
            return None
        steps = [side for side in sides if side.kind == "postfix"]
        if len(steps) != 1 or not all(side is steps[0] or is_plain(side) for side in sides):
            return None
        target = changed(steps[0])
        if target is None or any(side.symbol is target.symbol for side in sides if side.symbol):
            return None
        values = self.tokens.values
        tokens = range(inner.first, inner.last + 1)
        test = " ".join(values[token] for token in tokens if token != steps[0].last)
        return Step(node, test, f"{self.text(target)}{values[steps[0].last]}")

    def text(self, node: Expression) -> str:
        """An expression on one line."""
        return " ".join(self.tokens.values[node.first : node.last + 1])

    def tested(self, node: Expression) -> None:
        """A condition, or a part of one that is tested by itself: behind an assignment, or ++ and
        --, what it is of is named."""
        inner = stripped(node)
        if inner.kind == "binary" and inner.text in COMPARING | {"&&", "||"}:
            for part in inner.parts:
                self.tested(part)
        elif inner.kind == "unary" and inner.text == "!":
            self.tested(inner.parts[0])
        elif inner.kind == "comma":
            self.tested(inner.parts[1])
        elif inner.kind in ("assign", "prefix"):
            self.named(inner)

    def named(self, node: Expression) -> None:
        """Names what an assignment, or ++ and --, changes."""
        target = changed(node)
        if target is None:
            return
        if node.kind == "prefix":
            self.changes.before(node.first, "(")
        end = ")" if node.kind == "prefix" else ""
        self.changes.after(node.last, f", {self.text(target)}{end}")


def conjuncts(node: Expression) -> list[Expression]:
    """The parts of `A && B && C`; of another expression itself."""
    if node.kind == "binary" and node.text == "&&":
        return [*conjuncts(node.parts[0]), node.parts[1]]
    return [node]


def taken(step: Step) -> str:
    """What goes before the body of a loop."""
    return f"if ({step.test}) {step.change}; else {{ {step.change}; break; }}"


def changed(node: Expression) -> Optional[Expression]:
    """The scalar object, or member of one, by whose name an expression changes it."""
    target = stripped(node.parts[0])
    is_scalar = isinstance(target.type, (Integer, Pointer))
    return target if is_scalar and is_named(target) else None


def is_named(node: Expression) -> bool:
    """Whether an expression is an object by its name, or a member of one."""
    if node.kind == "member" and node.text == ".":
        return is_named(stripped(node.parts[0]))
    return node.kind == "name" and node.symbol is not None and node.symbol.kind == "object"


def is_plain(node: Expression) -> bool:
    """Whether an expression is a constant, or an object by its name."""
    if node.kind in ("number", "character"):
        return True
    kind = node.symbol.kind if node.kind == "name" and node.symbol is not None else ""
    return kind in ("object", "constant")
