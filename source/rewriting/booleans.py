"""`_Bool` becomes `unsigned char`, and what is converted to one is compared with 0.

Both have one byte. A conversion is an assignment, an initialiser, an argument, a returned value or
a cast (C99 6.3.1.2); each is found by its types, so a unit stays as it is where one isn't known.
"""

from __future__ import annotations

from c.constants import is_pure, value_of
from c.placing import Unplaced, place
from c.rules import COMPARING, called_function, stripped
from c.trees import Expression, FunctionDefinition, Initialiser, Statement
from c.types import BOOL, Array, Function, MaybeType, Record

from .bit_fields import bits_of
from .small_forms import is_repeatable
from .unit import Unit, Untyped
from .walk import Rewriting

WORD = "_Bool"


def has_booleans(unit: Unit) -> bool:
    """Whether a unit has the word."""
    return WORD in unit.names


class Booleans(Rewriting):
    """Rewrites words and conversions. Raises Untyped where a type isn't known."""

    def prepare(self) -> None:
        """Rewrites the words."""
        for part in self.unit.unread():
            raise Untyped(part.token, part.text)
        for token in range(self.tokens.count):
            if self.tokens.values[token] == WORD:
                self.edits.replace(token, token, BOOL.spelling)
        self.unit.count("file with _Bool")

    def expression(self, node: Expression) -> None:
        """What converts its operands."""
        if node.kind == "assign":
            self.assign(node)
        elif node.kind in ("prefix", "postfix"):
            self.step(node)
        elif node.kind == "cast":
            self.convert(node.parts[0], node.type)
        elif node.kind == "call":
            self.call(node)
        elif node.kind == "literal" and node.values is not None:
            self.values(node.type, node.values)

    def is_target(self, node: Expression) -> bool:
        """Whether what is written is a `_Bool`."""
        if node.type is None:
            raise Untyped(node.first, "an expression whose type isn't known")
        return node.type is BOOL

    def assign(self, node: Expression) -> None:
        """An assignment. Of 0 or 1, `&` with any number makes 0 or 1."""
        target, right = node.parts
        if not self.is_target(target) or bits_of(target) is not None or node.text == "&=":
            return
        if node.text in ("=", "|="):
            self.convert(right, BOOL)
            return
        if not is_repeatable(target):
            raise Untyped(node.first, "an assignment to a _Bool that has an effect")
        copy, operator = self.edits.copy_of(target.first, target.last), target.last + 1
        before = f"(({copy}) {self.edits.placed(operator, node.text[:-1])} ("
        self.edits.replace(operator, operator, "=")
        self.edits.around(right.first, right.last, before, ")) != 0")

    def step(self, node: Expression) -> None:
        """`++` makes it 1, and `--` the other of 0 and 1. Behind it, the value is the one before."""
        target = node.parts[0]
        if not self.is_target(target) or bits_of(target) is not None:
            return
        if not is_repeatable(target):
            raise Untyped(node.first, "a step of a _Bool that has an effect")
        is_before = node.kind == "prefix"
        copy = f"({self.edits.copy_of(target.first, target.last)})"
        operator = node.first if is_before else node.last
        self.edits.cut(operator, operator)
        if not is_before:
            fallen = f"({copy} = 0, 1)" if node.text == "--" else "1"
            self.edits.around(node.first, node.last, "((", f") ? {fallen} : ({copy} = 1, 0))")
        elif node.text == "++":
            self.edits.around(node.first, node.last, "(", " = 1)")
        else:
            self.edits.around(node.first, node.last, "(", f" = !{copy})")

    def call(self, node: Expression) -> None:
        """The arguments of a call."""
        function = called_function(node.parts[0])
        if function is None:
            raise Untyped(node.first, "a function whose type isn't known")
        for argument, kind in zip(node.parts[1:], function.parameters or []):
            self.convert(argument, kind)

    def convert(self, node: Expression, kind: MaybeType) -> None:
        """A value that is converted to a type, as by an assignment."""
        if kind is BOOL and not is_boolean(node):
            self.edits.around(node.first, node.last, "((", ") != 0)")

    def statement(self, node: Statement) -> None:
        """What a function returns."""
        function = self.context.function
        if node.kind == "return" and node.expressions[0] is not None and function is not None:
            kind = function.declarator.type
            if isinstance(kind, Function):
                self.convert(node.expressions[0], kind.result)

    def values(self, kind: MaybeType, values: Initialiser) -> None:
        """The values of an initialiser."""
        try:
            placed = place(kind, values)
        except Unplaced as error:
            if may_hold_one(kind):
                raise Untyped(values.first, "an initialiser whose parts aren't known") from error
            return
        for part in placed:
            value = part.value
            while value.expression is None and len(value.items) == 1:
                value = value.items[0][1]
            if value.expression is not None:
                self.convert(value.expression, part.type)

    def function(self, node: FunctionDefinition) -> None:
        """An old-style parameter, which is passed as an `int`: GCC doesn't compare it with 0."""
        for declaration in node.old_style:
            if any(declarator.type is BOOL for declarator in declaration.declarators):
                raise Untyped(declaration.first, "an old-style parameter that is a _Bool")


def is_boolean(node: Expression) -> bool:
    """Whether a value is 0 or 1."""
    node = stripped(node)
    if node.kind == "binary":
        return node.text in COMPARING
    if node.kind == "unary":
        return node.text == "!" or node.type is BOOL
    if node.kind == "conditional" and len(node.parts) == 3:
        return all(is_boolean(part) for part in node.parts[1:])
    return node.type is BOOL or (is_pure(node) and value_of(node) in (0, 1))


def may_hold_one(kind: MaybeType) -> bool:
    """Whether a `_Bool` may be somewhere in an object of a type."""
    if isinstance(kind, Array):
        return may_hold_one(kind.element)
    if isinstance(kind, Record):
        return kind.members is None or any(may_hold_one(each.type) for each in kind.members)
    return kind is None or kind is BOOL
