"""Floating numbers become integers of the same size that may be any number.

A result of floating arithmetic, and each conversion, is ANY: an unsigned constant that is converted
to a signed type too small for it, which every number of the type may come of. A floating object
holds 0 where it starts so, or any number; and nothing is decided by the number that it holds:
comparisons and conditions may go both ways. So all values that the program may have are among those
of what is written here, on any machine. Operands stay, for their effects and accesses.
"""

from __future__ import annotations

import os
from typing import Optional

from c.constants import floating_literal, is_pure, value_of
from c.placing import Unplaced, place
from c.rules import called_function, operand_type
from c.trees import Declarator, Expression, FunctionDefinition, Initialiser, Specifiers, Statement
from c.types import (
    BOOL, DOUBLE, FLOAT, LONG_DOUBLE, Array, Floating, Function, Integer, MaybeType, Record, Void,
)

from .unit import Program, Unit, Untyped
from .walk import Context, Rewriting, Walk

FORM = "file with floating numbers"
WORDS = {"double": "long", "float": "int"}
LOGICAL = frozenset(["&&", "||"])
COMPARING = frozenset(["<", ">", "<=", ">=", "==", "!="])
# As what starts a static object; converted to a signed type of its size it is any number.
CONSTANTS = {8: "18446744073709551615u", 4: "4294967295u"}
# A condition that goes both ways.
EITHER = f"((long){CONSTANTS[8]}) != 0"


def any_of(kind: MaybeType) -> str:
    """An expression that is any number of a type."""
    if kind is BOOL:
        return f"({EITHER})"
    if isinstance(kind, Integer):
        return f"(({kind.spelling})(long){CONSTANTS[8]})"
    return f"((int){CONSTANTS[4]})" if kind is FLOAT else f"((long){CONSTANTS[8]})"


class Floats(Rewriting):
    """Rewrites words, operations and conversions. Raises Untyped where a type isn't known."""

    def prepare(self) -> None:
        """Rewrites the words; `long double` stays, and nothing may compute with it."""
        for part in self.unit.unread():
            raise Untyped(part.token, part.text)
        values = self.tokens.values
        for token in range(self.tokens.count):
            if values[token] in WORDS and "long" not in (values[token - 1], values[token + 1]):
                self.edits.replace(token, token, WORDS[values[token]])
        self.unit.has_floats = True
        # A prototype of Sparrow's headers makes no file one with floating numbers.
        if any(map(self.is_own, self.unit.floating_tokens())):
            self.unit.counts[FORM] = 1

    def is_own(self, token: int) -> bool:
        """Whether a token stands in a file of the program."""
        folder = os.environ.get("SPARROW_INCLUDE")
        place = self.unit.places.of(self.tokens.starts[token])
        return not folder or not place.file.startswith(f"{folder}/")

    def is_floating(self, node: Expression) -> bool:
        """Whether an operand is floating."""
        kind = operand_type(node)
        if kind is None:
            raise Untyped(node.first, "an expression whose type isn't known")
        if kind is LONG_DOUBLE:
            raise Untyped(node.first, "long double")
        return isinstance(kind, Floating)

    def expression(self, node: Expression) -> None:
        """An expression: each kind has its rule."""
        if isinstance(node.type, Floating):
            self.unit.counts[FORM] = 1
        rule = RULES.get(node.kind)
        if rule is not None:
            rule(self, node)
        elif node.type is None:
            raise Untyped(node.first, "an expression whose type isn't known")

    def number(self, node: Expression) -> None:
        """A floating number."""
        if self.is_floating(node):
            self.edits.replace(node.first, node.last, any_of(node.type))

    def binary(self, node: Expression) -> None:
        """Arithmetic, comparisons and conditions."""
        left, right = node.parts
        if node.text in LOGICAL:
            self.condition(left)
            self.condition(right)
        elif self.is_floating(left) | self.is_floating(right):
            result = EITHER if node.text in COMPARING else any_of(node.type)
            operator = self.operator_of(node)
            self.edits.replace(operator, operator, "), (void)(")
            self.edits.around(node.first, node.last, "((void)(", f"), {result})")

    def operator_of(self, node: Expression) -> int:
        """The token of a binary operator."""
        token = node.parts[0].last + 1
        if self.tokens.values[token] != node.text:
            raise Untyped(token, "an operator that isn't found")
        return token

    def unary(self, node: Expression) -> None:
        """`-`, `+` and `!`; an address and what is pointed to stay."""
        operand = node.parts[0]
        if node.text in ("&", "*") or not self.is_floating(operand):
            return
        self.edits.cut(node.first, node.first)
        result = EITHER if node.text == "!" else any_of(node.type)
        self.edits.around(node.first, node.last, "((void)(", f"), {result})")

    def step(self, node: Expression) -> None:
        """`++` and `--`, whose value isn't told apart before and behind."""
        operand = node.parts[0]
        if self.is_floating(operand):
            operator = node.first if node.kind == "prefix" else node.last
            self.edits.cut(operator, operator)
            self.edits.around(node.first, node.last, "(", f" = {any_of(operand.type)})")

    def assign(self, node: Expression) -> None:
        """An assignment, of which `op=` becomes one of any number."""
        left, right = node.parts
        if node.text == "=":
            self.convert(right, left.type)
        elif self.is_floating(left) | self.is_floating(right):
            operator = self.operator_of(node)
            self.edits.replace(operator, operator, "=")
            self.become_any(right, left.type)

    def conditional(self, node: Expression) -> None:
        """`c ? a : b`."""
        if isinstance(node.type, Floating) and len(node.parts) == 2:
            raise Untyped(node.first, "a ?: of floating numbers")
        self.condition(node.parts[0])
        if isinstance(node.type, Floating):
            self.convert(node.parts[1], node.type)
            self.convert(node.parts[2], node.type)
        elif node.type is None:
            raise Untyped(node.first, "an expression whose type isn't known")

    def cast(self, node: Expression) -> None:
        """A cast; one of a constant to an integer is folded where a constant must stand."""
        part = node.parts[0]
        if isinstance(node.type, Void):
            return
        is_folded = self.context.is_constant and self.is_floating(part)
        if is_folded and isinstance(node.type, Integer):
            self.fold(node, node.type)
        else:
            self.convert(part, node.type)

    def fold(self, node: Expression, kind: Integer) -> None:
        """A constant as an integer of that type."""
        value = value_of(node)
        if value is None:
            raise Untyped(node.first, "a floating constant where an integer must stand")
        self.edits.replace(node.first, node.last, f"(({kind.spelling}){value})")

    def call(self, node: Expression) -> None:
        """The arguments of a call."""
        function = called_function(node.parts[0])
        if function is None:
            raise Untyped(node.first, "a function whose type isn't known")
        parameters = function.parameters or []
        for position, argument in enumerate(node.parts[1:]):
            if position < len(parameters):
                self.convert(argument, parameters[position])
            elif self.is_floating(argument):
                self.convert(argument, DOUBLE)

    def literal(self, node: Expression) -> None:
        """A compound literal."""
        if node.values is not None:
            self.values(node.type, node.values)

    def condition(self, node: Optional[Expression]) -> None:
        """What stands as a condition."""
        if node is not None and self.is_floating(node):
            self.edits.around(node.first, node.last, "((void)(", f"), {EITHER})")

    def convert(self, node: Expression, kind: MaybeType) -> None:
        """A value that is converted to a type, as by an assignment."""
        is_floating = self.is_floating(node)
        if kind is LONG_DOUBLE or kind is None:
            raise Untyped(node.first, "a type that isn't known, or long double")
        if is_floating != isinstance(kind, Floating) or operand_size(node) != size(kind):
            if is_floating or isinstance(kind, Floating):
                self.become_any(node, kind)

    def become_any(self, node: Expression, kind: MaybeType) -> None:
        """A value that becomes any number of a type; a constant has nothing to keep."""
        if not isinstance(kind, (Integer, Floating)):
            raise Untyped(node.first, "a floating number that becomes none")
        if is_pure(node):
            self.edits.replace(node.first, node.last, any_of(kind))
        else:
            self.edits.around(node.first, node.last, "((void)(", f"), {any_of(kind)})")

    def statement(self, node: Statement) -> None:
        """Conditions, and what a function returns."""
        if node.kind in ("if", "while", "do"):
            self.condition(node.expressions[0])
        elif node.kind == "for":
            self.condition(node.expressions[1])
        elif node.kind == "return" and node.expressions[0] is not None:
            function = self.context.function
            kind = None if function is None else function.declarator.type
            if isinstance(kind, Function) and not isinstance(kind.result, Void):
                self.convert(node.expressions[0], kind.result)

    def declarator(self, node: Declarator, specifiers: Specifiers) -> None:
        """An initialiser."""
        if node.values is not None:
            with self.context.constant(self.context.is_static(specifiers)):
                self.values(node.type, node.values)

    def values(self, kind: MaybeType, values: Initialiser) -> None:
        """The values of an initialiser, each converted to the type of its part."""
        try:
            placed = place(kind, values)
        except Unplaced as error:
            raise Untyped(values.first, "an initialiser whose parts aren't known") from error
        for part in placed:
            value = part.value
            while value.expression is None and len(value.items) == 1:
                value = value.items[0][1]
            expression = value.expression
            if expression is None or isinstance(part.type, (Array, Record)):
                continue
            if isinstance(part.type, Floating) and is_pure(expression):
                self.start(expression, part.type)
            elif self.context.is_constant and isinstance(part.type, Integer):
                if self.is_floating(expression):
                    self.fold_start(expression, part.type)
            else:
                self.convert(expression, part.type)

    def start(self, node: Expression, kind: Floating) -> None:
        """A constant with which a floating object starts: 0, or any number."""
        if kind is LONG_DOUBLE:
            raise Untyped(node.first, "long double")
        self.edits.replace(node.first, node.last, "0" if is_zero(node) else CONSTANTS[kind.size])

    def fold_start(self, node: Expression, kind: Integer) -> None:
        """A floating constant with which a static integer starts."""
        cast = Expression("cast", node.first, node.last, [node])
        cast.type = kind
        self.fold(cast, kind)


RULES = {
    "number": Floats.number,
    "binary": Floats.binary,
    "unary": Floats.unary,
    "prefix": Floats.step,
    "postfix": Floats.step,
    "assign": Floats.assign,
    "conditional": Floats.conditional,
    "cast": Floats.cast,
    "call": Floats.call,
    "literal": Floats.literal,
}


def is_zero(node: Expression) -> bool:
    """Whether a number is 0, written without a sign."""
    if node.kind != "number":
        return False
    if isinstance(node.type, Floating):
        return floating_literal(node.text) == 0.0
    return value_of(node) == 0


def size(kind: MaybeType) -> int:
    """The size of an arithmetic type."""
    return kind.size if isinstance(kind, (Integer, Floating)) else 0


def operand_size(node: Expression) -> int:
    """The size of a floating operand."""
    return size(operand_type(node))


class FloatUses(Rewriting):
    """Finds whether a unit computes with floating numbers, or defines floating objects."""

    def __init__(self, unit: Unit, program: Program, context: Context) -> None:
        super().__init__(unit, program, context)
        self.is_used = False

    def expression(self, node: Expression) -> None:
        """An expression."""
        self.is_used = self.is_used or isinstance(node.type, Floating)

    def declarator(self, node: Declarator, specifiers: Specifiers) -> None:
        """What defines an object. One of another file, or a parameter of a prototype, is none."""
        is_outside = "extern" in specifiers.storage and node.values is None
        is_inside = node.symbol is not None and node.symbol.depth > 0
        if is_outside or (is_inside and self.context.function is None):
            return
        kind = node.type
        while isinstance(kind, Array):
            kind = kind.element
        if node.symbol is not None and node.symbol.kind == "object":
            self.is_used = self.is_used or isinstance(kind, Floating)

    def function(self, node: FunctionDefinition) -> None:
        """A function with a floating result."""
        kind = node.declarator.type
        if isinstance(kind, Function):
            self.is_used = self.is_used or isinstance(kind.result, Floating)


def uses_floats(unit: Unit, program: Program) -> bool:
    """Whether a unit computes with floating numbers."""
    context = Context()
    uses = FloatUses(unit, program, context)
    Walk(unit, context, [uses]).walk()
    return uses.is_used
