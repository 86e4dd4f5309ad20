"""Walks over a unit's trees, parts before the whole, and shows each node to the rewritings.

What a node's rewriting puts around it goes around all that was put around its parts. So each
rewriting may look at its own node alone.
"""

from __future__ import annotations

from contextlib import contextmanager
from typing import Iterator, Optional

from c.trees import (
    Declaration, Declarator, EnumBody, Expression, FunctionDefinition, Initialiser, RecordBody,
    Specifiers, Statement, TypeName,
)
from c.types import MaybeType

from .unit import Program, Unit


class Context:
    """Where a node stands."""

    def __init__(self) -> None:
        self.function: Optional[FunctionDefinition] = None
        # The first token of the part at file scope.
        self.first = 0
        # The expressions around it, from the outermost.
        self.parents: list[Expression] = []
        # The blocks around it, from the outermost.
        self.blocks: list[Statement] = []
        # Those that stand in expressions.
        self.inner: set[int] = set()
        # Whether a constant must stand there.
        self.is_constant = False

    def is_static(self, specifiers: Specifiers) -> bool:
        """Whether what these specifiers declare here is static."""
        return self.function is None or bool(specifiers.storage & {"static", "extern"})

    def block(self) -> Optional[Statement]:
        """The innermost block around it that stands in no expression."""
        return next((block for block in reversed(self.blocks) if id(block) not in self.inner), None)

    @contextmanager
    def constant(self, is_constant: bool = True) -> Iterator[None]:
        """While what must be constant is looked at."""
        before, self.is_constant = self.is_constant, is_constant
        yield
        self.is_constant = before


class Rewriting:
    """A rewriting of some forms. Each method is shown the nodes of its kind."""

    def __init__(self, unit: Unit, program: Program, context: Context) -> None:
        self.unit = unit
        self.program = program
        self.context = context
        self.tokens = unit.tokens
        self.edits = unit.edits

    def prepare(self) -> None:
        """Is called before the walk."""

    def expression(self, node: Expression) -> None:
        """An expression."""

    def statement(self, node: Statement) -> None:
        """A statement."""

    def declaration(self, node: Declaration) -> None:
        """A declaration, at file scope, in a block or of members."""

    def declarator(self, node: Declarator, specifiers: Specifiers) -> None:
        """A declarator of a declaration, with its initialiser."""
        if node.values is not None:
            self.values(node.type, node.values)

    def values(self, kind: MaybeType, values: Initialiser) -> None:
        """The initialiser of something of a type."""

    def record(self, node: RecordBody) -> None:
        """The members of a struct or union."""

    def constants(self, node: EnumBody) -> None:
        """The constants of an enumerated type."""

    def function(self, node: FunctionDefinition) -> None:
        """A function that is defined."""

    def finish(self) -> None:
        """Is called behind the walk."""


class Walk:
    """Shows a unit's nodes to its rewritings, in their order."""

    def __init__(self, unit: Unit, context: Context, rewritings: list[Rewriting]) -> None:
        self.unit = unit
        self.context = context
        self.rewritings = rewritings
        # Most look at few kinds of expressions, and some at none.
        self.of_expressions = [
            each for each in rewritings if type(each).expression is not Rewriting.expression
        ]

    def walk(self) -> None:
        """The whole unit."""
        for rewriting in self.rewritings:
            rewriting.prepare()
        for part in self.unit.parts:
            self.context.first = part.first
            if isinstance(part, FunctionDefinition):
                self.function(part)
            elif isinstance(part, Declaration):
                self.declaration(part)
        for rewriting in self.rewritings:
            rewriting.finish()

    def function(self, node: FunctionDefinition) -> None:
        """A function."""
        self.context.function = node
        self.specifiers(node.specifiers)
        self.declarator(node.declarator, node.specifiers)
        for declaration in node.old_style:
            self.declaration(declaration)
        self.statement(node.body)
        for rewriting in self.rewritings:
            rewriting.function(node)
        self.context.function = None

    def declaration(self, node: Declaration) -> None:
        """A declaration."""
        self.specifiers(node.specifiers)
        for declarator in node.declarators:
            self.declarator(declarator, node.specifiers)
        for rewriting in self.rewritings:
            rewriting.declaration(node)

    def specifiers(self, node: Specifiers) -> None:
        """The bodies of a record or an enumerated type."""
        body = node.body
        if isinstance(body, RecordBody):
            for member in body.members:
                self.declaration(member)
            for rewriting in self.rewritings:
                rewriting.record(body)
        elif isinstance(body, EnumBody):
            for value in body.values:
                self.constant(value)
            for rewriting in self.rewritings:
                rewriting.constants(body)

    def declarator(self, node: Declarator, specifiers: Specifiers) -> None:
        """A declarator with its parameters, lengths, width and initialiser."""
        for part in node.functions:
            for parameter in part.parameters:
                self.specifiers(parameter.specifiers)
                for inner in parameter.declarators:
                    self.declarator(inner, parameter.specifiers)
        for length in node.lengths:
            self.constant(length)
        if node.width is not None:
            self.constant(node.width)
        if node.values is not None:
            with self.context.constant(self.context.is_static(specifiers)):
                self.values(node.values)
        for rewriting in self.rewritings:
            rewriting.declarator(node, specifiers)

    def values(self, node: Initialiser) -> None:
        """An initialiser."""
        if node.expression is not None:
            self.expression(node.expression)
        for designators, value in node.items:
            for designator in designators:
                for index in (designator.index, designator.upto):
                    if index is not None:
                        self.constant(index)
            self.values(value)

    def constant(self, node: Expression) -> None:
        """An expression that must be constant."""
        with self.context.constant():
            self.expression(node)

    def expression(self, node: Expression) -> None:
        """An expression."""
        self.context.parents.append(node)
        for part in node.parts:
            self.expression(part)
        self.context.parents.pop()
        if node.written is not None:
            self.type_name(node.written)
        if node.values is not None:
            self.values(node.values)
        if node.block is not None:
            self.context.inner.add(id(node.block))
            self.statement(node.block)
        for rewriting in self.of_expressions:
            rewriting.expression(node)

    def type_name(self, node: TypeName) -> None:
        """A type name."""
        self.specifiers(node.specifiers)
        self.declarator(node.declarator, node.specifiers)

    def statement(self, node: Statement) -> None:
        """A statement."""
        if node.kind == "block":
            self.context.blocks.append(node)
        if node.declaration is not None:
            self.declaration(node.declaration)
        for expression in node.expressions:
            if expression is not None:
                self.head(node, expression)
        for body in node.bodies:
            self.statement(body)
        for rewriting in self.rewritings:
            rewriting.statement(node)
        if node.kind == "block":
            self.context.blocks.pop()

    def head(self, node: Statement, expression: Expression) -> None:
        """An expression of a statement."""
        if node.kind == "case":
            self.constant(expression)
        else:
            self.expression(expression)


