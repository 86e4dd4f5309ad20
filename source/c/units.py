"""Reads a unit: declarations and functions at file scope (C90 6.7)."""

from __future__ import annotations

from typing import Union

from .statements import Statements
from .tokens import END, NAME, Unreadable
from .trees import Declaration, Declarator, External, FunctionDefinition, Unread
from .types import INT, Array, Function, MaybeType, Pointer
from .words import ASSERTION, RESERVED


class Units(Statements):
    """The reader of units."""

    def unit(self) -> list[Union[External, Unread]]:
        """The parts at file scope. One that can't be read is left, and the next one is read."""
        parts: list[Union[External, Unread]] = []
        while self.kinds[self.at] != END:
            if self.accept(";"):
                continue
            first, known = self.at, len(self.scopes.names[0])
            try:
                parts.append(self.external())
            except (Unreadable, RecursionError) as error:
                token = error.token if isinstance(error, Unreadable) else first
                text = error.text if isinstance(error, Unreadable) else "too deep"
                if self.is_undeclared_type(first, token - 1, known):
                    self.note_undeclared(token - 1)
                self.is_whole = False
                self.scopes.leave_to(1)
                self.at = self.behind_external(first)
                parts.append(Unread(first, self.at - 1, token, text))
        return parts

    def is_undeclared_type(self, first: int, token: int, known: int) -> bool:
        """Whether a name stands where a type or nothing should be, and so many names that were
        declared before the part from `first` on don't have it."""
        if token < first or self.kinds[token] != NAME or self.values[token] in RESERVED:
            return False
        if self.kinds[token + 1] != NAME and self.values[token + 1] != "*":
            return False
        return self.values[token] not in list(self.scopes.names[0])[:known]

    def behind_external(self, token: int) -> int:
        """The token behind a part at file scope that begins at a token."""
        while self.kinds[token] != END:
            value = self.values[token]
            if value == ";":
                return token + 1
            if value in ("(", "[", "{"):
                try:
                    token = self.tokens.matching(token)
                except Unreadable:
                    return self.tokens.count
                # The brace of a body, and not of a struct or of values.
                if value == "{" and self.values[token + 1] not in (";", ",", "*", "=", "[", "("):
                    is_declared = self.values[token + 2] in (";", ",", "=", "[", "(")
                    if not is_declared or self.starts_type(token + 1):
                        return token + 1
            token += 1
        return token

    def external(self) -> External:
        """A declaration or a function."""
        if self.values[self.at] == ASSERTION:
            return self.assertion()
        specifiers = self.specifiers()
        if self.values[self.at] == ";":
            declaration = Declaration(specifiers)
            declaration.last = self.expect(";")
            return declaration
        declarator = self.declarator(specifiers.type)
        if isinstance(declarator.type, Function) and "typedef" not in specifiers.storage:
            if self.values[self.at] == "{" or self.starts_type(self.at):
                return self.function(FunctionDefinition(specifiers, declarator))
        declaration = Declaration(specifiers)
        self.declare(declaration, declarator)
        self.declarators(declaration)
        declaration.last = self.expect(";")
        return declaration

    def function(self, function: FunctionDefinition) -> FunctionDefinition:
        """A function, behind its declarator."""
        declarator = function.declarator
        declarator.type = self.with_prototype(declarator)
        declarator.symbol = self.scopes.declare(
            "function", declarator.name or "", declarator.type
        )
        self.scopes.enter()
        part = declarator.functions[0]
        for parameter in part.parameters:
            self.bind(parameter.declarators[0])
        while self.values[self.at] != "{":
            if not self.starts_type(self.at):
                raise self.unreadable("no body")
            function.old_style.append(self.declaration())
        for token in part.identifiers:
            if self.values[token] not in self.scopes.names[-1]:
                self.scopes.declare("object", self.values[token], INT)
        self.adjust_parameters()
        function.body = self.block(is_scope=False)
        self.scopes.leave()
        function.last = function.body.last
        return function

    def bind(self, declarator: Declarator) -> None:
        """Declares a parameter in the function's scope."""
        if declarator.symbol is not None:
            self.scopes.bind(declarator.symbol)

    def adjust_parameters(self) -> None:
        """Makes pointers of parameters that are arrays or functions (C90 6.7.1)."""
        for symbol in self.scopes.names[-1].values():
            symbol.type = adjusted(symbol.type)


def adjusted(kind: MaybeType) -> MaybeType:
    """The type of a parameter that is declared with a type."""
    if isinstance(kind, Array):
        return Pointer(kind.element)
    return Pointer(kind) if isinstance(kind, Function) else kind
