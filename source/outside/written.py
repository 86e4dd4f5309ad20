"""Calls that give a pointer to something that is not constant, as `fgets(line, 80, file)` does."""

from __future__ import annotations

from typing import Optional

from c.constants import value_of
from c.rules import stripped, value_type
from c.trees import Declaration, Declarator, Expression, FunctionDefinition, FunctionPart
from c.types import Function, MaybeType, Pointer, Record
from rewriting.walk import Rewriting

from .words import KNOWN, READING


class PointerCalls(Rewriting):
    """Finds the calls of functions that the unit doesn't define."""

    def prepare(self) -> None:
        """Looks at what is defined and declared at file scope."""
        # The functions that this unit calls so, and those that it defines for all units.
        self.found: set[str] = set()
        self.defined: set[str] = set()
        self.own: set[str] = set()
        self.prototypes: dict[str, FunctionPart] = {}
        for part in self.unit.parts:
            if isinstance(part, FunctionDefinition):
                name = part.declarator.name or ""
                self.own.add(name)
                if "static" not in part.specifiers.storage:
                    self.defined.add(name)
            elif isinstance(part, Declaration):
                for declarator in part.declarators:
                    self.declared(declarator)

    def declared(self, declarator: Declarator) -> None:
        """A declaration: the one that tells its parameters counts."""
        if declarator.functions and declarator.functions[0].parameters:
            self.prototypes.setdefault(declarator.name or "", declarator.functions[0])

    def expression(self, node: Expression) -> None:
        """A call by the name of a function from outside."""
        if node.kind != "call":
            return
        function, arguments = node.parts[0], node.parts[1:]
        symbol, name = function.symbol, function.text
        if function.kind != "name" or symbol is None or symbol.kind != "function":
            return
        if name in self.own or name in READING or KNOWN.get(name) == len(arguments):
            return
        part = self.prototypes.get(name)
        parameters = [] if part is None else part.parameters
        kind = symbol.type
        types = kind.parameters if isinstance(kind, Function) else None
        for position, argument in enumerate(arguments):
            parameter = parameters[position] if position < len(parameters) else None
            known = types[position] if types is not None and position < len(types) else None
            if self.may_be_written(argument, parameter, known):
                self.found.add(name)

    def may_be_written(
        self, argument: Expression, parameter: Optional[Declaration], known: MaybeType
    ) -> bool:
        """Whether a function may write through an argument. What a parameter points to tells; of
        one that isn't declared, what the argument points to."""
        if is_null(argument):
            return False
        if parameter is not None and self.is_constant(parameter):
            return False
        if known is None and stripped(argument).kind == "string":
            return False
        kind = value_type(argument) if known is None else known
        return isinstance(kind, Pointer) and is_readable(kind.target)

    def is_constant(self, parameter: Declaration) -> bool:
        """Whether what a parameter points to is constant: the word stands before the last `*`."""
        declarator, specifiers = parameter.declarators[0], parameter.specifiers
        values = self.tokens.values
        flags = ["const" in values[specifiers.first : specifiers.last + 1]]
        is_array = False
        for value in values[declarator.first : declarator.last + 1]:
            if value == "(":
                return False
            is_array |= value == "["
            if value == "*":
                flags.append(False)
            elif value == "const" and not is_array:
                flags[-1] = True
        if is_array:
            return flags[-1]
        return len(flags) > 1 and flags[-2]


def is_null(node: Expression) -> bool:
    """Whether an argument is the null pointer, as `NULL` or 0."""
    node = stripped(node)
    while node.kind == "cast":
        node = stripped(node.parts[0])
    return value_of(node) == 0


def is_readable(kind: MaybeType) -> bool:
    """Whether the program can read an object of that type. It knows no member of a record that isn't
    complete; and a member like those of FILE has a name that isn't the program's."""
    if isinstance(kind, Record):
        names = [member.name or "" for member in kind.members or ()]
        return any(not name.startswith("_") for name in names)
    return not isinstance(kind, Function)
