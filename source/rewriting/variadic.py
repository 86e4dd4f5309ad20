"""Functions that are defined with `...` lose it; what is passed there goes to an object.

`f__rest` is a union of bytes: a read gives any number and every pointer that was ever stored. So
`va_arg` gives any number, and every pointer that any call of f passes. It is also what a list of
arguments points to. A call stores its further arguments there before its last named one is
evaluated, which is an order that C allows (C90 6.3.2.2).
"""

from __future__ import annotations

from typing import Optional

from c.rules import stripped
from c.tokens import NAME
from c.trees import Declaration, Declarator, Expression, FunctionDefinition, Specifiers
from c.types import Function, MaybeType, Record

from .unit import Unit, Variadic
from .walk import Rewriting

# What stdarg.h writes for va_start.
REST = "__sparrow_rest"
UNION = "union __rest { void *p; char room[64]; };"


class VariadicFunctions(Rewriting):
    """Rewrites definitions, prototypes and calls of variadic functions that some unit defines."""

    def prepare(self) -> None:
        """Finds the functions of this unit."""
        self.defined = variadic_functions(self.unit)
        self.known = {**self.program.variadic, **self.defined}
        for function in self.unit.functions():
            # A static function of the unit may have the name of another unit's.
            if function.declarator.name not in self.defined:
                self.known.pop(function.declarator.name or "", None)
        self.used: set[str] = set()

    def variadic(self, node: Optional[Declarator]) -> Optional[Variadic]:
        """The variadic function that a declarator declares."""
        if node is None or node.symbol is None or node.symbol.kind != "function":
            return None
        return self.known.get(node.name or "")

    def declarator(self, node: Declarator, specifiers: Specifiers) -> None:
        """A prototype."""
        if "typedef" not in specifiers.storage and self.variadic(node) is not None:
            self.cut_dots(node)

    def cut_dots(self, node: Declarator) -> None:
        """Takes `, ...` out of a declarator."""
        ellipsis = node.functions[0].ellipsis
        if ellipsis is not None:
            self.edits.cut(ellipsis - 1, ellipsis)

    def function(self, node: FunctionDefinition) -> None:
        """A definition, in whose body va_start stands for the address of the object."""
        name = node.declarator.name or ""
        if name not in self.defined or node.declarator.functions[0].ellipsis is None:
            return
        self.used.add(name)
        self.unit.count("variadic definition")
        for token in range(node.body.first, node.body.last):
            if self.tokens.values[token] == REST and self.tokens.kinds[token] == NAME:
                self.edits.replace(token, token, f"((char *)&{name}__rest)")

    def expression(self, node: Expression) -> None:
        """A call."""
        if node.kind != "call":
            return
        called = stripped(node.parts[0])
        symbol = called.symbol
        if called.kind != "name" or symbol is None or not may_take_more(symbol.type):
            return
        function = self.known.get(called.text)
        if function is None or len(node.parts) <= function.named + 1:
            return
        last, further = node.parts[function.named], node.parts[function.named + 1 :]
        if any(isinstance(part.type, Record) for part in further):
            self.unit.leave(node.first, "a struct among the further arguments of a call")
            return
        self.used.add(called.text)
        for part in further:
            self.edits.around(part.first, part.last, f"{called.text}__rest.p = (void *)(", ")")
        # f(a, z, x, y) becomes f(a, (.. x, .. y, z)).
        comma = last.last + 1
        self.edits.move(comma, comma, further[-1].last)
        self.edits.move(last.first, last.last, comma)
        self.edits.before(further[0].first, "(")
        self.edits.before(node.last, ")")

    def finish(self) -> None:
        """Declares the objects at the head of the unit."""
        if not self.used:
            return
        self.unit.heads.append(UNION)
        for name in sorted(self.used):
            is_here = name in self.defined
            word = "static " if self.known[name].is_static else "" if is_here else "extern "
            self.unit.heads.append(f"{word}union __rest {name}__rest;")


def may_take_more(kind: MaybeType) -> bool:
    """Whether a function may take further arguments, by what is known of its type."""
    return isinstance(kind, Function) and (kind.is_variadic or kind.parameters is None)


def variadic_functions(unit: Unit) -> dict[str, Variadic]:
    """The variadic functions that a unit defines."""
    static = {
        declarator.name
        for part in unit.parts
        if isinstance(part, Declaration) and "static" in part.specifiers.storage
        for declarator in part.declarators
    }
    found = {}
    for function in unit.functions():
        name, part = function.declarator.name or "", function.declarator.functions[0]
        if part.ellipsis is not None and part.parameters:
            is_static = "static" in function.specifiers.storage or name in static
            found[name] = Variadic(len(part.parameters), is_static)
    return found
