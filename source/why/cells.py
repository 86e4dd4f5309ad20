"""The locations that an expression names, as `--values` spells them."""

from __future__ import annotations

from c.constants import value_of
from c.trees import Expression, Symbol
from c.types import Array, Function

from .values import Uses

ARITHMETIC = frozenset("+ - * / % << >> & | ^".split())


def qualified(symbol: Symbol, function: str) -> str:
    """The name of an object: a local one's has that of its function before it."""
    return symbol.name if symbol.depth == 0 else f"{function}.{symbol.name}"


class Cells:
    """The locations of expressions in a function, by what is used near them."""

    def __init__(self, function: str, uses: Uses) -> None:
        self.function = function
        self.uses = uses

    def named(self, node: Expression) -> list[str]:
        """The locations of an lvalue."""
        if node.kind == "name" and node.symbol is not None and node.symbol.kind == "object":
            return [qualified(node.symbol, self.function)]
        if node.kind == "parenthesis":
            return self.named(node.parts[0])
        if node.kind == "member":
            record = node.parts[0]
            found = self.pointed(record) if node.text == "->" else self.named(record)
            path = "".join(f".{member.name}" for member in node.path if member.name)
            return [location + path for location in found]
        if node.kind == "index":
            return self.pointed(node.parts[0]) or self.pointed(node.parts[1])
        if node.kind == "unary" and node.text == "*":
            return self.pointed(node.parts[0])
        return []

    def pointed(self, node: Expression) -> list[str]:
        """The regions to which the value of an expression points."""
        if isinstance(node.type, Array):
            return [f"{location}[]" for location in self.named(node)]
        if node.kind == "unary" and node.text == "&":
            return self.named(node.parts[0])
        found: dict[str, None] = {}
        for location in self.read(node):
            value = self.uses.get(location)
            found.update((target.region, None) for target in (value.targets if value else ()))
        if node.kind == "binary":
            for part in node.parts:
                if isinstance(part.type, Array):
                    found.update((region, None) for region in self.pointed(part))
        return list(found)

    def read(self, node: Expression) -> list[str]:
        """The locations whose values an expression's value is made of."""
        if node.kind in ("name", "member", "index") or (node.kind == "unary" and node.text == "*"):
            return [] if isinstance(node.type, Array) else self.named(node)
        if node.kind == "call":
            return [f"{name}.%ret" for name in self.called(node.parts[0])]
        parts: list[Expression] = []
        if node.kind in ("parenthesis", "cast", "postfix", "prefix"):
            parts = node.parts
        elif node.kind == "unary" and node.text in ("-", "+", "~"):
            parts = node.parts
        elif node.kind == "comma" or (node.kind == "assign" and node.text == "="):
            parts = node.parts[-1:]
        elif node.kind == "conditional":
            parts = node.parts[1:]
        elif node.kind == "assign" or (node.kind == "binary" and node.text in ARITHMETIC):
            parts = node.parts
        return list(dict.fromkeys(each for part in parts for each in self.read(part)))

    def called(self, node: Expression) -> list[str]:
        """The functions that a call of an expression may call."""
        if node.kind == "parenthesis":
            return self.called(node.parts[0])
        if is_function(node):
            return [node.text]
        if node.kind == "unary" and node.text in ("*", "&") and isinstance(node.type, Function):
            return self.called(node.parts[0])
        return self.pointed(node)


def is_function(node: Expression) -> bool:
    """Whether an expression is a function's name."""
    return node.kind == "name" and (node.symbol is None or node.symbol.kind == "function")


def computes(node: Expression) -> bool:
    """Whether the value of an expression is another than those of what it reads."""
    if node.kind in ("postfix", "prefix") or (node.kind == "unary" and node.text in ("-", "~")):
        return True
    if node.kind in ("parenthesis", "cast"):
        return computes(node.parts[0])
    if node.kind == "conditional":
        return any(map(computes, node.parts[1:]))
    if node.kind in ("binary", "assign"):
        plain = node.kind == "assign" and node.text == "="
        return computes(node.parts[1]) if plain else node.text.rstrip("=") in ARITHMETIC
    return node.kind == "comma" and computes(node.parts[-1])


def constants(node: Expression) -> list[int]:
    """The constants that an expression's value may be."""
    value = value_of(node)
    if value is not None:
        return [value]
    if node.kind in ("parenthesis", "cast"):
        return constants(node.parts[0])
    if node.kind == "conditional":
        return [each for part in node.parts[1:] for each in constants(part)]
    is_last = node.kind == "comma" or (node.kind == "assign" and node.text == "=")
    return constants(node.parts[-1]) if is_last else []


def calls(node: Expression) -> list[Expression]:
    """The calls whose results an expression's value may be."""
    if node.kind == "call":
        return [node]
    if node.kind in ("parenthesis", "cast"):
        return calls(node.parts[0])
    if node.kind == "conditional":
        return [each for part in node.parts[1:] for each in calls(part)]
    return calls(node.parts[-1]) if node.kind in ("comma", "assign") else []
