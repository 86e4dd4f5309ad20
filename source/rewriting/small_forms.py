"""Small forms of C99 and GNU C that have the same meaning in other words of C90."""

from __future__ import annotations

from typing import Optional

from c.constants import offset_of, value_of
from c.rules import stripped, value_type
from c.trees import (
    Declaration, Declarator, EnumBody, Expression, FunctionDefinition, Specifiers, Statement,
)
from c.words import ASSEMBLY

from .spelled import spelled
from .walk import Rewriting

# How many labels a range of `case` may become.
MAX_CASES = 256
# What may be evaluated twice with the same value and no effect.
REPEATABLE = frozenset(["name", "number", "character", "member", "index", "parenthesis", "binary"])


class SmallForms(Rewriting):
    """Commas, labels, ranges, names of functions, offsets, types that aren't written."""

    def constants(self, node: EnumBody) -> None:
        """A comma before the brace falls."""
        if self.tokens.values[node.close - 1] == ",":
            self.edits.cut(node.close - 1, node.close - 1)
            self.unit.count("comma at the end of an enum")

    def statement(self, node: Statement) -> None:
        """A label at the end of a block, or a range of cases."""
        if node.kind == "case" and len(node.expressions) == 2:
            self.case_range(node)
        if node.kind in ("label", "case", "default") and not node.bodies:
            self.edits.after(node.last, ";")
            self.unit.count("label at the end of a block")

        if node.kind == "asm" and is_empty_asm(self.tokens.values, node.first):
            self.edits.replace(node.first, node.last, ";")
            self.unit.count("empty asm")

    def case_range(self, node: Statement) -> None:
        """`case 1 ... 3:` becomes a label for each number."""
        first, last = node.expressions
        if first is None or last is None:
            return
        low, high = value_of(first), value_of(last)
        if low is None or high is None or not low <= high < low + MAX_CASES:
            self.unit.leave(node.first, "a range of cases that isn't known")
            return
        others = " ".join(f"case {value}:" for value in range(low + 1, high + 1))
        self.edits.cut(first.last + 1, last.last)
        self.edits.after(last.last + 1, others)
        self.unit.count("range of cases")

    def expression(self, node: Expression) -> None:
        """The name of the function, `a ?: b`, or an offset."""
        if node.kind == "function name" and self.context.function is not None:
            name = self.context.function.declarator.name
            self.edits.replace(node.first, node.last, f'"{name}"')
            self.unit.count("name of a function")
        elif node.kind == "conditional" and len(node.parts) == 2:
            self.missing_middle(node)
        elif node.kind == "binary" and node.text == "%" and offset_of(node) is not None:
            self.edits.replace(node.first, node.last, f"{offset_of(node)}ul")
            self.unit.count("offset")

    def missing_middle(self, node: Expression) -> None:
        """`a ?: b` becomes `a ? a : b`; where `a` has an effect, an object keeps its value."""
        condition = node.parts[0]
        text = f"({self.edits.copy_of(condition.first, condition.last)})"
        if not is_repeatable(condition):
            kind, block = spelled(value_type(condition)), self.context.block()
            if kind is None or block is None:
                self.unit.leave(node.first, "a ?: whose condition has an effect")
                return
            text = self.unit.new_name("condition")
            self.edits.after(block.first, f"{kind} {text};")
            self.edits.around(condition.first, condition.last, f"({text} = (", "))")
        self.edits.after(condition.last + 1, text)
        self.unit.count("condition without a middle")

    def declaration(self, node: Declaration) -> None:
        """A declaration that writes no type declares an `int`."""
        if node.declarators:
            self.written_type(node.specifiers, node.declarators[0])

    def function(self, node: FunctionDefinition) -> None:
        """The same of a function."""
        self.written_type(node.specifiers, node.declarator)

    def written_type(self, specifiers: Specifiers, declarator: Declarator) -> None:
        """Writes `int` where no type is written."""
        if specifiers.is_implicit:
            self.edits.before(declarator.first, "int")
            self.unit.count("type left out")


def is_repeatable(node: Optional[Expression]) -> bool:
    """Whether an expression has no effect."""
    if node is None:
        return False
    if node.kind not in REPEATABLE and not (node.kind == "unary" or node.kind == "cast"):
        return False
    return all(is_repeatable(part) for part in stripped(node).parts)


def is_empty_asm(values: list[str], token: int) -> bool:
    """Whether an `asm` has an empty text and no output."""
    while values[token] in ASSEMBLY or values[token] in ("volatile", "__volatile__", "("):
        token += 1
    return values[token] == '""' and values[token + 1 : token + 3] in ([":", ":"], [")", ";"])
