"""Blocks in expressions, `({ .. })` of GNU C, become expressions with commas.

Statements become operands, `if` becomes `?:`, and what is declared there is declared at the head of
the block around, by a name that no other has. Loops and jumps stay, and so are refused.
"""

from __future__ import annotations

from c.trees import Declaration, Declarator, Expression, Statement
from c.types import Array, Function, Record
from c.words import QUALIFIERS

from .small_forms import is_empty_asm
from .walk import Rewriting

NOTHING = "(void)0"


class InnerBlocks(Rewriting):
    """Rewrites blocks whose statements all have a form as an expression."""

    def expression(self, node: Expression) -> None:
        """A block in parentheses."""
        if node.kind != "block" or node.block is None:
            return
        outer = self.context.block()
        if outer is None or not all(self.has_form(item) for item in node.block.bodies):
            self.unit.leave(node.first, "a statement in an expression")
            return
        self.items(node.block)
        self.edits.cut(node.block.first, node.block.first)
        self.edits.replace(node.block.last, node.block.last, "" if node.block.bodies else NOTHING)
        self.unit.count("block in an expression")

    def has_form(self, node: Statement) -> bool:
        """Whether a statement has a form as an expression."""
        if node.kind == "asm":
            return is_empty_asm(self.tokens.values, node.first)
        if node.kind == "declaration" and node.declaration is not None:
            specifiers = node.declaration.specifiers
            return (
                not specifiers.storage - {"register", "auto"}
                and specifiers.body is None
                and node.declaration.assertion is None
                and not specifiers.is_tag_local
                and all(has_form_as_assignment(each) for each in node.declaration.declarators)
            )
        return node.kind in ("expression", "empty", "if", "block") and all(
            self.has_form(body) for body in node.bodies
        )

    def items(self, block: Statement) -> None:
        """The statements of a block, with commas between."""
        for item in block.bodies:
            self.item(item)
            if item is not block.bodies[-1]:
                self.edits.after(item.last, ",")

    def item(self, node: Statement) -> None:
        """A statement as an expression."""
        if node.kind == "expression":
            self.edits.cut(node.last, node.last)
        elif node.kind == "block":
            self.items(node)
            self.edits.replace(node.first, node.first, "(" if node.bodies else f"({NOTHING}")
            self.edits.replace(node.last, node.last, ")")
        elif node.kind == "if":
            self.choice(node)
        elif node.kind == "declaration" and node.declaration is not None:
            self.assignments(node.declaration)
        else:
            self.edits.replace(node.first, node.last, NOTHING)

    def choice(self, node: Statement) -> None:
        """`if` as `?:`, both of whose results are void."""
        condition = node.expressions[0]
        if condition is None:
            return
        for body in node.bodies:
            self.item(body)
        self.edits.replace(node.first, node.first, "(")
        self.edits.after(condition.last + 1, "? (void)(")
        if len(node.bodies) == 2:
            between = node.bodies[0].last + 1
            self.edits.replace(between, between, ") : (void)(")
            self.edits.after(node.last, "))")
        else:
            self.edits.after(node.last, f") : {NOTHING})")

    def assignments(self, node: Declaration) -> None:
        """A declaration: its objects move to the block around, and are set here."""
        outer = self.context.block()
        words = self.edits.text_of(node.specifiers.first, node.specifiers.last).split()
        text = " ".join(word for word in words if word not in QUALIFIERS)
        for declarator in node.declarators:
            symbol, values = declarator.symbol, declarator.values
            if symbol is None or outer is None:
                continue
            name = self.unit.new_name(symbol.name)
            for use in {declarator.token, *symbol.uses}:
                self.edits.replace(use, use, name)
            last = declarator.last if values is None else values.first - 2
            self.edits.after(outer.first, f"{text} {self.edits.text_of(declarator.first, last)};")
            self.edits.replace(declarator.first, last, NOTHING if values is None else name)
        self.edits.cut(node.specifiers.first, node.specifiers.last)
        self.edits.replace(node.last, node.last, "" if node.declarators else NOTHING)


def has_form_as_assignment(node: Declarator) -> bool:
    """Whether an object may be declared apart from what it starts as."""
    if node.symbol is None or node.symbol.hides_type or isinstance(node.type, Function):
        return False
    if node.values is None:
        return True
    return node.values.expression is not None and not isinstance(node.type, (Array, Record))
