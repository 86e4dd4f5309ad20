"""Declarations behind statements, and in the head of a `for`, get a block of their own."""

from __future__ import annotations

from c.trees import Statement

from .walk import Rewriting


class Blocks(Rewriting):
    """Puts braces; the places of what they hold stay."""

    def statement(self, node: Statement) -> None:
        """A block, or a `for` with a declaration."""
        if any(id(block) in self.context.inner for block in self.context.blocks):
            return
        if node.kind == "block":
            self.block(node)
        elif node.kind == "for" and node.declaration is not None:
            first, last = node.declaration.first, node.declaration.last
            # The declaration goes before the word; a semicolon stays for the missing expression.
            self.edits.move_before(first, last, node.first)
            self.edits.before(node.first, "{")
            self.edits.after(node.first + 1, ";")
            self.edits.after(node.last, "}")
            self.unit.count("declaration in a for")

    def block(self, node: Statement) -> None:
        """A block: each declaration behind a statement opens one that ends where this one does."""
        opened = 0
        is_behind = False
        for item in node.bodies:
            if item.kind != "declaration":
                is_behind = True
            elif is_behind:
                self.edits.before(item.first, "{")
                self.unit.count("declaration behind a statement")
                opened += 1
                is_behind = False
        if opened:
            self.edits.before(node.last, "}" * opened)
