"""Types that a function declares stand before it, and names that hide a type's become others."""

from __future__ import annotations

from typing import Optional

from c.trees import Declaration, Declarator, EnumBody, FunctionDefinition, Specifiers, Symbol

from .walk import Rewriting


class Names(Rewriting):
    """Renames what the block's scope alone would keep apart."""

    def prepare(self) -> None:
        """Nothing is moved yet."""
        # The last token of what was moved before the function that is walked through.
        self.moved: Optional[int] = None

    def declaration(self, node: Declaration) -> None:
        """A typedef in a function goes before it, with a name that no other has."""
        function = self.context.function
        if function is None or "typedef" not in node.specifiers.storage:
            return
        if not may_move(node.specifiers):
            self.unit.leave(node.first, "a typedef of a tag in a function")
            return
        for declarator in node.declarators:
            if declarator.symbol is not None and declarator.name is not None:
                self.rename(declarator.token, declarator.symbol)
        body = node.specifiers.body
        if isinstance(body, EnumBody):
            for token, symbol in body.symbols:
                self.rename(token, symbol)
        if self.moved is None:
            self.edits.move_before(node.first, node.last, function.first)
        else:
            self.edits.move(node.first, node.last, self.moved)
        self.moved = node.last
        self.unit.count("typedef in a function")

    def declarator(self, node: Declarator, specifiers: Specifiers) -> None:
        """An object or parameter whose name is that of a type outside."""
        symbol = node.symbol
        if symbol is None or not symbol.hides_type or node.token < 0:
            return
        if symbol.kind == "object" and "extern" not in specifiers.storage:
            self.rename(node.token, symbol)
            self.unit.count("name that hides a type")

    def rename(self, token: int, symbol: Symbol) -> None:
        """Gives a name that the unit doesn't have to all that means the symbol."""
        name = self.unit.new_name(symbol.name)
        for use in {token, *symbol.uses}:
            self.edits.replace(use, use, name)

    def function(self, node: FunctionDefinition) -> None:
        """What follows has types of its own."""
        self.moved = None


def may_move(specifiers: Specifiers) -> bool:
    """Whether specifiers mean the same at file scope: they have no tag of a block."""
    if specifiers.is_tag_local:
        return False
    if isinstance(specifiers.body, EnumBody):
        return specifiers.tag < 0
    if specifiers.body is None:
        return True
    # Constants among the members aren't renamed.
    return all(
        may_move(member.specifiers) and not isinstance(member.specifiers.body, EnumBody)
        for member in specifiers.body.members
    )
