"""`_Generic` becomes the expression that it chooses."""

from __future__ import annotations

from c.trees import Expression

from .walk import Rewriting


class Generics(Rewriting):
    """Takes out what isn't chosen; nothing of it is evaluated (C11 6.5.1.1)."""

    def expression(self, node: Expression) -> None:
        """A `_Generic`."""
        if node.kind != "generic":
            return
        if not node.parts:
            self.unit.leave(node.first, "a _Generic whose type isn't known exactly")
            return
        chosen = node.parts[0]
        self.edits.replace(node.first, chosen.first - 1, "(")
        self.edits.replace(chosen.last + 1, node.last, ")")
        self.unit.count("_Generic")
