"""Static assertions (C11 6.7.10) fall: they have no effect on what a program does.

One that is known to be false stays, and so is refused.
"""

from __future__ import annotations

from c.constants import value_of
from c.trees import Declaration

from .walk import Rewriting


class Assertions(Rewriting):
    """Takes them out, at file scope, in blocks and in structs."""

    def declaration(self, node: Declaration) -> None:
        """A static assertion."""
        if node.assertion is None:
            return
        if value_of(node.assertion) == 0:
            self.unit.leave(node.first, "an assertion that is false")
            return
        self.edits.cut(node.first, node.last)
        self.unit.count("static assertion")
