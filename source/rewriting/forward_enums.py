"""An enumerated type that is named before its constants, as GNU C allows, is an `int` until then.

So it is for the analysis anyway: enumerated types are `int`.
"""

from __future__ import annotations

from c.tokens import NAME
from c.words import RESERVED

from .walk import Rewriting

ALONE = frozenset([";", "{", "}", ""])


class ForwardEnums(Rewriting):
    """Looks at all tokens before the walk."""

    def prepare(self) -> None:
        """A tag is known from the first place on at which its constants stand."""
        kinds, values = self.tokens.kinds, self.tokens.values
        known: set[str] = set()
        for token in range(self.tokens.count - 2):
            tag = token + 1
            if values[token] != "enum" or kinds[tag] != NAME or values[tag] in RESERVED:
                continue
            if values[tag + 1] == "{":
                known.add(values[tag])
            elif values[tag] not in known:
                before = values[token - 1] if token > 0 else ""
                is_alone = values[tag + 1] == ";" and before in ALONE
                self.edits.replace(token, token, "" if is_alone else "int")
                self.edits.cut(tag, tag + 1 if is_alone else tag)
                self.unit.count("enum before its constants")
