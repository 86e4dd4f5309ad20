"""Static objects of functions that are copied go before the function, so that all copies share them.

Each keeps its place and what it starts with; only its name is another, as `f__x__1` of `x` in `f`.
"""

from __future__ import annotations

from c.fresh import FreshNames

from .functions import Candidate


class Lifted:
    """The names that the objects of a function get, and where these stand."""

    def __init__(self, candidate: Candidate, fresh: FreshNames) -> None:
        self.declarations = candidate.statics
        # New spellings of all tokens that mean these objects.
        self.names: dict[int, str] = {}
        for declaration in self.declarations:
            for declarator in declaration.declarators:
                name = fresh.make(f"{candidate.name}__{declarator.name}")
                self.names[declarator.token] = name
                if declarator.symbol is not None:
                    self.names.update((use, name) for use in declarator.symbol.uses)

    def edits(self) -> dict[int, str]:
        """What changes in the function: the declarations go, and the objects have their names."""
        cut = {
            token: ""
            for declaration in self.declarations
            for token in range(declaration.first, declaration.last + 1)
        }
        return {**self.names, **cut}
