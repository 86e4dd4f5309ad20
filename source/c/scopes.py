"""What names and tags stand for, scope inside scope (C90 6.1.2.1)."""

from __future__ import annotations

from typing import Optional

from .trees import Symbol
from .types import MaybeType, Record


class Scopes:
    """The scopes around a place, from that of the file inwards."""

    def __init__(self) -> None:
        self.names: list[dict[str, Symbol]] = [{}]
        self.tags: list[dict[str, Optional[Record]]] = [{}]

    def enter(self) -> None:
        """Enters a scope."""
        self.names.append({})
        self.tags.append({})

    def leave(self) -> None:
        """Leaves the innermost scope."""
        self.names.pop()
        self.tags.pop()

    def leave_to(self, depth: int) -> None:
        """Leaves all scopes but that many."""
        del self.names[depth:]
        del self.tags[depth:]

    def find(self, name: str) -> Optional[Symbol]:
        """What a name stands for."""
        for names in reversed(self.names):
            if name in names:
                return names[name]
        return None

    def is_type(self, name: str) -> bool:
        """Whether a name is that of a type."""
        symbol = self.find(name)
        return symbol is not None and symbol.kind == "typedef"

    def declare(self, kind: str, name: str, type_: MaybeType) -> Symbol:
        """Declares a name in the innermost scope."""
        symbol = Symbol(kind, name, type_)
        symbol.depth = len(self.names) - 1
        symbol.hides_type = kind != "typedef" and self.is_type(name)
        self.names[-1][name] = symbol
        return symbol

    def bind(self, symbol: Symbol) -> None:
        """Makes a name stand for what it stood for elsewhere."""
        symbol.depth = len(self.names) - 1
        self.names[-1][symbol.name] = symbol

    def is_local(self, tag: str) -> bool:
        """Whether a tag is that of a block."""
        return any(tag in tags for tags in self.tags[1:])

    def tagged(self, word: str, tag: str, is_new: bool) -> Optional[Record]:
        """The record of a tag; a new one where it isn't known, or is declared anew."""
        if not is_new:
            for tags in reversed(self.tags):
                if tag in tags:
                    return tags[tag]
        elif tag in self.tags[-1]:
            known = self.tags[-1][tag]
            if known is not None and known.word == word:
                return known
        self.tags[-1][tag] = Record(word, tag) if word != "enum" else None
        return self.tags[-1][tag]
