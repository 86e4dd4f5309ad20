"""The place that a reader has come to, and what it asks of other readers."""

from __future__ import annotations

from abc import ABC, abstractmethod
from typing import Optional

from .scopes import Scopes
from .tokens import NAME, Tokens, Unreadable
from .trees import Declaration, Initialiser, Statement, TypeName
from .words import ASSERTION, SPECIFIERS, STRANGE


class Cursor(ABC):
    """Reads tokens in order."""

    def __init__(self, tokens: Tokens) -> None:
        self.tokens = tokens
        self.kinds = tokens.kinds
        self.values = tokens.values
        self.at = 0
        self.scopes = Scopes()
        # The first call of each function that isn't declared there.
        self.implicit: dict[str, int] = {}
        # The first name that isn't declared, as far as all parts before it are read.
        self.undeclared: Optional[int] = None
        self.is_whole = True

    def expect(self, value: str) -> int:
        """Goes past a token of that spelling, and gives its number."""
        if self.values[self.at] != value:
            raise self.unreadable(f"no '{value}' there")
        self.at += 1
        return self.at - 1

    def accept(self, value: str) -> bool:
        """Goes past a token where it has that spelling."""
        if self.values[self.at] == value:
            self.at += 1
            return True
        return False

    def unreadable(self, text: str) -> Unreadable:
        """What is raised at this token."""
        return Unreadable(self.at, text)

    def starts_type(self, token: int) -> bool:
        """Whether a declaration may begin at a token."""
        value = self.values[token]
        if self.kinds[token] != NAME:
            return False
        is_word = value in SPECIFIERS or value in STRANGE or value == ASSERTION
        return is_word or self.scopes.is_type(value)

    def note_undeclared(self, token: int) -> None:
        """Notes a name that isn't declared. Behind a part that isn't read none is for certain."""
        if self.is_whole and self.undeclared is None:
            self.undeclared = token

    @abstractmethod
    def type_name(self) -> TypeName:
        """Reads a type name (C90 6.5.5)."""

    @abstractmethod
    def initialiser(self) -> Initialiser:
        """Reads an initialiser (C90 6.5.7, C99 6.7.8)."""

    @abstractmethod
    def declaration(self) -> Declaration:
        """Reads a declaration (C90 6.5)."""

    @abstractmethod
    def statement(self) -> Statement:
        """Reads a statement (C90 6.6)."""

    @abstractmethod
    def block(self, is_scope: bool = True) -> Statement:
        """Reads a block (C90 6.6.2)."""
