"""What formats write of a warning and of a refusal."""

from __future__ import annotations

from typing import Optional

from .folding import Finding
from .shown import shown
from .spots import Spot

class Item:
    """A warning with its place in the source, where that is known, and its sentence."""

    def __init__(self, finding: Finding, name: str, spot: Optional[Spot], message: str) -> None:
        self.finding = finding
        # A character of the name is a byte.
        self.name = name
        self.spot = spot
        self.message = message
        self.line = finding.place.line if spot is None else spot.line
        self.column = finding.place.column if spot is None else spot.start + 1
        self.fingerprint = ""
        self.state: Optional[str] = None
        # Why a comment in its line says that it is to be ignored.
        self.justification: Optional[str] = None
        # The location that its cause gives a value, and what is said of that; and the places of the
        # cause and of the steps from it.
        self.cause: Optional[tuple[str, str]] = None
        self.notes: list[Item] = []
        # Where the objects are declared, or allocated, that it may be about.
        self.objects: list[Item] = []

    @property
    def place(self) -> tuple[str, int, int]:
        """The place that is told."""
        return self.name, self.line, self.column

    @property
    def kind(self) -> str:
        """The kind of the warning."""
        return self.finding.kind

    @property
    def file(self) -> str:
        """The name of the file, as text."""
        return shown(self.name)


class Refused:
    """A refusal with its place, its code if it has one, and what may help."""

    def __init__(self, item: Item, code: str, hint: Optional[str]) -> None:
        self.item = item
        self.code = code
        self.hint = hint
