"""The texts as they are prepared for the analysis, where these are accepted."""

from __future__ import annotations

from .room import Room
from .texts import read_text, write_text


class Preparing:
    """Prepares the texts of a run. The texts before are kept."""

    def __init__(self, room: Room, with_models: bool) -> None:
        from prepared.program import prepared

        self.room = room
        self.before = [read_text(path) for path in room.texts]
        texts = prepared(list(zip(room.texts, self.before)), with_models)
        self.is_done = texts is not None
        if texts is not None:
            self.write(texts)

    def write(self, texts: list[str]) -> None:
        """Writes the texts."""
        for path, text in zip(self.room.texts, texts):
            write_text(path, text)

    def take_back(self) -> None:
        """Makes the texts what they were."""
        self.write(self.before)
        self.is_done = False
