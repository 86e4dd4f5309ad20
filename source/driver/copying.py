"""The texts with copies of functions for each call, where that tells more and is accepted."""

from __future__ import annotations

from .failure import say
from .room import Room
from .texts import read_text, write_text

# A text without such a call has no allocation to be wrapped. A declaration has a `*` before.
WORDS = ("alloc", "strdup")
ALLOCATION = r"[^\s*]\s*\b(?:malloc|calloc|realloc|strdup)\s*\("


class Copying:
    """Puts copies into the texts of a run. The texts before are kept."""

    def __init__(self, room: Room, size: int) -> None:
        self.room = room
        self.before = room.uncopied = [read_text(path) for path in room.texts]
        self.is_done = False
        self.left: dict[str, int] = {}
        if size > 0 or any(map(has_allocation, self.before)):
            self.copy(size)

    def copy(self, size: int) -> None:
        """Copies what there is to copy."""
        from contexts.program import with_copies

        from .indirect import targets_in

        texts = list(zip(self.room.texts, self.before))
        copied = with_copies(texts, size, lambda: targets_in(self.room))
        if copied is None:
            return
        self.left = copied.left
        if copied.made:
            self.write(copied.texts)
            self.is_done = True

    def write(self, texts: list[str]) -> None:
        """Writes the texts."""
        for path, text in zip(self.room.texts, texts):
            write_text(path, text)

    def take_back(self) -> None:
        """Makes the texts what they were."""
        self.write(self.before)
        self.is_done = False

    def tell(self) -> None:
        """Says which calls have no copy for want of room."""
        if self.left:
            names = ", ".join(f"{name} ({count})" for name, count in sorted(self.left.items()))
            say(f"no room for copies of the functions of some calls: {names}")


def has_allocation(text: str) -> bool:
    """Whether a text may call what gives a block."""
    if not any(word in text for word in WORDS):
        return False
    # It takes a while to load.
    import re

    return re.search(ALLOCATION, text) is not None
