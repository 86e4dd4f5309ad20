"""Rewrites the texts of a run in their place, and says what was rewritten."""

from __future__ import annotations

from c.attributes import clear_attributes

from .failure import say
from .hints import OF_STRICT
from .refusals import Refusal
from .room import Room
from .texts import latin, read_text, write_text


def clear_texts(room: Room, files: list[str]) -> dict[int, Refusal]:
    """Takes attributes out of the texts; refuses those with a word that lays out data."""
    refused = {}
    for number, (path, file) in enumerate(zip(room.texts, files)):
        text = read_text(path)
        cleared = clear_attributes(text, latin(file))
        if cleared.word is not None and cleared.place is not None:
            name, line, column = cleared.place
            said = f"{cleared.word} changes the layout"
            refused[number] = Refusal(name.encode("latin-1"), line, column, "", said.encode())
        elif cleared.text != text:
            write_text(path, cleared.text)
            room.by_itself += [":".join(map(str, place)) for place in cleared.by_itself]
    return refused


class Changes:
    """Whether something was rewritten; and of texts, by their numbers, an undeclared name."""

    def __init__(self) -> None:
        self.is_changed = False
        self.undeclared: dict[int, Refusal] = {}
        # Texts that keep a form.
        self.left: set[int] = set()

    def instead_of(self, number: int, fault: Refusal) -> Refusal:
        """The fault that is told of a text: for a form that is kept, the undeclared name."""
        undeclared = self.undeclared.get(number)
        if undeclared is None:
            return fault
        is_kept = number in self.left and fault.code in OF_STRICT
        return undeclared if is_kept or fault[:4] == undeclared[:4] else fault


def rewrite_texts(room: Room, files: list[str], refused: dict[int, Refusal]) -> Changes:
    """Rewrites the texts. Those that are refused already stay as they are."""
    # What rewrites is read only where it is needed.
    from rewriting.forms import told
    from rewriting.program import rewrite

    numbers = [number for number in range(len(files)) if number not in refused]
    texts = [(latin(files[number]), read_text(room.texts[number])) for number in numbers]
    counts: dict[str, int] = {}
    changes = Changes()
    said_of: set[str] = set()
    for number, (_, before), after in zip(numbers, texts, rewrite(texts)):
        if after.left:
            changes.left.add(number)
            if after.left[0] not in said_of:
                say(f"left as it is: {after.left[0]}")
                said_of.add(after.left[0])
        if after.undeclared is not None:
            (name, line, column), word = after.undeclared
            said = f"undeclared name: {word}".encode()
            changes.undeclared[number] = Refusal(name.encode("latin-1"), line, column, "F8", said)
        if after.text != before:
            changes.is_changed = True
            write_text(room.texts[number], after.text)
        for form, count in after.counts.items():
            counts[form] = counts.get(form, 0) + count
    if counts:
        say(f"rewritten: {told(counts)}")
    return changes
