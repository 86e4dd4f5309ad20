"""What is said of functions from outside that may write through a pointer which they are given."""

from __future__ import annotations

from .room import Room
from .texts import read_text


def notes_on(room: Room) -> list[str]:
    """What is said of functions from outside, and of those that the system calls by itself."""
    return note_on_calls(room) + note_on_outside(room)


def told(names: list[str], one: str, many: str) -> str:
    """How many there are, what is said of one or of many, and which they are."""
    return f"{len(names)} {one if len(names) == 1 else many}: {', '.join(names)}"


def note_on_calls(room: Room) -> list[str]:
    """The note on functions with an attribute by which the system calls them."""
    places = list(dict.fromkeys(room.by_itself))
    if not places:
        return []
    return [told(
        places,
        "function is a constructor or destructor, which nothing here calls",
        "functions are constructors or destructors, which nothing here calls",
    )]


def note_on_outside(room: Room) -> list[str]:
    """The note on the functions from outside that the texts give a pointer."""
    from outside.words import may_call_others

    texts = room.uncopied or [read_text(path) for path in room.texts]
    if not any(map(may_call_others, texts)):
        return []
    from outside.program import given_pointers

    names = given_pointers(texts)
    if not names:
        return []
    return [told(
        names,
        "function from outside was given a pointer and is taken to write nothing",
        "functions from outside were given a pointer and are taken to write nothing",
    )]
