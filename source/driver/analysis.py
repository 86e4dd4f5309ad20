"""The program's answer over preprocessed texts."""

from __future__ import annotations

import os

from .failure import REFUSED, say
from .processes import run
from .progress import Progress
from .room import Room
from .words import Request

# A text without these bytes has no word that could lay out data.
WORDS = (b"__attribute", b"_Alignas", b"pragma", b"[[", b"[ [")


class Answer:
    """The status, and the parts of an answer, each with what is said behind it."""

    def __init__(self, status: int, parts: list[tuple[bytes, str | None]]) -> None:
        self.status = status
        self.parts = parts
        # What is said of the run as a whole.
        self.notes: list[str] = []


def answer_over(room: Room, files: list[str], request: Request) -> Answer:
    """The answer over the texts of files. They are rewritten where they are refused."""
    first = None
    if not any(has_words(text) for text in room.texts):
        first = analysed(room, request)
        if first[0] != REFUSED:
            return Answer(first[0], [(first[1], None)])
    # What follows is read only where it is needed.
    from .refused import RefusedTexts

    return RefusedTexts(room, files, request).answer(first)


def has_words(text: str) -> bool:
    """Whether a text may have words that lay out data."""
    with open(text, "rb") as file:
        content = file.read()
    return any(word in content for word in WORDS)


def analysed(room: Room, request: Request) -> tuple[int, bytes]:
    """Status and answer over the texts as they are now, or as they are prepared where that is
    accepted."""
    if request.is_strict:
        return run_program(room, request)
    from .preparing import Preparing

    with Progress("preparing"):
        preparing = Preparing(room, request.has_models)
    answer = with_copies(room, request)
    if not preparing.is_done or answer[0] != REFUSED:
        return answer
    preparing.take_back()
    plain = with_copies(room, request)
    if plain[0] != REFUSED:
        # What was put in is wrong, whatever was overlooked.
        first = answer[1].decode("latin-1").partition("\n")[0]
        say(f"no models of the library: with them it is {first}")
    return plain


def with_copies(room: Room, request: Request) -> tuple[int, bytes]:
    """Status and answer over the texts as they are now, or with copies where these are accepted."""
    if request.copied is None:
        return run_program(room, request)
    from .copying import Copying

    with Progress("copying"):
        copying = Copying(room, request.copied)
    answer = run_program(room, request)
    if copying.is_done and answer[0] == REFUSED:
        copying.take_back()
        return run_program(room, request)
    if answer[0] != REFUSED:
        copying.tell()
    return answer


def run_program(room: Room, request: Request) -> tuple[int, bytes]:
    """Status and answer over the texts."""
    report = room.path("report")
    program = os.environ["SPARROW_PROGRAM"]
    with Progress("analysing"):
        status = run([program, "analyse", *request.asked, "--", *room.texts], output=report)
    with open(report, "rb") as file:
        return status, file.read()
