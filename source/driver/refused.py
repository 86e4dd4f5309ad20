"""What is done with texts that the program refuses: rewriting, each file's first fault, hints."""

from __future__ import annotations

import os

from .analysis import Answer, analysed
from .failure import REFUSED
from .hints import hint_for
from .programs import hint_of_programs
from .progress import Progress
from .refusals import OF_THE_WHOLE, Refusal, first_faults, read_refusal, with_name
from .rewriter import Changes, clear_texts, rewrite_texts
from .room import Room
from .words import Request

# What two files may have that don't belong together.
OF_TWO_FILES = frozenset(["F23", "F24"])


class RefusedTexts:
    """Texts that are refused as they are, or that have words to be looked at."""

    def __init__(self, room: Room, files: list[str], request: Request) -> None:
        self.room = room
        self.files = files
        self.request = request

    def answer(self, first: tuple[int, bytes] | None) -> Answer:
        """The answer over the texts as they are, where it isn't known, and then rewritten."""
        refused = {} if first is not None else clear_texts(self.room, self.files)
        status, answer = (REFUSED, b"")
        if not refused:
            status, answer = first or analysed(self.room, self.request)
        fault = read_refusal(answer)
        changes = Changes()
        if status == REFUSED and not self.request.is_strict and not is_of_the_whole(fault):
            with Progress("rewriting"):
                changes = rewrite_texts(self.room, self.files, refused)
            if changes.is_changed and not refused:
                status, answer = analysed(self.room, self.request)
                fault = read_refusal(answer)
        if status != REFUSED:
            return Answer(status, [(answer, None)])
        faults = refused
        if len(self.room.texts) > 1 and not is_of_the_whole(fault):
            faults = first_faults(os.environ["SPARROW_PROGRAM"], self.room, refused)
        if not faults and fault is not None:
            faults = {0: fault}
        told = [self.told(changes.instead_of(*fault)) for fault in faults.items()]
        # A fault in a header is one fault, however many files include it.
        return Answer(status, list(dict.fromkeys(told)) or [(answer, None)])

    def told(self, refusal: Refusal) -> tuple[bytes, str | None]:
        """The line of a refusal, and what may help."""
        line = with_name(refusal, self.room.texts).bytes()
        hint = hint_for(refusal, self.room.texts, self.request.is_strict)
        if refusal.code in OF_TWO_FILES:
            hint = hint_of_programs(self.room.texts, self.files, self.request) or hint
        return self.with_source(line), hint

    def with_source(self, line: bytes) -> bytes:
        """A line of refusal with the word of a source, where it begins with that of its text."""
        for text, file in zip(self.room.texts, self.files):
            beginning = os.fsencode(text) + b":"
            if line.startswith(beginning):
                return os.fsencode(file) + b":" + line[len(beginning) :]
        return line


def is_of_the_whole(fault: Refusal | None) -> bool:
    """Whether no file alone has a fault."""
    return fault is not None and fault.code in OF_THE_WHOLE
