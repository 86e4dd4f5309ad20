"""Words of a compiler's command that say what it writes, and where. Here they fall away."""

from __future__ import annotations

from .failure import USAGE, Failure

# What is written: assembly, dependencies, a text without markers.
KINDS = frozenset(["-c", "-E", "-S", "-P", "-M", "-MM", "-MD", "-MMD", "-MP", "-MG"])
# Where: the argument is in the same word or the next one.
PLACES = ("-MF", "-MQ", "-MT", "-o")
PASSED_ON = "-Wp,-M"
# What would be preprocessed is a list of macros, or a text with their definitions.
LISTING = "-d"


def words_of_output(word: str) -> int:
    """How many words fall away from this one on. One that asks for another text is told."""
    if word.startswith(LISTING):
        raise Failure(USAGE, f"{word} asks for another text than the program's")
    if word in PLACES:
        return 2
    return int(word in KINDS or word.startswith((*PLACES, PASSED_ON)))
