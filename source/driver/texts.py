"""The preprocessed texts of a run, and the words of files, as text whose characters are bytes."""

from __future__ import annotations

import os


def read_text(path: str) -> str:
    """A text; each byte is a character."""
    with open(path, encoding="latin-1", newline="") as file:
        return file.read()


def write_text(path: str, text: str) -> None:
    """Writes a text so."""
    with open(path, "w", encoding="latin-1", newline="") as file:
        file.write(text)


def latin(file: str) -> str:
    """The word of a file with a character for each byte."""
    return os.fsencode(file).decode("latin-1")
