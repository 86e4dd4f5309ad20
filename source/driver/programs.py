"""Files of several programs that are given as one: their functions `main` tell."""

from __future__ import annotations

from typing import Optional

from c.tokens import NAME, Tokens, Unreadable

from .texts import read_text
from .words import Request


def hint_of_programs(texts: list[str], files: list[str], request: Request) -> Optional[str]:
    """What is said where a file is given twice, or more than one has a `main`."""
    for number, file in enumerate(files):
        if file in files[:number]:
            return f"{file} is given twice"
    found = [file for text, file in zip(texts, files) if defines_main(read_text(text))]
    if len(found) < 2:
        return None
    said = f"{found[0]} and {found[1]} have a main each"
    if request.database is None or request.target is not None:
        return f"{said}: give the files of one program"
    from .database import choices_in

    return f"{said}: {choices_in(request.database)}"


def defines_main(text: str) -> bool:
    """Whether a text has a function `main` with a body."""
    if "main" not in text:
        return False
    tokens = Tokens(text)
    for token in range(tokens.count):
        if tokens.values[token] == "main" and tokens.values[token + 1] == "(":
            try:
                behind = tokens.matching(token + 1) + 1
            except Unreadable:
                return False
            # The body, or the declarations of old-style parameters.
            if tokens.values[behind] == "{" or tokens.kinds[behind] == NAME:
                return True
    return False
