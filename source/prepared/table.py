"""The models of library.c, as they are written there."""

from __future__ import annotations

import os
import re
from typing import NamedTuple

COMMENT = re.compile(r"/\*.*?\*/", re.DOTALL)
HEAD = re.compile(r"\s*([\w \*]+?)(\w+)\((.*)\)\s*\{", re.DOTALL)
PARAMETER = re.compile(r"(.*?)(\w+)")
# A parameter of qsort and bsearch.
COMPARISON = "COMPARISON"
COMPARE = "compare"


class Parameter(NamedTuple):
    """A parameter: its type and its name."""

    type: str
    name: str

    @property
    def is_pointer(self) -> bool:
        """Whether it is a pointer to an object."""
        return self.type.endswith("*")


class Model(NamedTuple):
    """A model: the type of its result, its parameters, and its body without the braces."""

    result: str
    parameters: list[Parameter]
    is_variadic: bool
    body: str


def models() -> dict[str, Model]:
    """The models by their names."""
    path = os.path.join(os.path.dirname(os.path.abspath(__file__)), "library.c")
    with open(path, encoding="ascii") as file:
        text = COMMENT.sub("", file.read())
    return dict(model_of(part) for part in functions_in(text))


def functions_in(text: str) -> list[str]:
    """The functions of a text, each up to its last brace."""
    found, depth, start = [], 0, 0
    for at, letter in enumerate(text):
        if letter == "{":
            depth += 1
        elif letter == "}":
            depth -= 1
            if depth == 0:
                found.append(text[start : at + 1])
                start = at + 1
    return found


def model_of(text: str) -> tuple[str, Model]:
    """The name of a function, and its model."""
    head, _, body = text.partition("{")
    match = HEAD.fullmatch(head + "{")
    assert match is not None, text
    result, name, listed = match.groups()
    words = [word.strip() for word in listed.split(",")]
    parameters = [parameter_of(word) for word in words if word not in ("void", "...")]
    return name, Model(result.strip(), parameters, "..." in words, body[:-1].strip())


def parameter_of(word: str) -> Parameter:
    """A parameter as it is written."""
    if word == COMPARISON:
        return Parameter(COMPARISON, COMPARE)
    match = PARAMETER.fullmatch(word)
    assert match is not None, word
    return Parameter(match.group(1).strip(), match.group(2))
