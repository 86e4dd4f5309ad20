"""Words in `__attribute__` and their like: they are made blank, or refused where they lay out data.

Most tell the compiler what it may assume. Some change sizes and offsets: without them the text
would mean something else.
"""

from __future__ import annotations

import re
from typing import NamedTuple, Optional, Sequence

from .places import Place, Places
from .tokens import NAME, Tokens, Unreadable

# What a text without these words has nothing to do with.
ANY = re.compile(r"__attribute|\[\s*\[|_Alignas|^[ \t]*#[ \t]*pragma[ \t]", re.MULTILINE)
PRAGMA = re.compile(
    r"^[ \t]*#[ \t]*pragma[ \t]+(pack|ms_struct|scalar_storage_order)\b", re.MULTILINE
)
ATTRIBUTES = frozenset(["__attribute__", "__attribute"])
LAYOUT = frozenset(["packed", "mode", "vector_size", "scalar_storage_order", "ms_struct"])
# These change a layout in a struct or a typedef, and only a place elsewhere.
ALIGNING = frozenset(["aligned", "_Alignas"])
# The system calls such functions, before `main` and behind it.
BY_ITSELF = frozenset(["constructor", "destructor"])
RECORDS = frozenset(["struct", "union"])


class Cleared(NamedTuple):
    """A text with its attributes blank; and the first word that lays out data, with its place. Then
    the places of those by which the system calls a function."""

    text: str
    word: Optional[str]
    place: Optional[Place]
    by_itself: Sequence[Place] = ()


def clear_attributes(text: str, file: str) -> Cleared:
    """A text without attributes. Lines and columns stay."""
    if ANY.search(text) is None:
        return Cleared(text, None, None)
    tokens = Tokens(text)
    try:
        found = Attributes(tokens).read()
    except Unreadable:
        # The program finds what is wrong with it.
        found = []
    faults = [(tokens.starts[fault.token], fault.word) for fault in found if fault.word is not None]
    faults += [(match.start(1), match.group(1)) for match in PRAGMA.finditer(text)]
    if faults:
        offset, word = min(faults)
        return Cleared(text, word, Places(text, file).of(offset))
    parts, at = [], 0
    for attribute in found:
        start, end = tokens.starts[attribute.first], tokens.end(attribute.last)
        parts += [text[at:start], blank(text[start:end])]
        at = end
    by_itself = [
        tokens.starts[attribute.first]
        for attribute in found
        if any(
            tokens.values[token].strip("_") in BY_ITSELF
            for token in range(attribute.first, attribute.last)
        )
    ]
    places = Places(text, file)
    return Cleared(
        "".join(parts) + text[at:], None, None, [places.of(offset) for offset in by_itself]
    )


def blank(text: str) -> str:
    """As many blanks; newlines stay, and so do markers."""
    return "\n".join(
        line if line.lstrip(" \t").startswith("#") else " " * len(line) for line in text.split("\n")
    )


class Attribute(NamedTuple):
    """An attribute from token to token, and the word in it that lays out data, with its token."""

    first: int
    last: int
    token: int
    word: Optional[str]


class Attributes:
    """Finds attributes, and whether they stand in a struct, union or typedef."""

    def __init__(self, tokens: Tokens) -> None:
        self.tokens = tokens
        self.values = tokens.values
        self.found: list[Attribute] = []
        # For each open brace, whether it is that of a record.
        self.is_record: list[bool] = []
        # The last token that is no attribute, and whether it ends a record.
        self.before = ""
        self.is_behind_record = False
        self.is_typedef = False
        # Whether `struct` or `union` stands before, with or without a tag.
        self.is_tagged = False

    def read(self) -> list[Attribute]:
        """The attributes, in order."""
        at = 0
        while at < self.tokens.count:
            last = self.attribute_at(at)
            if last is None:
                self.pass_by(self.values[at])
                at += 1
            else:
                token, word = self.word_between(at, last)
                self.found.append(Attribute(at, last, token, word))
                at = last + 1
        return self.found

    def attribute_at(self, token: int) -> Optional[int]:
        """The last token of the attribute that begins at a token."""
        value = self.values[token]
        if value in ATTRIBUTES or value == "_Alignas":
            return self.tokens.matching(token + 1) if self.values[token + 1] == "(" else None
        if value == "[" and self.values[token + 1] == "[":
            return self.tokens.matching(token)
        return None

    def pass_by(self, value: str) -> None:
        """Notes a token that is no attribute."""
        is_end = False
        if value == "{":
            self.is_record.append(self.is_tagged)
        elif value == "}" and self.is_record:
            is_end = self.is_record.pop()
        if value == "typedef":
            self.is_typedef = True
        elif value == ";" and not any(self.is_record):
            self.is_typedef = False
        self.is_tagged = value in RECORDS or (self.before in RECORDS and value not in "{};")
        self.before = value
        self.is_behind_record = is_end

    def word_between(self, first: int, last: int) -> tuple[int, Optional[str]]:
        """The first word of an attribute that lays out data, and its token."""
        lays_out = (
            self.is_typedef
            or self.is_behind_record
            or self.before in RECORDS
            or bool(self.is_record and self.is_record[-1])
        )
        for token in range(first, last):
            # Each word may be written with two underscores around it.
            value = self.values[token]
            word = value.strip("_") if token > first else value
            is_name = self.tokens.kinds[token] == NAME
            if is_name and (word in LAYOUT or (word in ALIGNING and lays_out)):
                return token, value
        return first, None
