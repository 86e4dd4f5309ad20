"""What may help against a refusal: docs/LANGUAGE.md tells more."""

from __future__ import annotations

import os
import re
from typing import Optional

from .refusals import NAME, Refusal, names_at, places_in

SPLIT = "split the program, or give fewer files"
REWRITTEN = "--strict leaves it as it is; without --strict it is rewritten"
# What takes a word that lays out data out of the text; a pragma is taken out in the source alone.
TAKING_OUT = {"_Alignas": "-D'_Alignas(x)='", "pack": None}
HINTS = {
    "F8": "is it misspelt, or does no header here have it?"
    " -DNAME=VALUE gives a constant, and -DNAME=TYPE a type",
    "F11": "a header or a line before gives this tag to a struct, union or enum already",
    "F25": "give all files of one program; a library needs a main that calls it",
    "U2": "#ifdef __SPARROW__ may choose a function that returns a status instead",
    "U3": "most programs have a path without assembly, as by -DNO_ASM",
    "U8": "#ifdef __SPARROW__ may choose the program's path for other compilers",
    "M1": SPLIT,
    "M4": SPLIT,
    "M5": SPLIT,
    "M6": SPLIT,
    "M7": SPLIT,
    "M9": SPLIT,
}
# The codes of what is rewritten.
OF_STRICT = frozenset(["F7", "F13", "U1", "U4", "U5", "U6", "U7", "U9", "U10", "U11"])


# So many characters before an expression tell what it stands in.
MOST_BEFORE = 2000
ESCAPE = "\\033 is standard in place of \\e"
LENGTH = "a length must be constant: give the greatest"
ADDRESS = "an address isn't a number before the program runs: start with 0, and set it in main"

# A literal, and a character behind a backslash.
LITERAL = re.compile(r"""L?(["'])(?:\\.|(?!\1)[^\\\n])*""")
ESCAPED = re.compile(r"\\(.)")
# The address of a string or an object that is made a number.
ADDRESS_AS_NUMBER = re.compile(r"\(\s*(?:unsigned\s+)?(?:long|int)(?:\s+int)?\s*\)\s*[&\"]")
# What an expression stands in begins with the last of these before it.
BEGINNING = re.compile(r"[\[;{}=]")


def hint_for(refusal: Refusal, texts: list[str], is_strict: bool) -> Optional[str]:
    """What may help against a refusal in one of these texts."""
    if is_strict and refusal.code in OF_STRICT:
        return REWRITTEN
    if not refusal.code:
        return hint_for_layout(refusal.text.decode("latin-1").split(" ")[0])
    places = places_in(refusal, texts) if refusal.code in ("F4", "F7", "F19") else ()
    for text, offset in places:
        if refusal.code == "F4" and has_escape(text, offset):
            return ESCAPE
        if refusal.code == "F7":
            return hint_for_name(text, offset)
        if refusal.code == "F19" and is_length(text, offset):
            return LENGTH
        if refusal.code == "F19" and ADDRESS_AS_NUMBER.match(text, offset):
            return ADDRESS
    if refusal.code in ("F9", "F24"):
        from .clashes import hint_of_clash

        call = hint_for_call(refusal, texts) if refusal.code == "F24" else None
        return call or hint_of_clash(refusal, texts)
    if refusal.code == "F23":
        from .clashes import hint_of_second

        return hint_of_second(refusal, texts)
    return HINTS.get(refusal.code)


def hint_for_layout(word: str) -> str:
    """What helps against a word that lays out data."""
    option = TAKING_OUT.get(word, "-D'__attribute__(x)='")
    said = "it has to go from the source"
    if option is None:
        return f"{said}; sizes differ then"
    return f"{said}; {option} takes all out, and sizes differ then"


def hint_for_name(text: str, offset: int) -> Optional[str]:
    """What helps against a name that no unit goes on with: most often it is a macro's."""
    from c.words import RESERVED

    match = NAME.match(text, offset)
    if match is None or match.group() in RESERVED:
        return None
    name = match.group()
    is_text = text[:offset].rstrip().endswith('"') or text[match.end() :].lstrip().startswith('"')
    value = f"'-D{name}=\"TEXT\"'" if is_text else f"-D{name}="
    does = "gives it a text" if is_text else "takes it out"
    return f"is {name} a macro that no header here and no option defines? {value} {does}"


def has_escape(text: str, offset: int) -> bool:
    """Whether the literal there has an escape of GNU C."""
    match = LITERAL.match(text, offset)
    return match is not None and "e" in ESCAPED.findall(match.group())


def is_length(text: str, offset: int) -> bool:
    """Whether an expression stands behind a `[`."""
    found = BEGINNING.findall(text, max(0, offset - MOST_BEFORE), offset)
    return bool(found) and found[-1] == "["


def hint_for_call(refusal: Refusal, texts: list[str]) -> Optional[str]:
    """The header of a function that some text calls without a declaration."""
    from c.tokens import Tokens
    from c.units import Units

    names = names_at(refusal, texts)
    for path in texts if names else ():
        with open(path, encoding="latin-1", newline="") as file:
            reader = Units(Tokens(file.read()))
        try:
            reader.unit()
        except RecursionError:
            continue
        for name in names.intersection(reader.implicit):
            header = header_of(name)
            if header is not None:
                return f"#include <{header}> declares {name}"
    return None


def header_of(name: str) -> Optional[str]:
    """The header of C90 that declares a function."""
    folder = os.path.join(os.environ["SPARROW_INCLUDE"], "c90")
    declaration = re.compile(rf"^extern\b[^;]*\b{name}\(", re.MULTILINE)
    for header in sorted(os.listdir(folder)):
        path = os.path.join(folder, header)
        if header.endswith(".h"):
            with open(path, encoding="latin-1") as file:
                if declaration.search(file.read()):
                    return header
    return None
