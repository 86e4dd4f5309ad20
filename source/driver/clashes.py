"""The declaration against which another one of its name is refused (F9, F23 and F24)."""

from __future__ import annotations

import os
from typing import Iterator, NamedTuple, Optional

from c.places import Place, Places
from c.tokens import Tokens
from c.trees import FunctionDefinition, Unread
from c.types import Array, Function, Integer, MaybeType, Pointer, Record
from c.units import Units

from .refusals import Refusal, names_at
from .texts import read_text

OF_POSIX = "-D_ANSI_SOURCE hides what is of POSIX there"
RENAME = "give it another name in the source"
EXTERN = "a header says extern, and one file defines the object"


class Declared(NamedTuple):
    """A declarator at file scope, and whether other units mean it, too, and how it defines."""

    place: Place
    type: MaybeType
    is_linked: bool
    is_definition: bool
    # An object without a value, which a header may say with extern (C90 6.7.2).
    is_tentative: bool


def hint_of_clash(refusal: Refusal, texts: list[str]) -> Optional[str]:
    """What is said of another declaration of the name at the place of a refusal."""
    place = Place(refusal.file.decode("latin-1"), refusal.line, refusal.column)
    for name in names_at(refusal, texts):
        by_text = [list(declared_in(read_text(text), text, name)) for text in texts]
        own = [each for found in by_text for each in found if each.place == place]
        others = [
            each
            for found in by_text
            for each in found
            if each.place != place and is_meant(refusal, each, found, place)
        ]
        if own and others:
            unlike = [each for each in others if not is_same(each.type, own[0].type)]
            return sentence(name, (unlike or others)[0], bool(unlike))
    return None


def hint_of_second(refusal: Refusal, texts: list[str]) -> str:
    """What is said of the definition before the one at the place of a refusal."""
    place = Place(refusal.file.decode("latin-1"), refusal.line, refusal.column)
    for name in names_at(refusal, texts):
        for text in texts:
            for each in declared_in(read_text(text), text, name):
                if each.place != place and each.is_linked and each.is_definition:
                    said = f"{told(each.place)} defines {name}, too"
                    return f"{said}; {EXTERN}" if each.is_tentative else said
    return EXTERN


def is_meant(refusal: Refusal, other: Declared, found: list[Declared], place: Place) -> bool:
    """Whether another declaration is of the same unit, or has linkage with it (C90 6.1.2.2)."""
    is_own_unit = any(each.place == place for each in found)
    return is_own_unit or (refusal.code == "F24" and other.is_linked)


def declared_in(text: str, path: str, name: str) -> Iterator[Declared]:
    """The declarators of a name at the file scope of a text."""
    if name not in text:
        return
    tokens = Tokens(text)
    places = Places(text, path)
    for part in Units(tokens).unit():
        if isinstance(part, Unread):
            continue
        is_linked = not {"static", "typedef"}.intersection(part.specifiers.storage)
        is_own = not {"extern", "typedef"}.intersection(part.specifiers.storage)
        if isinstance(part, FunctionDefinition):
            declarators, has_body = [part.declarator], True
        else:
            declarators, has_body = part.declarators, False
        for declarator in declarators:
            if declarator.name == name:
                place = places.of(tokens.starts[declarator.token])
                has_value = declarator.values is not None
                is_object = not isinstance(declarator.type, Function)
                is_tentative = is_own and is_object and not has_value
                is_definition = has_body or has_value or is_tentative
                yield Declared(place, declarator.type, is_linked, is_definition, is_tentative)


def is_same(one: MaybeType, other: MaybeType) -> bool:
    """Whether two types may be the same, as far as they are known."""
    if one is None or other is None:
        return True
    if isinstance(one, Integer) and isinstance(other, Integer):
        return one.spelling == other.spelling
    if isinstance(one, Pointer) and isinstance(other, Pointer):
        return is_same(one.target, other.target)
    if isinstance(one, Array) and isinstance(other, Array):
        is_length_same = None in (one.length, other.length) or one.length == other.length
        return is_length_same and is_same(one.element, other.element)
    if isinstance(one, Record) and isinstance(other, Record):
        return (one.word, one.tag) == (other.word, other.tag)
    if isinstance(one, Function) and isinstance(other, Function):
        return is_same(one.result, other.result) and are_same(one.parameters, other.parameters)
    return type(one) is type(other)


def are_same(ones: Optional[list[MaybeType]], others: Optional[list[MaybeType]]) -> bool:
    """Whether the parameters of two functions may be the same."""
    if ones is None or others is None:
        return True
    return len(ones) == len(others) and all(map(is_same, ones, others))


def sentence(name: str, other: Declared, is_unlike: bool) -> str:
    """What is said of the other declaration."""
    folder = os.environ["SPARROW_INCLUDE"]
    for part, advice in (("c90", OF_POSIX), ("posix", RENAME)):
        beginning = os.path.join(folder, part, "")
        if other.place.file.startswith(beginning):
            return f"<{other.place.file[len(beginning) :]}> declares {name}, too: {advice}"
    how = " with another type" if is_unlike else ", too"
    return f"{told(other.place)} declares {name}{how}"


def told(place: Place) -> str:
    """A place as it is written."""
    file, line, column = place
    return f"{os.fsdecode(file.encode('latin-1'))}:{line}:{column}"
