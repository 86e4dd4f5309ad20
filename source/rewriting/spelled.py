"""How a type is written, for objects that are put in."""

from __future__ import annotations

from typing import Optional

from c.types import Integer, MaybeType, Pointer, Record, Void


def spelled(kind: MaybeType) -> Optional[str]:
    """A type without a declarator around the name, or None where it isn't one of these."""
    if isinstance(kind, Integer):
        return kind.spelling
    if isinstance(kind, Void):
        return "void"
    if isinstance(kind, Record) and kind.tag is not None:
        return f"{kind.word} {kind.tag}"
    if isinstance(kind, Pointer):
        target = spelled(kind.target)
        return None if target is None else f"{target} *"
    return None
