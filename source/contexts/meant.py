"""How the type that a block is meant for is written where a copy stands."""

from __future__ import annotations

from typing import Optional

from c.types import Floating, Integer, MaybeType, Pointer, Record, Void

from .scopes import FileScope


def tells_elements(kind: MaybeType) -> bool:
    """Whether a type is a pointer that tells the elements of a block: bytes are as good as none."""
    if not isinstance(kind, Pointer) or kind.target is None or isinstance(kind.target, Void):
        return False
    return not isinstance(kind.target, Integer) or kind.target.size > 1


def cast_for(kind: MaybeType, scope: FileScope, before: int) -> Optional[str]:
    """The cast to a pointer, where it tells elements whose type is known there."""
    if not isinstance(kind, Pointer) or not tells_elements(kind):
        return None
    if isinstance(kind.target, Record) and kind.target.members is None:
        return None
    spelled = spelling(kind, scope, before)
    return None if spelled is None else f"({spelled})"


def spelling(kind: MaybeType, scope: FileScope, before: int) -> Optional[str]:
    """A type without a declarator, of names that the file has before a token."""
    if isinstance(kind, (Integer, Floating)):
        return kind.spelling
    if isinstance(kind, Void):
        return "void"
    if isinstance(kind, Pointer):
        target = spelling(kind.target, scope, before)
        return None if target is None else f"{target} *"
    if not isinstance(kind, Record):
        return None
    known = scope.tags.get(kind.tag or "")
    if known is not None and known.type is kind and known.first < before:
        return f"{kind.word} {kind.tag}"
    name = scope.typedefs.get(id(kind), "")
    typedef = scope.names.get(name)
    return name if typedef is not None and typedef.first < before else None
