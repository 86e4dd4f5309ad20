"""Rewrites all units of a program together."""

from __future__ import annotations

import sys
from typing import NamedTuple, Optional

from c.places import Place
from c.tokens import BAD

from .assertions import Assertions
from .bit_fields import BitFields
from .blocks import Blocks
from .booleans import Booleans, has_booleans
from .builtins import Builtins
from .early_calls import EarlyCalls
from .flexible import FlexibleMembers
from .floats import Floats, uses_floats
from .forward_enums import ForwardEnums
from .generics import Generics
from .initialisers import Initialisers
from .inner_blocks import InnerBlocks
from .literals import Literals
from .long_long import LongLong
from .names import Names
from .old_style import OldStyle
from .small_forms import SmallForms
from .unit import Program, Unit, Untyped
from .unnamed import UnnamedMembers
from .variadic import VariadicFunctions, variadic_functions
from .void_pointers import VoidPointers
from .walk import Context, Rewriting, Walk
from .wide import WideLiterals

# The readers go down a few calls for each bracket.
RECURSION = 8000

# In the order in which they are shown a node: what stands first is put next to it.
KINDS: list[type[Rewriting]] = [
    LongLong, Builtins, EarlyCalls, Assertions, Generics, ForwardEnums, WideLiterals, SmallForms,
    VoidPointers, FlexibleMembers, UnnamedMembers, BitFields, Names, InnerBlocks, VariadicFunctions, Literals,
    Initialisers, OldStyle, Blocks,
]


class Rewritten(NamedTuple):
    """A text as it was rewritten, how often each form was, and where a form was left, and why; and
    the first name that isn't declared, with its place."""

    text: str
    counts: dict[str, int]
    left: list[str]
    undeclared: Optional[tuple[Place, str]]


def rewrite(texts: list[tuple[str, str]]) -> list[Rewritten]:
    """The texts of a program's files, rewritten; each comes with the word of its file."""
    sys.setrecursionlimit(max(sys.getrecursionlimit(), RECURSION))
    program = Program()
    units = [Unit(text, file) for file, text in texts]
    for unit in units:
        for name, function in variadic_functions(unit).items():
            if not function.is_static:
                program.variadic[name] = function
    program.has_floats = any(computes(unit, program) for unit in units if unit.may_have_floats())
    return [rewrite_unit(unit, program) for unit in units]


def computes(unit: Unit, program: Program) -> bool:
    """Whether a unit computes with floating numbers; one that is too deep is left anyway."""
    try:
        return uses_floats(unit, program)
    except RecursionError:
        return False


def rewrite_unit(unit: Unit, program: Program) -> Rewritten:
    """A unit. Where it can't be gone through it stays as it is."""
    if BAD in unit.tokens.kinds:
        return unchanged(unit, unit.tokens.kinds.index(BAD), "a byte that begins no token")
    typed: list[type[Rewriting]] = [Booleans] if has_booleans(unit) else []
    if program.has_floats:
        typed.append(Floats)
    try:
        return walked(unit, program, [*typed, *KINDS])
    except Untyped as untyped:
        # What was begun is thrown away.
        again = Unit(unit.tokens.text, unit.file)
        again.leave(untyped.token, untyped.text)
        return walked(again, program, KINDS)
    except RecursionError:
        return unchanged(unit, 0, "too deep")
    except (ArithmeticError, LookupError, ValueError, TypeError, AttributeError) as error:
        # No text may make the run crash, whatever was overlooked here.
        return unchanged(unit, 0, f"{type(error).__name__} in what rewrites")


def walked(unit: Unit, program: Program, kinds: list[type[Rewriting]]) -> Rewritten:
    """A unit behind these rewritings."""
    context = Context()
    Walk(unit, context, [kind(unit, program, context) for kind in kinds]).walk()
    undeclared = None
    if unit.undeclared is not None:
        place = unit.places.of(unit.tokens.starts[unit.undeclared])
        undeclared = (place, unit.tokens.values[unit.undeclared])
    left = [told(unit, *left) for left in unit.left]
    return Rewritten(unit.result(), unit.counts, left, undeclared)


def unchanged(unit: Unit, token: int, reason: str) -> Rewritten:
    """A unit as it is, and why."""
    return Rewritten(unit.tokens.text, {}, [told(unit, token, reason)], None)


def told(unit: Unit, token: int, reason: str) -> str:
    """The place of a token, and what is there."""
    place = unit.places.of(unit.tokens.starts[token])
    return f"{place.file}:{place.line}:{place.column}: {reason}"
