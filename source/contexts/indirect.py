"""Indirect calls of allocation wrappers, as `strm->zalloc(..)`, become calls of copies.

The call as it is written stays on a path that ends: `(ANY ? (CALL, exit(1)) : 0, COPY(..))`. So
each alarm of what is called stays, too, and nothing comes from there. A compiler takes the copy.
"""

from __future__ import annotations

from .functions import Call, ContextUnit
from .placed import edited, marker

# For the analysis any number of the type, since the constant is too large for it; here it is 0.
ANY = "(signed char)256u"
ENDING = "\nextern void exit(int);"


def instead_of(
    unit: ContextUnit, call: Call, name: str, edits: dict[int, str]
) -> dict[int, str]:
    """The edits that make a call one of a copy; it also stands as it is written, with its edits."""
    within = {
        token: text for token, text in edits.items() if call.token <= token <= call.last
    }
    written = edited(unit, call.token, call.last, within, {})
    found = {token: "" for token in range(call.token, call.called + 1)}
    before = marker(unit, call.token)
    found[call.token] = f"({ANY} ? ({before}{written}, (void)exit(1)) : (void)0, {name}"
    found[call.last] = within.get(call.last, unit.tokens.values[call.last]) + ")"
    return found
