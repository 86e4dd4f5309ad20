"""Texts of which each token keeps its place, whatever is put before it."""

from __future__ import annotations

from c.edits import marker_to

from .functions import ContextUnit


def marker(unit: ContextUnit, token: int) -> str:
    """A marker line, and blanks up to a token's column, where it isn't too far."""
    return marker_to(unit.places.of(unit.tokens.starts[token]))


def edited(
    unit: ContextUnit, first: int, last: int, edits: dict[int, str], heads: dict[int, str]
) -> str:
    """Tokens with other spellings for some, and texts that go before some."""
    tokens = unit.tokens
    parts = []
    at = tokens.starts[first]
    for token in sorted({*edits, *heads}):
        parts.append(tokens.text[at : tokens.starts[token]])
        at = tokens.starts[token]
        if token in heads:
            parts += [heads[token], marker(unit, token)]
        if token in edits:
            parts.append(edits[token])
            if token < last:
                parts.append(marker(unit, token + 1))
                at = tokens.starts[token + 1]
            else:
                at = tokens.end(token)
    parts.append(tokens.text[at : tokens.end(last)])
    return "".join(parts)
