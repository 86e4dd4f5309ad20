"""Which token of a source line stands for one of the preprocessed line.

The columns of the two differ where a macro, a comment or more blanks stand before a token.
"""

from __future__ import annotations

from bisect import bisect_left
from itertools import accumulate
from typing import NamedTuple

from .tokens import CLOSING, OPENING, Line


class Span(NamedTuple):
    """Tokens of the source line from the first to the last; one alone where it is the very one."""

    first: int
    last: int
    is_exact: bool


class Alignment:
    """A source line and a preprocessed line that comes of it."""

    def __init__(self, source: Line, text: Line) -> None:
        self.source = source
        self.text = text
        self.is_same = source.texts == text.texts
        self.ahead = common(source.texts, text.texts)
        room = min(len(source.texts), len(text.texts)) - self.ahead
        self.behind = min(common(source.texts[::-1], text.texts[::-1]), room)
        self.known_alone: dict[str, int] | None = None
        self.known_calls: list[int] | None = None
        self.known_gaps: dict[int, tuple[int, int, int]] = {}
        self.known_anchors: list[tuple[int, int]] | None = None

    def span_of(self, token: int) -> Span | None:
        """The source's tokens for one of the text: it, or the macros among which it is written."""
        count = len(self.source.texts)
        from_end = len(self.text.texts) - token
        if token < self.ahead:
            return Span(token, token, True)
        if from_end <= self.behind:
            return Span(count - from_end, count - from_end, True)
        alone = self.alone.get(self.text.texts[token])
        if alone is not None:
            return Span(alone, alone, True)
        return self.among(token)

    def among(self, token: int) -> Span | None:
        """The source's tokens between those that are known before and behind one of the text."""
        first, last = self.ahead, len(self.source.texts) - self.behind - 1
        if first > last:
            return None
        at = bisect_left(self.anchors, (token, 0))
        if at not in self.known_gaps:
            self.known_gaps[at] = self.gap(at)
        start, behind, beginning = self.known_gaps[at]
        if token < beginning:
            exact = start - beginning + token
            return Span(exact, exact, True)
        start = self.calls[start] if start <= last else last
        if not is_name(self.source.texts[start]):
            return Span(first, last, False)
        return Span(start, max(start, behind - 1), False)

    def gap(self, at: int) -> tuple[int, int, int]:
        """What is between the anchors before and at a number: the source's first token that the
        text hasn't there too, the one behind, and the text's first that the source hasn't."""
        anchors, texts = self.anchors, self.source.texts
        token, start = anchors[at - 1] if at > 0 else (self.ahead - 1, self.ahead - 1)
        ends = (len(self.text.texts) - self.behind, len(texts) - self.behind)
        text_end, behind = anchors[at] if at < len(anchors) else ends
        token, start = token + 1, start + 1
        # Within a macro's arguments the next token may be of the macro's own text.
        while start < behind - 1 and token < text_end and self.calls[start] == start:
            if texts[start] != self.text.texts[token]:
                break
            token, start = token + 1, start + 1
        return start, behind, token

    @property
    def calls(self) -> list[int]:
        """For each token of the source the name of the outermost call that is open there, or it.

        What stands behind an argument of a macro may come of the macro's own text. A name that is
        an anchor is none of a macro.
        """
        if self.known_calls is None:
            texts = self.source.texts
            plain = {source for _, source in self.anchors}
            self.known_calls = list(range(len(texts)))
            outermost = [-1]
            for at in range(self.ahead, len(texts)):
                if outermost[-1] >= 0:
                    self.known_calls[at] = outermost[-1]
                if texts[at] in OPENING:
                    is_call = at > self.ahead and is_name(texts[at - 1]) and at - 1 not in plain
                    is_within = outermost[-1] >= 0 or not is_call
                    outermost.append(outermost[-1] if is_within else at - 1)
                elif texts[at] in CLOSING and len(outermost) > 1:
                    outermost.pop()
        return self.known_calls

    @property
    def anchors(self) -> list[tuple[int, int]]:
        """Tokens of the text that stand alone, each with the source's, as far as their order is one
        in both: a macro may turn its arguments round."""
        if self.known_anchors is None:
            alone = self.alone
            pairs = [
                (token, alone[text])
                for token, text in enumerate(self.text.texts)
                if text in alone and self.ahead <= token < len(self.text.texts) - self.behind
            ]
            greatest = accumulate((source for _, source in pairs), max)
            least = list(accumulate((source for _, source in reversed(pairs)), min))[::-1]
            self.known_anchors = [
                pair for pair, most, fewest in zip(pairs, greatest, least) if most == fewest
            ]
        return self.known_anchors

    @property
    def alone(self) -> dict[str, int]:
        """The source's tokens whose spelling stands once between the ends, in both lines."""
        if self.known_alone is None:
            source = numbers_of(self.source.texts, self.ahead, self.behind)
            text = numbers_of(self.text.texts, self.ahead, self.behind)
            self.known_alone = {
                spelling: numbers[0]
                for spelling, numbers in source.items()
                if len(numbers) == 1 and len(text.get(spelling, ())) == 1
            }
        return self.known_alone


def is_name(text: str) -> bool:
    """Whether a token may be the name of a macro."""
    return text[0].isalpha() or text[0] == "_"


def common(one: list[str], other: list[str]) -> int:
    """How many items two lists have in common at their starts."""
    count = 0
    for left, right in zip(one, other):
        if left != right:
            break
        count += 1
    return count


def numbers_of(texts: list[str], ahead: int, behind: int) -> dict[str, list[int]]:
    """The places of each spelling between two ends of a list."""
    found: dict[str, list[int]] = {}
    for number in range(ahead, len(texts) - behind):
        found.setdefault(texts[number], []).append(number)
    return found
