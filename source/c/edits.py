"""Edits of a text by its tokens. Each token that stays keeps its file, line and column.

The text is a list of items, linked both ways: its tokens by number, and behind these what is put
in. A token has a head and a tail: the outermost items that were put before and behind it. So what
is put around a part of the text goes around all that was put around its parts before.
"""

from __future__ import annotations

import re

from .places import Place, Places
from .tokens import Tokens

# Past this column the columns of a line that is changed aren't kept: each token would take as many
# blanks.
MAX_COLUMN = 2000

COMMENT = re.compile(r"/\*|//")


class Edits:
    """What is put in, taken out and moved in a text."""

    def __init__(self, tokens: Tokens, places: Places) -> None:
        self.tokens = tokens
        self.places = places
        count = tokens.count
        # The token behind the last stands for both ends.
        self.following = list(range(1, count + 1)) + [0]
        self.preceding = [count] + list(range(count))
        self.head = list(range(count + 1))
        self.tail = list(range(count + 1))
        self.inserted: list[str] = []
        # What stands in place of a token, and so at its place.
        self.anchors: dict[int, int] = {}
        self.is_changed = False

    def before(self, token: int, text: str) -> None:
        """Puts text before a token, and before all that was put there."""
        item = self.new_item(text)
        self.link(self.preceding[self.head[token]], item, item, self.head[token])
        self.head[token] = item

    def after(self, token: int, text: str) -> None:
        """Puts text behind a token, and behind all that was put there."""
        item = self.new_item(text)
        self.link(self.tail[token], item, item, self.following[self.tail[token]])
        self.tail[token] = item

    def around(self, first: int, last: int, before: str, after: str) -> None:
        """Puts text before and behind a part."""
        self.before(first, before)
        self.after(last, after)

    def cut(self, first: int, last: int) -> None:
        """Takes out a part, with all that was put into it or around it."""
        self.replace(first, last, "")

    def replace(self, first: int, last: int, text: str) -> None:
        """Puts a text in place of a part, and of all that was put into it or around it."""
        before, after = self.preceding[self.head[first]], self.following[self.tail[last]]
        item = self.new_item(text)
        self.anchors[item] = first
        self.link(before, item, item, after)
        self.head[first] = self.tail[first] = self.head[last] = self.tail[last] = item

    def move(self, first: int, last: int, target: int) -> None:
        """Moves a part, with all that was put around it, behind another token."""
        head, tail = self.unlinked(first, last)
        self.link(self.tail[target], head, tail, self.following[self.tail[target]])
        self.tail[target] = tail

    def move_before(self, first: int, last: int, target: int) -> None:
        """Moves a part, with all that was put around it, before another token."""
        head, tail = self.unlinked(first, last)
        self.link(self.preceding[self.head[target]], head, tail, self.head[target])
        self.head[target] = head

    def unlinked(self, first: int, last: int) -> tuple[int, int]:
        """The first and last item of a part, which is taken out of the list."""
        head, tail = self.head[first], self.tail[last]
        before, after = self.preceding[head], self.following[tail]
        self.following[before], self.preceding[after] = after, before
        self.is_changed = True
        return head, tail

    def text_of(self, first: int, last: int) -> str:
        """A part as it is edited so far, on one line."""
        texts = []
        item, end = self.head[first], self.following[self.tail[last]]
        while item != end:
            if item < self.tokens.count:
                texts.append(self.tokens.values[item])
            else:
                texts.append(self.inserted[item - self.tokens.count - 1])
            item = self.following[item]
        return " ".join(text for text in texts if text)

    def copy_of(self, first: int, last: int) -> str:
        """A part as it is edited so far, to stand a second time: each token has its place there."""
        texts: list[str] = []
        item, end, before = self.head[first], self.following[self.tail[last]], -1
        while item != end:
            if item < self.tokens.count:
                gap = self.tokens.text[self.tokens.end(item - 1) : self.tokens.starts[item]]
                is_next = item == before + 1 and before >= 0 and not gap.strip(" ")
                texts += [gap, self.tokens.values[item]] if is_next else [self.placed(item)]
            else:
                texts.append(f" {self.inserted[item - self.tokens.count - 1]} ")
            before = item if item < self.tokens.count else -1
            item = self.following[item]
        return "".join(texts)

    def placed(self, token: int, spelling: str | None = None) -> str:
        """A token, or another spelling of it, that stands at its place wherever it is put."""
        text = self.tokens.values[token] if spelling is None else spelling
        return marker_to(self.places.of(self.tokens.starts[token])) + text

    def new_item(self, text: str) -> int:
        """A new item that isn't linked yet."""
        self.is_changed = True
        self.inserted.append(text)
        self.following.append(0)
        self.preceding.append(0)
        return len(self.following) - 1

    def link(self, before: int, first: int, last: int, after: int) -> None:
        """Links the items from `first` to `last` between two others."""
        self.following[before], self.preceding[first] = first, before
        self.following[last], self.preceding[after] = after, last

    def result(self) -> str:
        """The edited text."""
        if not self.is_changed:
            return self.tokens.text
        return Writer(self).write()


def marker_to(place: Place) -> str:
    """A marker line, and blanks up to the place's column, where it isn't too far."""
    blanks = " " * (place.column - 1) if place.column <= MAX_COLUMN else ""
    return f'\n# {place.line} "{place.file}"\n{blanks}'


class Writer:
    """Writes the edited text, and knows the place that it has come to."""

    def __init__(self, edits: Edits) -> None:
        self.edits = edits
        self.tokens = edits.tokens
        self.places = edits.places
        self.parts: list[str] = []
        # The token that was written last, or in whose place something was; and how many more bytes
        # stand behind its place than it has. Between it and the next nothing was put where
        # `is_exact`.
        self.last = -1
        self.beside = 0
        self.is_exact = True

    def write(self) -> str:
        """The text."""
        end = self.tokens.count
        item = self.edits.following[end]
        if item > end:
            # What is put before all else stands behind the first markers.
            self.parts.append(self.tokens.text[: self.tokens.starts[0]])
        while item != end:
            if item < end:
                self.write_token(item)
            else:
                self.write_inserted(item, self.edits.inserted[item - end - 1])
            item = self.edits.following[item]
        self.write_rest()
        return "".join(self.parts)

    def write_inserted(self, item: int, text: str) -> None:
        """Text that was put in: at the place of what it replaces, or with blanks around it."""
        anchor = self.edits.anchors.get(item)
        if not text:
            self.is_exact = False
        elif anchor is not None:
            self.parts += [self.gap_before(anchor), text]
            self.last, self.is_exact = anchor, False
            self.beside = len(text) - len(self.tokens.values[anchor])
        else:
            self.parts.append(f" {text} ")
            self.beside += len(text) + 2
            self.is_exact = False
        if "\n" in text:
            # It has markers of its own, and the next token needs one.
            self.last = -1

    def write_token(self, token: int) -> None:
        """A token at its place."""
        if token == self.last + 1 and self.is_exact:
            self.parts.append(self.tokens.text[self.last_end() : self.tokens.starts[token]])
        else:
            self.parts.append(self.gap_before(token))
        self.parts.append(self.tokens.values[token])
        self.last, self.beside, self.is_exact = token, 0, True

    def last_end(self) -> int:
        """The offset behind the last token."""
        return self.tokens.end(self.last) if self.last >= 0 else 0

    def gap_before(self, token: int) -> str:
        """What brings a token to its place, where something was put in, taken out or moved."""
        start = self.tokens.starts[token]
        if 0 <= self.last < token and not COMMENT.search(self.tokens.text, self.last_end(), start):
            gap = self.blanked(self.tokens.text[self.last_end() : start])
            newline = gap.find("\n")
            if newline >= 0:
                return gap[newline:]
            if len(gap) >= self.beside:
                return " " * (len(gap) - self.beside)
        return marker_to(self.places.of(start))

    def blanked(self, text: str) -> str:
        """The text with its tokens made blank; lines, and markers, stay."""
        return "\n".join(
            line if line.lstrip(" \t").startswith("#") else " " * len(line)
            for line in text.split("\n")
        )

    def write_rest(self) -> None:
        """What stands behind the last token."""
        rest = self.tokens.text[self.tokens.end(self.tokens.count - 1) :]
        self.parts.append(rest if self.is_exact and self.last == self.tokens.count - 1 else "\n")
