"""Where findings stand in their source files, and which expression is accessed there."""

from __future__ import annotations

from typing import NamedTuple, Optional

from .alignment import Alignment, Span
from .expressions import CALL, Form, Reader
from .folding import Finding
from .kinds import REFUSED, ZERO
from .preprocessed import Row, lines_of
from .shown import shown
from .sources import Sources, unescaped
from .tokens import Line

# Lines that backslashes join are read up to so many.
MOST_JOINED = 100
# An expression past this length is not told in a sentence.
MOST_TOLD = 60


class Expression(NamedTuple):
    """How an expression that is accessed is spelled, and what is followed there, or called."""

    role: int
    whole: str
    followed: str


class Spot(NamedTuple):
    """A line of a source, which part of it is meant, by offsets, and the expression."""

    line: int
    text: str
    start: int
    end: int
    expression: Optional[Expression]


def joined(one: Optional[Spot], other: Optional[Spot]) -> Optional[Spot]:
    """The spot of two that begin in one place: what both tell of the expression."""
    if one is None or other is None:
        return one
    expression = one.expression if one.expression == other.expression else None
    return one._replace(end=max(one.end, other.end), expression=expression)


class SourceRow:
    """A source line with those that backslashes join to it, and its preprocessed forms."""

    def __init__(self, lines: list[str], number: int, forms: list[Line]) -> None:
        self.lines = lines
        self.number = number
        self.whole = "\n".join(lines)
        self.tokens = Line()
        self.tokens.add(self.whole)
        self.alignments = [Alignment(self.tokens, form) for form in forms]

    def spot(self, finding: Finding) -> Spot:
        """The part of the line that a finding means."""
        start = min(finding.place.column - 1, len(self.lines[0]))
        told = [self.told(alignment, finding) for alignment in self.alignments]
        found = list(dict.fromkeys(each for each in told if each is not None))
        if not found:
            # No token is known there, as where markers were taken away.
            return Spot(self.number, self.lines[0], start, start + 1, None)
        span, form = found[0]
        if len(found) > 1:
            # A line of a header may mean something else in another file.
            form = None
        last = span.last if form is None else form.end - 1
        if not span.is_exact:
            # The bracket that closes a macro's arguments may be that of its text.
            last = max(last, self.tokens.partners.get(span.first + 1, last))
        return self.placed(self.tokens.starts[span.first], self.tokens.end(last), form)

    def told(
        self, alignment: Alignment, finding: Finding
    ) -> Optional[tuple[Span, Optional[Form]]]:
        """The tokens that one form of the line tells, and the expression's, if it is sure."""
        tokens = self.tokens_for(alignment.text, finding)
        spans = [span for span in map(alignment.span_of, tokens) if span is not None]
        if not spans:
            return None
        if len(tokens) > 1:
            first, last = min(span.first for span in spans), max(span.last for span in spans)
            return Span(first, last, False), None
        token, span = tokens[0], spans[0]
        if not span.is_exact:
            return span, None
        form = form_at(self.tokens, span.first, finding.kind)
        if form is None or alignment.is_same:
            return span, form
        # Where a macro stands in the expression, its source may not tell what is followed.
        other = form_at(alignment.text, token, finding.kind)
        is_sure = other is not None and form.outline == other.outline
        return span, form if is_sure else None

    def tokens_for(self, text: Line, finding: Finding) -> list[int]:
        """The tokens of a preprocessed line that a finding may mean.

        More than one may begin in a column, since a macro of a header of the system is put between
        markers, and what stands behind it begins in the column that it has in the source.
        """
        tokens = text.numbers_at(finding.place.column - 1)
        if len(tokens) == 1:
            return tokens
        return [each for each in tokens if form_at(text, each, finding.kind)] or tokens

    def placed(self, start: int, end: int, form: Optional[Form]) -> Spot:
        """The spot of offsets in the joined lines: it is cut at the end of its first line."""
        expression = None if form is None else self.expression(form)
        number = self.number
        for text in self.lines:
            if start <= len(text):
                break
            start, end, number = start - len(text) - 1, end - len(text) - 1, number + 1
        return Spot(number, text, start, max(start + 1, min(end, len(text))), expression)

    def expression(self, form: Form) -> Optional[Expression]:
        """The spelling of an expression, where it is short and plain."""
        followed = self.spelling(*form.followed)
        whole = followed if form.role == CALL else self.spelling(form.first, form.end)
        if whole is None or followed is None:
            return None
        return Expression(form.role, whole, followed)

    def spelling(self, first: int, end: int) -> Optional[str]:
        """The text of tokens up to the one before the end."""
        start, behind = self.tokens.starts[first], self.tokens.end(end - 1)
        text = self.whole[start:behind] if behind - start <= MOST_TOLD else "\n"
        return None if "\n" in text or "/*" in text else shown(" ".join(text.split()))


def form_at(line: Line, token: int, kind: str) -> Optional[Form]:
    """What is accessed, or divides, at a token."""
    if kind == REFUSED:
        return None
    reader = Reader(line)
    return reader.divisor(token) if kind == ZERO else reader.accessed(token)


class Spots:
    """The spots of findings. Each line is read once."""

    def __init__(
        self, sources: Sources, texts: list[tuple[str, str]], findings: list[Finding]
    ) -> None:
        self.sources = sources
        wanted: set[Row] = {(finding.place.file, finding.place.line) for finding in findings}
        self.forms = lines_of(texts, wanted)
        self.rows: dict[Row, Optional[SourceRow]] = {}

    def of(self, finding: Finding) -> Optional[Spot]:
        """The spot of a finding; None where the source has no such line."""
        key = (finding.place.file, finding.place.line)
        if key not in self.rows:
            self.rows[key] = self.row(key)
        row = self.rows[key]
        return None if row is None else row.spot(finding)

    def row(self, key: Row) -> Optional[SourceRow]:
        """The source line of a row."""
        name, number = unescaped(key[0]), key[1]
        lines: list[str] = []
        while not lines or (lines[-1].endswith("\\") and len(lines) < MOST_JOINED):
            line = self.sources.line(name, number + len(lines))
            if line is None:
                break
            lines.append(line)
        return SourceRow(lines, number, self.forms.get(key, [])) if lines else None
