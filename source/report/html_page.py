"""The report as a page of HTML, which needs no other file and no script."""

from __future__ import annotations

from html import escape
from typing import Iterable

from .excerpt import Excerpt
from .items import Item
from .kinds import KINDS
from .shown import shown
from .sources import Sources
from .whole import Report, last_line

# Lines that are shown around a warning, and how much of a long one is.
AROUND = 3
MOST_SHOWN = 400

STYLE = """
body { font: 15px/1.5 system-ui, sans-serif; margin: 2em auto; max-width: 70em; padding: 0 1em; }
h2 { font-size: 1.1em; margin-top: 2em; overflow-wrap: anywhere; }
table { border-collapse: collapse; }
table.kinds td { padding: 0 1em 0 0; }
table.code { background: #f6f6f4; color: #222; width: 100%; table-layout: fixed; }
table.code td { font: 13px/1.5 monospace; vertical-align: top; padding: 0 .5em; }
td.number { color: #888; text-align: right; width: 4em; }
td.text { white-space: pre-wrap; overflow-wrap: anywhere; tab-size: 8; }
tr.gap td { border-top: 1px dashed #bbb; }
tr.marked td { background: #fff3d6; }
table.code tr.said td { font-family: system-ui, sans-serif; background: #fdf9ee; }
mark { background: #ffc95c; }
.kind { color: #8a4b00; } .quiet { color: #777; }
""".strip()


def document(report: Report) -> bytes:
    """The page."""
    said, sources = report.failure or last_line(report), Sources()
    body = [f"<h1>Sparrow</h1>\n<p>{escape(said)}</p>", *kinds(report.shown)]
    quiet = report.notes if report.hint is None else [f"hint: {report.hint}", *report.notes]
    body += [f'<p class="quiet">{escape(note)}</p>' for note in quiet]
    items = report.shown + [refusal.item for refusal in report.refusals]
    codes = {refusal.item: refusal.code for refusal in report.refusals}
    files: dict[str, list[Item]] = {}
    for item in items:
        files.setdefault(item.name, []).append(item)
    for name, found in files.items():
        body += section(name, found, sources.lines(name), codes)
    if report.ignored:
        body += ["<h2>Ignored</h2>", "<ul>", *map(ignored, report.ignored), "</ul>"]
    page = [
        '<!DOCTYPE html>\n<html lang="en">\n<head>\n<meta charset="utf-8">',
        '<meta name="viewport" content="width=device-width, initial-scale=1">',
        f"<title>Sparrow: {escape(said)}</title>\n<style>\n{STYLE}\n</style>\n</head>\n<body>",
        *body,
        "</body>\n</html>\n",
    ]
    return "\n".join(page).encode("utf-8")


def kinds(items: list[Item]) -> Iterable[str]:
    """How many warnings there are of each kind."""
    counts = {kind: 0 for kind in KINDS}
    for item in items:
        counts[item.kind] += 1
    if not items:
        return
    yield '<table class="kinds">'
    for kind, count in counts.items():
        if count:
            told = f'<td class="kind">{kind}</td><td class="quiet">{escape(KINDS[kind])}</td>'
            yield f"<tr><td>{count}</td>{told}</tr>"
    yield "</table>"


def section(
    name: str, items: list[Item], lines: list[str], codes: dict[Item, str]
) -> Iterable[str]:
    """The lines of a file around its items, each with what is said of it."""
    marked: dict[int, list[Item]] = {}
    for item in items:
        marked.setdefault(item.line, []).append(item)
    yield f"<h2>{escape(shown(name))}</h2>\n<table class=\"code\">"
    last = 0
    for number in sorted(around(marked, len(lines))):
        gap = ' class="gap"' if last and number != last + 1 else ""
        last = number
        found = marked.get(number)
        if found is None:
            yield row(number, escape(shown(lines[number - 1][:MOST_SHOWN])), gap)
            continue
        if found[0].spot is not None:
            yield row(number, marked_line(found), ' class="marked"')
        for item in found:
            yield said_of(item, codes.get(item))
    yield "</table>"


def around(marked: Iterable[int], count: int) -> set[int]:
    """The numbers of marked lines, and those of lines around them that the file has."""
    numbers = set(marked)
    for line in list(numbers):
        numbers.update(range(max(1, line - AROUND), min(count, line + AROUND) + 1))
    return numbers


def row(number: int, text: str, attribute: str) -> str:
    """A line of source."""
    return (
        f'<tr{attribute}><td class="number">{number}</td><td class="text">{text.rstrip()}</td></tr>'
    )


def marked_line(items: list[Item]) -> str:
    """A line with marks where its items are. Of a long line what is around the first is shown."""
    spots = [item.spot for item in items if item.spot is not None]
    text = spots[0].text
    if len(text) > MOST_SHOWN:
        excerpt = Excerpt(text, spots[0].start, spots[0].end)
        meant = f"<mark>{escape(excerpt.meant)}</mark>"
        return escape(excerpt.before) + meant + escape(excerpt.behind)
    told, at = [], 0
    for start, end in sorted({(spot.start, spot.end) for spot in spots}):
        # What lies within a mark has none of its own.
        if start >= at:
            told.append(escape(shown(text[at:start])))
            told.append(f"<mark>{escape(shown(text[start:end])) or ' '}</mark>")
            at = end
    return "".join(told) + escape(shown(text[at:]))


def said_of(item: Item, code: str | None) -> str:
    """What is said of an item, below its line."""
    kind = item.kind if code is None else code
    told = f'{item.column}: {escape(item.message)} <span class="kind">[{kind}]</span>'
    for note in item.objects + item.notes:
        where = f"{note.file}:{note.line}:{note.column}: {note.message}"
        told += f'<br><span class="quiet">{escape(where)}</span>'
    number = item.line if item.spot is None else ""
    return f'<tr class="said"><td class="number">{number}</td><td>{told}</td></tr>'


def ignored(item: Item) -> str:
    """A warning that a comment ignores."""
    told = f"{item.file}:{item.line}:{item.column}: {item.message} [{item.kind}]"
    return f'<li>{escape(told)} <span class="quiet">{escape(item.justification or "")}</span></li>'
