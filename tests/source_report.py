"""Parts of the report of ./sparrow source, each by rows: what alarms become, which part of a source
line is marked, how a line is shown, which comments ignore, and what a fingerprint hangs on."""

from __future__ import annotations

import os
import sys

from told import tell

HERE = os.path.dirname(os.path.abspath(__file__))
sys.path.insert(0, os.path.join(os.path.dirname(HERE), "source"))

from c.places import Place  # noqa: E402
from report.baseline import Fingerprints  # noqa: E402
from report.building import of_places  # noqa: E402
from report.excerpt import Excerpt  # noqa: E402
from report.expressions import ACCESS, CALL, CHAIN  # noqa: E402
from report.folding import Finding, fold  # noqa: E402
from report.ignore import reason_in  # noqa: E402
from report.kinds import NULL, OVERRUN, UNKNOWN, ZERO  # noqa: E402
from report.sentences import sentence  # noqa: E402
from report.sources import Sources, unescaped  # noqa: E402
from report.spots import Spots  # noqa: E402

ROLES = {ACCESS: "access", CALL: "call", CHAIN: "chain"}
LONG = "a" * 100 + "[i]" + "b" * 200


def rows_of(name: str) -> list[list[str]]:
    """The rows of a table."""
    with open(os.path.join(HERE, "report", name), encoding="utf-8") as table:
        lines = [line.rstrip("\n") for line in table if not line.startswith("#")]
    return [line.split("\t") for line in lines]


def sentence_faults() -> dict[str, str]:
    """The rows of alarms whose warning is another."""
    faults = {}
    for name, alarms, kind, said in rows_of("sentences.tsv"):
        lines = [f"a.c:1:1: {alarm}\n" for alarm in alarms.split("|")]
        found = fold("".join(lines) + f"{len(lines)} alarms\n").findings
        got = [(finding.kind, sentence(finding, None)) for finding in found]
        faults[name] = "" if got == [(kind, said)] else str(got)
    return faults


def follower_faults() -> dict[str, str]:
    """What alarms of one place become: an overrun of an object of which nothing is known is part of
    the pointer's warning, and all that tells more stays."""
    pointer, far = "pointer: value [0,9]", 2**63 - 1
    rows = {
        "a size that isn't known": (
            [pointer, f"overrun: offset [0,0], size [0,{far}]"], [(UNKNOWN, 2)],
        ),
        "a size that is known": (
            [pointer, "overrun: offset [4,4], size [4,4]"], [(UNKNOWN, 1), (OVERRUN, 1)],
        ),
        "one of two sizes is known": (
            [pointer, f"overrun: offset [0,0], size [0,{far}]", "overrun: offset [4,4], size [4,4]"],
            [(UNKNOWN, 1), (OVERRUN, 2)],
        ),
        "a least size": (
            [pointer, f"overrun: offset [4,4], size [4,{far}]"], [(UNKNOWN, 1), (OVERRUN, 1)],
        ),
        "before the object": (
            [pointer, f"overrun: offset [-2,-1], size [0,{far}]"], [(UNKNOWN, 1), (OVERRUN, 1)],
        ),
        "the null pointer": (
            ["pointer: value [0,0]", f"overrun: offset [0,0], size [0,{far}]"],
            [(NULL, 1), (OVERRUN, 1)],
        ),
    }
    faults = {}
    for name, (alarms, want) in rows.items():
        lines = [f"a.c:1:1: {alarm}\n" for alarm in alarms]
        found = fold("".join(lines) + f"{len(lines)} alarms\n").findings
        spots = Spots(OneLine("*p;"), [("a.c", "*p;")], found)
        got = [(finding.kind, finding.alarms) for finding, _ in of_places(found, spots)]
        faults[name] = "" if got == want else str(got)
    return faults


class OneLine(Sources):
    """Sources of which each has one line."""

    def __init__(self, line: str) -> None:
        super().__init__()
        self.only = line

    def lines(self, name: str) -> list[str]:
        return [self.only]


def expression_faults() -> dict[str, str]:
    """The rows of lines where another part is marked, or another expression told."""
    faults = {}
    for row in rows_of("expressions.tsv"):
        name, line, text, column, *want = (field.replace("\\t", "\t") for field in row)
        text = text.replace("\\n", "\n")
        kind = ZERO if name.startswith("divisor") else OVERRUN
        finding = Finding(Place("a.c", 1, int(column)), kind)
        spot = Spots(OneLine(line), [("a.c", text or line)], [finding]).of(finding)
        if spot is None:
            faults[name] = "no spot"
            continue
        got = [str(spot.start + 1), spot.text[spot.start : spot.end]]
        got = [field for field in got if field]
        if spot.expression is not None:
            got += [ROLES[spot.expression.role], spot.expression.whole, spot.expression.followed]
        faults[name] = "" if got == [field for field in want if field] else str(got)
    return faults


def excerpt_faults() -> dict[str, str]:
    """How lines are shown: the line, and the mark below it."""
    rows = {
        "a short line": ("x = a[i];", 4, 8, "x = a[i];", "    ^~~~"),
        "a tab": ("\tx\t= a;", 5, 6, "\tx\t= a;", "\t \t  ^"),
        "an umlaut is one column": ("\xc3\xa4 = a;", 5, 6, "\xe4 = a;", "    ^"),
        "a sign of China is two": ("\xe4\xb8\xad a;", 4, 5, "\u4e2d a;", "   ^"),
        "a mark on a letter is none": ("e\xcc\x81 a;", 4, 5, "e\u0301 a;", "  ^"),
        "a byte that is no text": ("\xff a;", 2, 3, "\ufffd a;", "  ^"),
        "an escape isn't written": ("\x1b[1m a;", 5, 6, "\ufffd[1m a;", "     ^"),
        "the end of a line": ("x", 1, 2, "x", " ^"),
        "a long line": (
            LONG, 100, 103, "..." + "a" * 60 + "[i]" + "b" * 77 + "...", " " * 63 + "^~~",
        ),
        "the start of a long line": (LONG, 0, 1, "a" * 80 + "...", "^"),
        "the end of a long line": (LONG, 302, 303, "..." + "b" * 61, " " * 63 + "^"),
        "a character isn't cut": (
            "\xc3\xa4" * 50 + "b" * 150, 111, 112,
            "..." + "\xe4" * 24 + "b" * 91 + "...", " " * 38 + "^",
        ),
    }
    faults = {}
    for name, (line, start, end, shown, mark) in rows.items():
        excerpt = Excerpt(line, start, end)
        got = (excerpt.line, excerpt.indent + excerpt.mark)
        faults[name] = "" if got == (shown, mark) else str(got)
    return faults


def ignore_faults() -> dict[str, str]:
    """The reasons of comments; None where there is none."""
    rows = {
        "a comment": ("a[i]; /* sparrow: ignore i is small */", "i is small"),
        "to the end of the line": ("a[i]; // sparrow: ignore i is small", "i is small"),
        "without a reason": ("a[i]; /* sparrow: ignore */", ""),
        "open": ("a[i]; /* sparrow: ignore i is", "i is"),
        "blanks": ("a[i]; /*sparrow:   ignore   i */ x", "i"),
        "another comment before": ("/* sparrow */ a[i]; /* sparrow: ignore i */", "i"),
        "another word": ("a[i]; /* sparrow: ignored i */", None),
        "in a string": ('f("/* sparrow: ignore i */");', None),
        "behind a string": ('f("\\"//"); /* sparrow: ignore i */', "i"),
        "a character": ("f('\"'); /* sparrow: ignore i */", "i"),
        "within another": ("/* a // sparrow: ignore i */ a[i];", None),
        "no comment": ("sparrow: ignore = i;", None),
    }
    return {
        name: "" if reason_in(line) == reason else str(reason_in(line))
        for name, (line, reason) in rows.items()
    }


def fingerprint_faults() -> dict[str, str]:
    """What a fingerprint hangs on."""

    def of(*warnings: tuple[str, str, str]) -> list[str]:
        fingerprints = Fingerprints()
        return [fingerprints.next(*warning) for warning in warnings]

    def commented(line: str) -> tuple[str, str, str]:
        return OVERRUN, "a.c", line

    here, other = (OVERRUN, "a.c", "a[i] = 1;"), (OVERRUN, "a.c", "b[i] = 1;")
    rows = {
        "the same again": of(here) == of(here),
        "blanks": of(here) == of((OVERRUN, "a.c", "\t a[i]=1 ;\r")),
        "a comment that ignores": of(here) == of(commented("a[i] = 1; /* sparrow: ignore i */")),
        "another comment": of(here) == of(commented("/* one */ a[/* two */ i] = 1; // three")),
        "an open comment": of(here) == of(commented("a[i] = 1; /* it goes on")),
        "a comment doesn't number equal ones": (
            of(commented("a[i] = 1; /* one */"), here) == of(here, here)
        ),
        "a comment in a string is text": of(commented('f("/* a */");')) != of(commented('f("");')),
        "the text": of(here) != of(other),
        "the kind": of(here) != of((ZERO, "a.c", "a[i] = 1;")),
        "the file": of(here) != of((OVERRUN, "b.c", "a[i] = 1;")),
        "equal ones differ": len(set(of(here, here, here))) == 3,
        "others between don't count": of(here, other, here)[2] == of(here, here)[1],
    }
    return {name: "" if is_so else "it isn't so" for name, is_so in rows.items()}


def other_faults() -> dict[str, str]:
    """Reports and names."""
    text = "a.c:1:2: zero: divisor [0,0]\na.c:1:2: pointer: value [0,0]\n2 alarms\nnode 1 x\n"
    pointers = "a:1:1: pointer: value [0,0]\na:1:1: pointer: value [0,1]\n2 alarms\n"
    folded = fold(text)
    rows = {
        "kinds of a place": ([each.kind for each in folded.findings], [ZERO, NULL]),
        "values": (folded.values, ["node 1 x"]),
        "null and unknown": ([each.kind for each in fold(pointers).findings], [NULL, UNKNOWN]),
        "a colon in a name": (
            fold("a:1:2: b.c:3:4: zero: divisor [0,0]\n1 alarm\n").findings[0].place,
            ("a:1:2: b.c", 3, 4),
        ),
        "a quote in a name": (unescaped('a\\"b\\\\c.c'), 'a"b\\c.c'),
        "a file without an end": (Sources().lines("/dev/zero"), []),
        "no file": (Sources().line("none.c", 1), None),
    }
    return {name: "" if got == want else str(got) for name, (got, want) in rows.items()}


def main() -> int:
    """Tries all rows."""
    tables = {
        "a sentence": sentence_faults(),
        "a place": follower_faults(),
        "an expression": expression_faults(),
        "an excerpt": excerpt_faults(),
        "an ignore": ignore_faults(),
        "a fingerprint": fingerprint_faults(),
        "a report": other_faults(),
    }
    return tell({
        f"{table}: {name}": fault
        for table, faults in tables.items()
        for name, fault in faults.items()
    })


if __name__ == "__main__":
    sys.exit(main())
