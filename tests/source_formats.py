"""The forms of the report of ./sparrow source: what is said of programs with one warning each, a
file full of odd bytes in each form, refusals and failures. JSON is checked by its schema."""

from __future__ import annotations

import json
import os
import re
import subprocess
import sys
import tempfile
from html.parser import HTMLParser
from typing import Any, Callable

from report_schema import schema, schema_faults
from told import tell

HERE = os.path.dirname(os.path.abspath(__file__))
SPARROW = os.path.join(os.path.dirname(HERE), "sparrow")
HEAD = re.compile(
    rb"a\.c:([0-9]+:[0-9]+): warning: ([^\n]*)\n *[0-9]+ \| ([^\n]*)\n *\| ( *)(\^~*)\n"
)
ODD = 'o"d <x>é.c'
# Elements of HTML that have no end.
EMPTY = frozenset(["meta"])

faults: dict[str, str] = {}


def expect(name: str, got: object, want: object) -> None:
    """Notes whether something is as it must be."""
    faults[name] = "" if got == want else f"{got!r}\nand not\n{want!r}"


def run(room: str, *words: str) -> tuple[int, bytes, bytes]:
    """Status, standard output and standard error of ./sparrow source."""
    done = subprocess.run([SPARROW, "source", *words], cwd=room, capture_output=True, check=False)
    return done.returncode, done.stdout, done.stderr


def checked(name: str, form: str, content: bytes) -> Any:
    """What a document of JSON has, which meets its schema."""
    value = json.loads(content.decode("ascii"))
    rule = schema({"json": "report", "sarif": "sarif"}[form])
    expect(f"{name}: schema of {form}", schema_faults(value, rule, rule), [])
    return value


class Page(HTMLParser):
    """The text of a page in its elements; each must be closed in its order."""

    def __init__(self, content: bytes) -> None:
        super().__init__()
        self.opened: list[str] = []
        self.wrong: list[str] = []
        self.texts: dict[str, list[str]] = {}
        self.feed(content.decode("utf-8"))
        self.close()
        self.wrong += self.opened

    def handle_starttag(self, tag: str, attrs: list[tuple[str, str | None]]) -> None:
        if tag not in EMPTY:
            self.opened.append(tag)
        self.texts.setdefault(tag, []).append("")

    def handle_endtag(self, tag: str) -> None:
        if not self.opened or self.opened.pop() != tag:
            self.wrong.append(tag)

    def handle_data(self, data: str) -> None:
        for tag in set(self.opened):
            self.texts[tag][-1] += data


def try_programs(room: str) -> None:
    """The programs of the table."""
    with open(os.path.join(HERE, "report", "warnings.tsv"), encoding="ascii") as rows:
        lines = [line.rstrip("\n").split("\t") for line in rows if not line.startswith("#")]
    for name, text, *want in lines:
        with open(os.path.join(room, "a.c"), "w", encoding="ascii") as file:
            file.write(text.encode("ascii").decode("unicode_escape"))
        status, said, _ = run(room, "a.c")
        got = [
            [place.decode(), line[len(blanks) :][: len(mark)].decode(), message.decode()]
            for place, message, line, blanks, mark in HEAD.findall(said)
        ]
        expect(f"a program: {name}", (status, got), (1, [want]))
        is_counted = b"\n1 warning at 1 place" in said
        expect(f"a program: {name}: its count", is_counted, True)


def try_order(room: str) -> None:
    """Warnings of a macro that turns its arguments round: they are sorted by their places, and what
    it stands for has one warning of each kind."""
    with open(os.path.join(room, "order.c"), "w", encoding="ascii") as file:
        file.write(
            "#define SWAP(a, b) b + a\n#define BOTH(p) p[3] + *(p - 1) + 5 / n + p[2] / n\n"
            "int x[3], y[3], n;\n"
            "int f(void);\n"
            "int main(void) { n = SWAP(x[3], y[4]) + f(); return 0; }\n"
            "int f(void) { return BOTH(x); }\n"
        )
    want = [(5, 27, 1), (5, 33, 1), (6, 22, 2), (6, 22, 2)]
    said = run(room, "order.c")[1].decode()
    places = [tuple(map(int, each)) for each in re.findall(r"(\d+):(\d+): warning", said)]
    expect("order: text", places, [place[:2] for place in want])
    count = "4 warnings at 3 places, folded from 6 alarms"
    expect("order: its count", said.splitlines()[-1], count)
    warnings = checked("order", "json", run(room, "--format=json", "order.c")[1])["warnings"]
    got = [(each["line"], each["column"], each["alarms"]) for each in warnings]
    expect("order: json", got, want)
    hull = (warnings[2]["kind"], warnings[2]["offset"])
    expect("order: a hull", hull, ("buffer-overrun", [-1, 3]))
    value = checked("order", "sarif", run(room, "--format=sarif", "order.c")[1])
    regions = [
        each["locations"][0]["physicalLocation"]["region"] for each in value["runs"][0]["results"]
    ]
    got = [(each["startLine"], each["startColumn"]) for each in regions]
    expect("order: sarif", got, [place[:2] for place in want])
    page = Page(run(room, "--format=html", "order.c")[1])
    told = [each.split(":")[0] for each in page.texts["td"] if re.match(r"\d+: ", each)]
    expect("order: html", told, [str(column) for _, column, _ in want])


def write_odd(room: str) -> None:
    """A file with a name, bytes and lines as they are seldom, whose each statement alarms."""
    lines = [
        b"int a[3]; enum { n = 3 };",
        b"int main(void) {",
        b"\ta[n] = 1; /* \xc3\xa9 \xff \x1b[1m <b>&amp; \" */ a[n] = 2;\r",
        b"/* \xc3\xa9 */ a[n] = 3;",
        b"/*" + b"x" * 50000 + b"*/ a[n] = 4; /*" + b"y" * 50000 + b"*/",
        b'#include "<h>.h"',
        b'#line 70 "gone.c"',
        b"a[n] = 6;",
        b'#line 71 "short.c"',
        b"a[n] = 7;",
        b"return 0; }",
        b"",
    ]
    with open(os.path.join(room, ODD), "wb") as file:
        file.write(b"\n".join(lines))
    for name, text in (("<h>.h", "\n  a[n] = 5;\n"), ("short.c", "int a;\n")):
        with open(os.path.join(room, name), "w", encoding="ascii") as file:
            file.write(text)


# File, line, column in bytes, and column in characters. The third line is no UTF-8.
PLACES = [
    ("<h>.h", 2, 3, 3),
    ("gone.c", 70, 1, 1),
    (ODD, 3, 2, 2),
    (ODD, 3, 39, 39),
    (ODD, 4, 10, 9),
    (ODD, 5, 50006, 50006),
    ("short.c", 71, 1, 1),
]


def try_odd(room: str) -> None:
    """The odd file in each form."""
    write_odd(room)
    status, said, errors = run(room, ODD)
    lines = said.decode("utf-8").split("\n")
    places = [line.split(": warning:")[0] for line in lines if "warning: " in line]
    expect("odd: places of text", places, [f"{name}:{line}:{at}" for name, line, at, _ in PLACES])
    expect("odd: status of text", (status, errors), (1, b""))
    expect("odd: last line", lines[-2:], ["7 warnings at 7 places", ""])
    shown = '    3 | \ta[n] = 1; /* é \ufffd \ufffd[1m <b>&amp; " */ a[n] = 2;'
    expect("odd: a line", lines.count(shown), 2)
    expect("odd: its mark", "      | \t" + " " * 36 + "^~~~" in lines, True)
    cut = "    5 | ..." + "x" * 57 + "*/ a[n] = 4; /*" + "y" * 68 + "..."
    expect("odd: a long line is cut", cut in lines, True)
    expect("odd: its mark", "      | " + " " * 63 + "^~~~" in lines, True)

    value = checked("odd", "json", run(room, "--format=json", ODD)[1])
    told = [(each["file"], each["line"], each["column"]) for each in value["warnings"]]
    expect("odd: places of json", told, [place[:3] for place in PLACES])
    expect("odd: json", value["warnings"][4], {
        "file": ODD, "line": 4, "column": 10, "analysed": {"line": 4, "column": 10},
        "kind": "buffer-overrun", "expression": "a[n]",
        "message": "'a[n]' may be accessed at offset 3, but the object has 3 elements",
        "offset": [3, 3], "count": [1, 1], "size": [3, 3], "alarms": 1,
        "fingerprint": value["warnings"][4]["fingerprint"],
    })
    try_odd_sarif(room)
    page = Page(run(room, "--format=html", ODD)[1])
    expect("odd: html is closed", page.wrong, [])
    expect("odd: html has no script", page.texts.get("script"), None)
    expect("odd: files of html", page.texts["h2"], ["<h>.h", "gone.c", ODD, "short.c"])
    expect("odd: marks of html", page.texts["mark"], ["a[n]"] * 5)


def try_odd_sarif(room: str) -> None:
    """The odd file as SARIF."""
    value = checked("odd", "sarif", run(room, "--format=sarif", ODD)[1])
    places = []
    for each in value["runs"][0]["results"]:
        place = each["locations"][0]["physicalLocation"]
        region = place["region"]
        uri = place["artifactLocation"]["uri"]
        places.append((uri, region["startLine"], region["startColumn"]))
    uris = {ODD: "o%22d%20%3Cx%3E%C3%A9.c", "<h>.h": "%3Ch%3E.h"}
    want = [(uris.get(file, file), line, column) for file, line, _, column in PLACES]
    expect("odd: places of sarif", places, want)
    region = value["runs"][0]["results"][4]["locations"][0]["physicalLocation"]["region"]
    expect("odd: a region", region, {"startLine": 4, "startColumn": 9, "endColumn": 13})
    rules = value["runs"][0]["tool"]["driver"]["rules"]
    result = value["runs"][0]["results"][0]
    expect("odd: its rule", rules[result["ruleIndex"]]["id"], "buffer-overrun")


def try_refusals(room: str) -> None:
    """A refusal in each form."""
    with open(os.path.join(room, "r.c"), "w", encoding="ascii") as file:
        file.write("int main(void)\n{\n  return /* it */ missing;\n}\n")
    status, said, errors = run(room, "r.c")
    want = (
        b"r.c:3:19: error: undeclared name: missing [F8]\n"
        b"    3 |   return /* it */ missing;\n"
        b"      |                   ^~~~~~~\n"
        b"nothing is analysed: 1 error\n"
    )
    expect("a refusal: text", (status, said), (2, want))
    hint = "is it misspelt, or does no header here have it?"
    hint += " -DNAME=VALUE gives a constant, and -DNAME=TYPE a type"
    expect("a refusal: its hint", errors.decode(), f"sparrow: hint: {hint}\n")
    status, said, _ = run(room, "--format=json", "r.c")
    value = checked("a refusal", "json", said)
    expect("a refusal: json", (status, value["status"], value["refusals"]), (2, 2, [{
        "file": "r.c", "line": 3, "column": 19, "analysed": {"line": 3, "column": 10},
        "message": "undeclared name: missing", "code": "F8", "hint": hint,
    }]))
    value = checked("a refusal", "sarif", run(room, "--format=sarif", "r.c")[1])
    call = value["runs"][0]["invocations"][0]
    note = call["toolExecutionNotifications"][0]
    expect("a refusal: sarif", (call["executionSuccessful"], call["exitCode"]), (False, 2))
    expect("a refusal: its code in sarif", note["descriptor"]["id"], "F8")
    page = Page(run(room, "--format=html", "r.c")[1])
    expect("a refusal: html", (page.wrong, page.texts["mark"]), ([], ["missing"]))


def try_failures(room: str) -> None:
    """A failure in each form."""
    gone = "none.c can't be read: no such file"
    for form in ("text", "plain", "json", "sarif", "html"):
        status, said, errors = run(room, f"--format={form}", "none.c")
        expect(f"a failure: {form}", (status, errors.decode()), (4, f"sparrow: {gone}\n"))
        if form in ("text", "plain"):
            expect(f"a failure: nothing in {form}", said, b"")
        elif form == "html":
            expect("a failure: html", Page(said).texts["p"], [gone])
        else:
            value = checked("a failure", form, said)
            if form == "sarif":
                value = value["runs"][0]["invocations"][0]["toolExecutionNotifications"][0]
            told = value["failure"] if form == "json" else value["message"]["text"]
            expect(f"a failure: {form} tells it", told, gone)


def try_hints(room: str) -> None:
    """What may help against a failure, and against a library's refusal, in each form."""
    for name, text in (("fails.c", '#include "none.h"\n'), ("library.c", "int f(void);\n")):
        with open(os.path.join(room, name), "w", encoding="ascii") as file:
            file.write(text)
    failure = "fails.c was not preprocessed by gcc -E"
    hint = "-I tells in which folder none.h is"
    value = checked("a hint", "json", run(room, "--format=json", "fails.c")[1])
    expect("a hint: json", (value["failure"], value["hint"]), (failure, hint))
    value = checked("a hint", "sarif", run(room, "--format=sarif", "fails.c")[1])
    told = value["runs"][0]["invocations"][0]["toolExecutionNotifications"][0]["message"]["text"]
    expect("a hint: sarif", told, f"{failure} (hint: {hint})")
    page = Page(run(room, "--format=html", "fails.c")[1])
    expect("a hint: html", page.texts["p"], [failure, f"hint: {hint}"])
    value = checked("no hint", "json", run(room, "--format=json", "none.c")[1])
    expect("no hint: json", "hint" in value, False)
    value = checked("a library", "json", run(room, "--format=json", "library.c")[1])
    hint = "give all files of one program; a library needs a main that calls it"
    told = [(each["code"], each["hint"]) for each in value["refusals"]]
    expect("a library's hint: json", told, [("F25", hint)])


def try_words(room: str) -> None:
    """The words that choose a form, and where it goes."""
    one = os.path.join(room, "one.c")
    with open(one, "w", encoding="ascii") as file:
        file.write("int a[3];\nint main(void) { a[3] = 1; return 0; }\n")
    plain = (1, b"one.c:2:18: overrun: offset [3,3], size [3,3]\n1 alarm\n", b"")
    expect("plain", run(room, "--format=plain", "one.c"), plain)
    expect("a form in the next word", run(room, "--format", "plain", "one.c"), plain)
    text = run(room, "one.c")[1]
    for form in ("text", "plain", "json", "sarif", "html"):
        out = run(room, f"--format={form}", "one.c")[1]
        written = run(room, f"--format={form}", "--output", f"out.{form}", "one.c")
        with open(os.path.join(room, f"out.{form}"), "rb") as file:
            expect(f"--output of {form}", (written, file.read()), ((1, b"", b""), out))
    expect("a file that can't be written", run(room, "--output=none/out", "one.c"),
           (5, b"", b"sparrow: none/out can't be written: no such file\n"))
    forms = b"text, plain, json, sarif, html"
    expect("no such form", run(room, "--format=xml", "one.c"),
           (3, b"", b"sparrow: --format is one of " + forms + b", and not xml\n"))
    expect("a form is missing", run(room, "one.c", "--format")[:2],
           (3, b"usage: sparrow COMMAND [OPTION] WORD..\n"))
    colored = run(room, "--color=always", "one.c")[1]
    expect("colours", b"\x1b[1;35mwarning:\x1b[0m" in colored, True)
    expect("nothing but colours", re.sub(rb"\x1b\[[0-9;]*m", b"", colored), text)
    expect("values", run(room, "--values", "one.c")[1].startswith(text), True)
    value = checked("values", "json", run(room, "--values", "--format=json", "one.c")[1])
    expect("values: json", all(each.startswith("node ") for each in value["values"]), True)
    expect("values: sarif", run(room, "--values", "--format=sarif", "one.c")[0], 3)
    for mode in ("sharp", "plain"):
        value = checked(mode, "json", run(room, f"--{mode}", "--format=json", "one.c")[1])
        expect(f"the mode {mode}: json", value["mode"], mode)
        value = checked(mode, "sarif", run(room, f"--{mode}", "--format=sarif", "one.c")[1])
        told = value["runs"][0]["invocations"][0]["properties"]
        expect(f"the mode {mode}: sarif", told, {"mode": mode})
    value = checked("a mode by itself", "json", run(room, "--format=json", "one.c")[1])
    expect("source is sharp by itself", value["mode"], "sharp")


def try_terminal(room: str) -> None:
    """Colours by themselves on a terminal, and not where NO_COLOR says so."""
    code = "import pty, sys; pty.spawn(sys.argv[1:])"
    for name, variables, has_colors in (
        ("a terminal", {"TERM": "xterm"}, True),
        ("NO_COLOR", {"TERM": "xterm", "NO_COLOR": "1"}, False),
        ("a dumb terminal", {"TERM": "dumb"}, False),
    ):
        words = [sys.executable, "-I", "-c", code, SPARROW, "source", "one.c"]
        environment = {key: value for key, value in os.environ.items() if key != "NO_COLOR"}
        done = subprocess.run(
            words, cwd=room, env={**environment, **variables}, stdin=subprocess.DEVNULL,
            capture_output=True, check=False,
        )
        got = (b"1 warning" in done.stdout, b"\x1b[1;35m" in done.stdout)
        expect(f"colours: {name}", got, (True, has_colors))


def try_schema(room: str) -> None:
    """A document that breaks the standard is told by the schema of SARIF."""
    with open(os.path.join(room, "break.c"), "w", encoding="ascii") as file:
        file.write("int a[3]; int main(void) { a[3] = 1; return 0; }\n")
    content = run(room, "--format=sarif", "break.c")[1]
    rule = schema("sarif")
    breaks: dict[str, Callable[[Any], object]] = {
        "another version": lambda value: value.update(version="2.0.0"),
        "no message": lambda value: value["runs"][0]["results"][0].pop("message"),
        "a member too many": lambda value: value["runs"][0]["results"][0].update(mark=1),
        "another level": lambda value: value["runs"][0]["results"][0].update(level="bad"),
        "a line below 1": lambda value: region_of(value).update(startLine=0),
        "a rule twice": lambda value: rules_of(value).append(rules_of(value)[0]),
        "an address with a blank": lambda value: location_of(value).update(uri="a b.c"),
    }
    for name, change in breaks.items():
        value = json.loads(content)
        change(value)
        expect(f"broken: {name}", bool(schema_faults(value, rule, rule)), True)


def location_of(value: Any) -> Any:
    """The file of the first result."""
    return value["runs"][0]["results"][0]["locations"][0]["physicalLocation"]["artifactLocation"]


def region_of(value: Any) -> Any:
    """The region of the first result."""
    return value["runs"][0]["results"][0]["locations"][0]["physicalLocation"]["region"]


def rules_of(value: Any) -> Any:
    """The rules of the tool."""
    return value["runs"][0]["tool"]["driver"]["rules"]


def main() -> int:
    """Tries all."""
    with tempfile.TemporaryDirectory() as room:
        try_programs(room)
        try_order(room)
        try_schema(room)
        try_odd(room)
        try_refusals(room)
        try_failures(room)
        try_hints(room)
        try_words(room)
        try_terminal(room)
    return tell(faults)


if __name__ == "__main__":
    sys.exit(main())
