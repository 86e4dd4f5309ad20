"""The causes of warnings that `./sparrow source --why` tells: tests/report/causes.tsv. A row has a
name, a program with one warning, and the places and texts of its notes with `|` between them."""

from __future__ import annotations

import json
import os
import re
import subprocess
import sys
import tempfile

from report_schema import schema, schema_faults
from told import tell

HERE = os.path.dirname(os.path.abspath(__file__))
SPARROW = os.path.join(os.path.dirname(HERE), "sparrow")

faults: dict[str, str] = {}


def expect(name: str, got: object, want: object) -> None:
    """Notes whether something is as it must be."""
    faults[name] = "" if got == want else f"{got!r}\nand not\n{want!r}"


def source(room: str, *words: str) -> tuple[int, str, str]:
    """Status, standard output and standard error of ./sparrow source."""
    done = subprocess.run(
        [SPARROW, "source", *words], cwd=room, capture_output=True, text=True, check=False
    )
    return done.returncode, done.stdout, done.stderr


def write(room: str, text: str) -> None:
    """Writes the program of a row."""
    with open(os.path.join(room, "a.c"), "w", encoding="ascii") as file:
        file.write(text.replace("\\n", "\n"))


def try_rows(room: str) -> None:
    """What is said of each program's warning."""
    with open(os.path.join(HERE, "report", "causes.tsv"), encoding="ascii") as table:
        rows = [line.rstrip("\n").split("\t") for line in table if not line.startswith("#")]
    rule = schema("report")
    for name, text, want in rows:
        write(room, text)
        report = json.loads(source(room, "--why", "--format=json", "a.c")[1])
        expect(f"{name}: schema", schema_faults(report, rule, rule), [])
        told = [
            f"{note['line']}:{note['column']} {note['message']}"
            for warning in report["warnings"][:1] if "reason" in warning
            for note in (warning["reason"], *warning["reason"]["steps"])
        ]
        expect(f"{name}: one warning", len(report["warnings"]), 1)
        # A block has the number of its node.
        expect(name, re.sub(r"%(heap|ext)\.[0-9]+", r"%\1.N", "|".join(told)), want)


def try_objects(room: str) -> None:
    """The objects that an access through a pointer may leave: those whose size is told."""
    write(room, "int a[3];\nint main(int n, char **v)\n{\n  int b[5], c[9];\n  int *p = n ? a : b;\n"
                "  if (n > 2)\n    p = c;\n  return p[4];\n}\n")
    report = json.loads(source(room, "--why", "--format=json", "a.c")[1])
    told = [
        f"{note['line']}:{note['column']} {note['message']}"
        for note in report["warnings"][0]["objects"]
    ]
    expect("an object that the access may leave", told, ["1:5 it may be in 'a[]'"])
    lines = source(room, "--why", "a.c")[1].splitlines()
    expect("it is a note in text", lines[3], "a.c:1:5: note: it may be in 'a[]'")


# Names, declarations, statements of main that have one warning, and the notes of its objects.
OBJECTS = (
    ("an array by its name", "int a[3];", "a[i] = 1;", ["1:5 'a' is declared here"]),
    ("a local array", "", "int b[2]; b[i] = 1;", ["4:23 'main.b' is declared here"]),
    ("an array in an array is one", "int a[2][3];", "a[1][i] = 1;", ["1:5 'a' is declared here"]),
    ("a member", "struct { int n, a[2]; } s;", "s.a[i] = 1;", ["1:25 's.a' is declared here"]),
    ("a member through a pointer", "struct s { int a[2]; } s, *to = &s;", "to->a[i] = 1;",
     ["1:24 it may be in 's.a[]'"]),
    ("a result that is followed", "int a[3]; int *f(void) { return a; }", "f()[i] = 1;",
     ["1:5 it may be in 'a[]'"]),
    ("a block of a constant size", "void *malloc(unsigned long);", "char *p = malloc(2); p[i] = 1;",
     ["4:29 it may be in '%heap.N'"]),
    ("a block that is assigned", "void *malloc(unsigned long);",
     "char *p; p = (char *)malloc(3); p[i] = 1;", ["4:40 it may be in '%heap.N'"]),
    ("a string has no place", "", 'char *p = "ab"; i = p[i];', []),
)


def try_places(room: str) -> None:
    """Where the object is declared that an access leaves, or allocated."""
    for name, head, statements, want in OBJECTS:
        body = f"  int i = 3;      {statements}\n  return 0;\n"
        write(room, f"{head}\nint main(void)\n{{\n{body}}}\n")
        warnings = json.loads(source(room, "--why", "--format=json", "a.c")[1])["warnings"]
        told = [
            re.sub("heap.[0-9]+", "heap.N", f"{note['line']}:{note['column']} {note['message']}")
            for each in warnings for note in each.get("objects", ())
        ]
        expect(f"{name}: one warning", len(warnings), 1)
        expect(f"the place of {name}", told, want)
    write(room, "#include <stdlib.h>\nstatic char *get(void)\n{\n  static char kept[2];\n"
                "  return kept[0] ? malloc(2) : kept;\n}\nint main(void)\n{\n  char *p = get();\n"
                "  char *q = get();\n  q[0] = 1;\n  return p[2];\n}\n")
    warnings = json.loads(source(room, "--why", "--format=json", "a.c")[1])["warnings"]
    told = sorted({(note["line"], note["column"]) for note in warnings[0]["objects"]})
    expect("objects of a copy stand where the function has them", told, [(4, 15), (5, 20)])


def try_arguments(room: str) -> None:
    """What main is given is memory from outside: a pointer that is read there may be any."""
    write(room, "int main(int n, char **v)\n{\n  return **v;\n}\n")
    report = json.loads(source(room, "--why", "--format=json", "a.c")[1])
    told = {each["kind"]: each["reason"]["message"] for each in report["warnings"]}
    want = {
        "buffer-overrun": "'main.v' is a parameter of main",
        "unknown-pointer": "'%ext.0' is memory from outside",
    }
    expect("arguments of main", told, want)


def try_forms(room: str) -> None:
    """The same cause in all forms of the report, and of more warnings than one."""
    write(room, "int *p;\nint main(void)\n{\n  int *q = p;\n  *q = 1;\n  q = p;\n  return *q;\n}\n")
    notes = [
        "a.c:1:6: note: 'p' starts as 0", "    1 | int *p;", "      |      ^",
        "a.c:4:8: note: 'main.q' gets it from 'p'", "    4 |   int *q = p;", "      |        ^",
    ]
    lines = source(room, "--why", "a.c")[1].splitlines()
    expect("text: notes", lines[3:9], notes)
    expect("text: behind each warning", lines[12:18], notes)
    last = ["2 warnings at 2 places", "2 come of a.c:1:6: 'p' starts as 0"]
    expect("text: what they come of", lines[18:], last)
    expect("without it there are none", "note:" in source(room, "a.c")[1], False)
    value = json.loads(source(room, "--why", "--format=sarif", "a.c")[1])
    rule = schema("sarif")
    expect("sarif: schema", schema_faults(value, rule, rule), [])
    related = value["runs"][0]["results"][0]["relatedLocations"]
    said = [each["message"]["text"] for each in related]
    expect("sarif: notes", said, ["'p' starts as 0", "'main.q' gets it from 'p'"])
    page = source(room, "--why", "--format=html", "a.c")[1]
    expect("html: notes", page.count("a.c:1:6: &#x27;p&#x27; starts as 0"), 2)
    values = source(room, "--why", "--values", "a.c")[1].splitlines()
    expect("values: they stay", "node 2 a.c:4:8: p = [0,0]" in values, True)
    # The alarms of nodes, which the causes are found by, aren't told.
    expect("values: no alarm among them", any("pointer: value" in line for line in values), False)


def try_modes(room: str) -> None:
    """Values behind an access lie within it in the sharp mode; what is said of them holds there."""
    write(room, "int a[3], b[2];\nint main(int n, char **v)\n{\n  int i = n;\n  a[i] = 0;\n"
                "  b[i] = 0;\n  a[i] = b[0];\n  return 0;\n}\n")
    steps = ["2:14 'main.n' is a parameter of main", "4:7 'main.i' gets it from 'main.n'"]
    for mode, want in (
        ("--sharp", [(5, [-(2**31), 2**31 - 1]), (6, [0, 2])]),
        ("--plain", [(line, [-(2**31), 2**31 - 1]) for line in (5, 6, 7)]),
    ):
        warnings = json.loads(source(room, mode, "--why", "--format=json", "a.c")[1])["warnings"]
        expect(f"{mode}: offsets", [(each["line"], each["offset"]) for each in warnings], want)
        for each in warnings:
            notes = (each["reason"], *each["reason"]["steps"])
            told = [f"{note['line']}:{note['column']} {note['message']}" for note in notes]
            expect(f"{mode}: the cause in line {each['line']}", told, steps)


def try_words(room: str) -> None:
    """The word with others, and programs without a warning."""
    write(room, "int main(void) { return 0; }\n")
    expect("no warning", source(room, "--why", "a.c"), (0, "0 warnings\n", ""))
    said = "sparrow: --why and --format=plain don't go together\n"
    expect("plain", source(room, "--why", "--format=plain", "a.c"), (3, "", said))
    write(room, "int main(void) { return n; }\n")
    expect("a refusal", source(room, "--why", "a.c")[0], 2)


def main() -> int:
    """Tries all."""
    with tempfile.TemporaryDirectory() as room:
        try_rows(room)
        try_objects(room)
        try_places(room)
        try_arguments(room)
        try_forms(room)
        try_modes(room)
        try_words(room)
    return tell(faults)


if __name__ == "__main__":
    sys.exit(main())
