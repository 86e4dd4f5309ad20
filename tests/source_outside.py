"""Which functions from outside are told, since they may write through a pointer that they are given:
the rows of tests/source/outside.tsv, and how ./sparrow source tells it in each form of a report."""

from __future__ import annotations

import json
import os
import subprocess
import sys
import tempfile

from report_schema import schema, schema_faults
from told import tell

HERE = os.path.dirname(os.path.abspath(__file__))
TOP = os.path.dirname(HERE)
sys.path.insert(0, os.path.join(TOP, "source"))

from outside.program import given_pointers  # noqa: E402
from outside.words import may_call_others  # noqa: E402

FILES = "\f"
READS = """#include <stdio.h>
int main(void)
{
  char line[80], *end = line;
  int n = 0;
  FILE *file = fopen("a", "r");
  if (file == NULL || fgets(line, sizeof line, file) == NULL)
    return 1;
  scanf("%d", &n);
  sscanf(line, "%d", &n);
  printf("%s %d %p\\n", line, n, (void *)end);
  fclose(file);
  return n;
}
"""
ONE = "#include <stdio.h>\nint main(void) { int n = 0; scanf(\"%d\", &n); return n; }\n"
NONE = "#include <stdio.h>\nint main(void) { puts(\"a\"); fputs(\"b\", stdout); return 0; }\n"
NOTE = "3 functions from outside were given a pointer and are taken to write nothing: "
NOTE += "fgets, scanf, sscanf"
NOTE_OF_ONE = "1 function from outside was given a pointer and is taken to write nothing: scanf"

faults: dict[str, str] = {}


def expect(name: str, got: object, want: object) -> None:
    """Notes whether something is as it must be."""
    faults[name] = "" if got == want else f"{got!r}\nand not\n{want!r}"


def try_rows() -> None:
    """The table: a name, the functions or -, and a text or several."""
    with open(os.path.join(HERE, "source", "outside.tsv"), encoding="ascii") as rows:
        for row in rows:
            name, functions, text = row.rstrip("\n").split("\t")
            texts = text.encode().decode("unicode_escape").split(FILES)
            wanted = [] if functions == "-" else functions.split()
            expect(name, given_pointers(texts), wanted)
            if wanted:
                expect(f"{name}: the first look", any(map(may_call_others, texts)), True)


def run(room: str, text: str, *words: str) -> tuple[int, str, str]:
    """Status, standard output and standard error of ./sparrow source, without models."""
    with open(os.path.join(room, "a.c"), "w", encoding="ascii") as file:
        file.write(text)
    command = [os.path.join(TOP, "sparrow"), "source", "--no-models", *words, "a.c"]
    done = subprocess.run(command, cwd=room, capture_output=True, text=True, check=False)
    return done.returncode, done.stdout, done.stderr


def try_forms(room: str) -> None:
    """What is said, and where."""
    said = f"sparrow: {NOTE}\n"
    expect("text", run(room, READS), (0, "0 warnings\n", said))
    expect("plain", run(room, READS, "--format=plain"), (0, "0 alarms\n", said))
    expect("without rewriting", run(room, READS, "--strict"), (0, "0 warnings\n", said))
    expect("without copies", run(room, READS, "--no-contexts"), (0, "0 warnings\n", said))
    expect("a report in a file", run(room, READS, "--output", "out"), (0, "", said))
    expect("one function", run(room, ONE)[2], f"sparrow: {NOTE_OF_ONE}\n")
    expect("none", run(room, NONE), (0, "0 warnings\n", ""))
    begun = "__attribute__((constructor)) static void f(void) { }\n"
    ended = "static void g(void) __attribute__((__destructor__(101)));\n"
    said_of_one = "1 function is a constructor or destructor, which nothing here calls: a.c:1:1"
    said_of_two = "2 functions are constructors or destructors, which nothing here calls: "
    expect("a constructor", run(room, begun + NONE)[2], f"sparrow: {said_of_one}\n")
    two = run(room, begun + ended + NONE, "--format=json")
    expect("and a destructor", json.loads(two[1])["notes"], [f"{said_of_two}a.c:1:1, a.c:2:21"])
    unused = "__attribute__((unused)) static int constructor;\n"
    expect("another attribute", run(room, unused + NONE), (0, "0 warnings\n", ""))
    expect("refused", run(room, READS + "int x = y;\n")[::2][0], 2)
    _, content, errors = run(room, READS, "--format=json")
    value, rule = json.loads(content), schema("report")
    expect("json", (value["notes"], errors), ([NOTE], said))
    expect("json: its schema", schema_faults(value, rule, rule), [])
    expect("json: none", "notes" in json.loads(run(room, NONE, "--format=json")[1]), False)
    value, rule = json.loads(run(room, READS, "--format=sarif")[1]), schema("sarif")
    notes = value["runs"][0]["invocations"][0]["toolExecutionNotifications"]
    expect("sarif", notes, [{"level": "note", "message": {"text": NOTE}}])
    expect("sarif: its schema", schema_faults(value, rule, rule), [])
    page = run(room, READS, "--format=html")[1]
    expect("html", f'<p class="quiet">{NOTE}</p>' in page, True)


def main() -> int:
    """Tries all."""
    try_rows()
    with tempfile.TemporaryDirectory() as room:
        try_forms(room)
    return tell(faults)


if __name__ == "__main__":
    sys.exit(main())
