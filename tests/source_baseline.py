"""What ./sparrow source takes out of its report: the warnings of a baseline, which stays where
lines move, and those that a comment in their line ignores. Then the time that many alarms take."""

from __future__ import annotations

import json
import os
import resource
import subprocess
import sys
import tempfile

from report_schema import schema, schema_faults
from told import tell

HERE = os.path.dirname(os.path.abspath(__file__))
TOP = os.path.dirname(HERE)
SPARROW = os.path.join(TOP, "sparrow")

HEAD = "int a[3];\nint main(void)\n{\n"
FIRST = "  a[3] = 1;\n"
SECOND = "  a[4] = 2;\n"
TAIL = "  return 0;\n}\n"

faults: dict[str, str] = {}


def expect(name: str, got: object, want: object) -> None:
    """Notes whether something is as it must be."""
    faults[name] = "" if got == want else f"{got!r}\nand not\n{want!r}"


class Room:
    """A folder with one program."""

    def __init__(self, folder: str) -> None:
        self.folder = folder

    def path(self, name: str) -> str:
        """The path of a file."""
        return os.path.join(self.folder, name)

    def write(self, text: str, name: str = "a.c") -> None:
        """Writes a file."""
        with open(self.path(name), "w", encoding="ascii") as file:
            file.write(text)

    def run(self, *words: str) -> tuple[int, str, str]:
        """Status, standard output and standard error of ./sparrow source."""
        done = subprocess.run(
            [SPARROW, "source", *words, "a.c"],
            cwd=self.folder, capture_output=True, text=True, check=False,
        )
        return done.returncode, done.stdout, done.stderr

    def last(self, *words: str) -> tuple[int, str]:
        """The status and the last line of the report."""
        status, said, errors = self.run(*words)
        return status, (said or errors).splitlines()[-1]


def try_baseline(room: Room) -> None:
    """A baseline, and what changes behind its back."""
    known = ("--baseline", "known.json")
    new = (*known, "--fail-on=new")
    room.write(HEAD + FIRST + FIRST + TAIL)
    missing = "sparrow: known.json can't be read: no such file\n"
    missing += "sparrow: hint: --update-baseline writes it\n"
    expect("no baseline yet", room.run(*known)[::2], (4, missing))
    none = "0 new warnings; 2 in the baseline"
    expect("it is written", room.last(*known, "--update-baseline"), (1, none))
    expect("all are known", room.last(*known), (1, none))
    expect("none is new", room.last(*new), (0, none))
    expect("nor in the other mode", room.last(*new, "--plain"), (0, none))
    room.write("/* moved */\n\n" + HEAD + "  a[0] = 0;\n" + FIRST + "\t a[3]=1;\n" + TAIL)
    expect("lines have moved, and blanks", room.last(*new), (0, none))
    room.write(HEAD + FIRST + SECOND + FIRST + TAIL)
    one = "1 new warning at 1 place; 2 in the baseline"
    expect("a new one between", room.last(*new), (1, one))
    said = room.run(*new)[1].splitlines()[0]
    place = "a.c:5:3: warning: 'a[4]' may be accessed at offset 4, but the object has 3 elements"
    expect("it alone is told", said, f"{place} [buffer-overrun]")
    room.write(HEAD + FIRST + FIRST + FIRST + TAIL)
    expect("a third that is equal", room.last(*new), (1, one))
    room.write(HEAD + FIRST + TAIL)
    gone = "0 new warnings; 1 in the baseline, which has 1 more"
    expect("one is gone", room.last(*new), (0, gone))
    room.write(HEAD + FIRST + SECOND + TAIL)
    value = json.loads(room.run(*known, "--format=json")[1])
    expect("json: states", [each["baseline"] for each in value["warnings"]], ["unchanged", "new"])
    expect("json: the baseline", value["baseline"], {"file": "known.json", "gone": 1})
    rule = schema("report")
    expect("json: its schema", schema_faults(value, rule, rule), [])
    value = json.loads(room.run(*known, "--format=sarif")[1])
    results = value["runs"][0]["results"]
    expect("sarif: states", [each["baselineState"] for each in results], ["unchanged", "new"])
    expect("all are new anew", room.last(*known, "--update-baseline", "--fail-on=new")[0], 0)
    with open(room.path("known.json"), encoding="ascii") as file:
        kept = [each["text"] for each in json.load(file)["warnings"]]
    expect("what is kept for readers", kept, ["a[3] = 1;", "a[4] = 2;"])


def try_bad_baselines(room: Room) -> None:
    """Files that are no baselines, and words that don't go together."""
    room.write(HEAD + TAIL)
    none = "sparrow: bad.json is no baseline"
    head = '"format": "sparrow-baseline", "version"'
    for name, text, said in (
        ("no JSON", "{", none),
        ("a list", "[]", none),
        ("another format", '{"format": "other", "version": 1, "warnings": []}', none),
        ("a later version", f'{{{head}: 2, "warnings": []}}', none),
        ("no warnings", f"{{{head}: 1}}", none),
        ("no fingerprint", f'{{{head}: 1, "warnings": [{{}}]}}',
         "sparrow: bad.json has a warning without its fingerprint"),
        ("a list for one", f'{{{head}: 1, "warnings": [{{"fingerprint": []}}]}}',
         "sparrow: bad.json has a warning without its fingerprint"),
    ):
        room.write(text, "bad.json")
        expect(f"a bad baseline: {name}", room.last("--baseline=bad.json"), (3, said))
    needs = "needs --baseline FILE"
    expect("no file to update", room.last("--update-baseline"),
           (3, f"sparrow: --update-baseline {needs}"))
    expect("nothing is new", room.last("--fail-on=new"), (3, f"sparrow: --fail-on=new {needs}"))
    expect("plain has no baseline", room.last("--baseline=bad.json", "--format=plain"),
           (3, "sparrow: --baseline and --format=plain don't go together"))
    room.write("int main(void) { return missing; }\n")
    room.write("kept", "kept.json")
    expect("a refused program", room.run("--baseline=kept.json", "--update-baseline")[0], 2)
    with open(room.path("kept.json"), encoding="ascii") as file:
        expect("leaves its baseline", file.read(), "kept")


IGNORED = "  a[3] = 1; /* sparrow: ignore it is <here> */\n"


def try_ignoring(room: Room) -> None:
    """Comments that ignore."""
    room.write(HEAD + IGNORED + SECOND + TAIL)
    expect("one is ignored", room.last(), (1, "1 warning at 1 place; 1 ignored"))
    value = json.loads(room.run("--format=json")[1])
    told = [each["justification"] for each in value["ignored"]]
    expect("json: why", (len(value["warnings"]), told), (1, ["it is <here>"]))
    rule = schema("report")
    expect("json: its schema", schema_faults(value, rule, rule), [])
    value = json.loads(room.run("--format=sarif")[1])
    told = [each["suppressions"] for each in value["runs"][0]["results"]]
    why = [{"kind": "inSource", "justification": "it is <here>"}]
    expect("sarif: all tell", told, [[], why])
    rule = schema("sarif")
    expect("sarif: its schema", schema_faults(value, rule, rule), [])
    page = room.run("--format=html")[1]
    expect("html: why", "it is &lt;here&gt;" in page, True)
    room.write(HEAD + IGNORED + TAIL)
    expect("all are ignored", room.last(), (0, "0 warnings; 1 ignored"))
    words = ("--baseline=ignored.json", "--update-baseline")
    expect("an ignored one is in no baseline", room.last(*words),
           (0, "0 new warnings; 1 ignored; 0 in the baseline"))
    room.write(HEAD + "  a[3] = 1; /* sparrow: ignore */\n" + TAIL)
    expect("without a reason", room.last(), (1, "1 warning at 1 place"))
    expect("it is said", room.run()[2], "sparrow: a.c:4: 'sparrow: ignore' wants a reason\n")


def try_ignoring_known(room: Room) -> None:
    """A comment at one of two equal lines leaves the fingerprints of both."""
    known = ("--baseline", "equal.json")
    room.write(HEAD + FIRST + FIRST + TAIL)
    room.run(*known, "--update-baseline")
    room.write(HEAD + IGNORED + FIRST + TAIL)
    expect("the other line stays known", room.last(*known, "--fail-on=new"),
           (0, "0 new warnings; 1 ignored; 1 in the baseline"))
    room.write(HEAD + "  a[3] = 1; /* sparrow: ignore */\n" + FIRST + TAIL)
    expect("a comment without a reason makes nothing new", room.last(*known, "--fail-on=new"),
           (0, "0 new warnings; 2 in the baseline"))


def try_ignoring_nothing(room: Room) -> None:
    """Comments that ignore nothing are told, where they stand in a given file."""
    room.write("#define SET(x) (x = 1) /* sparrow: ignore it */\n" + HEAD + "  SET(a[3]);\n" + TAIL)
    expect("on the macro's own line", room.last(), (1, "1 warning at 1 place"))
    nothing = "'sparrow: ignore' ignores nothing\n"
    expect("it ignores nothing there", room.run()[2], f"sparrow: a.c:1: {nothing}")
    other = "  a[2] = 1; // sparrow: ignore it fits\n"
    room.write(HEAD + IGNORED + other + SECOND + TAIL)
    expect("one of two", room.run()[2], f"sparrow: a.c:5: {nothing}")
    room.write(HEAD + "  a[2] = 1; /* sparrow: ignore */\n" + TAIL)
    expect("a clean program", room.run()[2], f"sparrow: a.c:4: {nothing}")
    room.write(HEAD + '  char *s = "/* sparrow: ignore it */";\n' + TAIL)
    expect("a string is no comment", room.run()[2], "")
    room.write(HEAD + "  a[2] = 1; /* sparrow: a note */\n" + TAIL)
    expect("another comment", room.run()[2], "")
    room.write(f'#line 1 "b.y"\n{HEAD}{other}{TAIL}')
    expect("a file that is made of others", room.run()[2], "")
    room.write(HEAD + other + TAIL)
    expect("plain ignores nothing itself", room.run("--format=plain")[2], "")


def seconds(room: Room, form: str, count: int, is_wide: bool) -> float:
    """The seconds of processors for a report of that many alarms, in a line each or all in one."""
    step = "  a[k] = 1;"
    text = ("" if is_wide else "\n").join([step] * count)
    room.write("int a[3];\n" + text + "\n")
    places = [f"2:{11 * k + 3}" if is_wide else f"{k + 2}:3" for k in range(count)]
    report = "".join(f"a.c:{place}: overrun: offset [0,9], size [3,3]\n" for place in places)
    room.write(f"{report}{count} alarms\n", "report")
    before = resource.getrusage(resource.RUSAGE_CHILDREN)
    done = subprocess.run(
        [sys.executable, "-I", os.path.join(TOP, "source"), f"--format={form}", "a.c"],
        cwd=room.folder, stdout=subprocess.PIPE, check=False,
        env={**os.environ, "SPARROW_PROGRAM": room.path("program"),
             "SPARROW_INCLUDE": os.path.join(TOP, "include")},
    )
    after = resource.getrusage(resource.RUSAGE_CHILDREN)
    expect(f"{count} alarms: {form}", done.stdout.count(b"a[k]") >= 1, True)
    return after.ru_utime - before.ru_utime


def try_time(room: Room) -> None:
    """Eight times as many alarms take far less than eight times eight times as long."""
    with open(room.path("program"), "w", encoding="ascii") as file:
        file.write(f'#!/bin/sh\ncat "{room.path("report")}"\nexit 1\n')
    os.chmod(room.path("program"), 0o755)
    for form in ("text", "json", "sarif", "html"):
        for is_wide in (False, True):
            some, many = (seconds(room, form, count, is_wide) for count in (1000, 8000))
            name = f"time: {form}, {'one line' if is_wide else 'many lines'}"
            expect(name, many < 20 * some or f"{some:.1f} s and {many:.1f} s", True)


def main() -> int:
    """Tries all."""
    with tempfile.TemporaryDirectory() as folder:
        room = Room(folder)
        try_baseline(room)
        try_bad_baselines(room)
        try_ignoring(room)
        try_ignoring_known(room)
        try_ignoring_nothing(room)
        try_time(room)
    return tell(faults)


if __name__ == "__main__":
    sys.exit(main())
