"""What docs/REPORT.md says of the form of an answer, for tests/hostile.py."""
from __future__ import annotations

import re
from pathlib import Path
from typing import Optional

from hostile_runs import MEMORY, SECONDS, Answer

DOCUMENT = Path(__file__).resolve().parent.parent / "docs" / "REPORT.md"
ROW = re.compile(r"^\| ([FMU]\d+) \| (.*?) \| ", re.MULTILINE)
INTERVAL = rb"\[(-?\d+),(-?\d+)\]"
KINDS = [rb"overrun: offset " + INTERVAL + rb"(?:, count " + INTERVAL + rb")?, size " + INTERVAL,
         rb"zero: divisor " + INTERVAL, rb"pointer: (?:value " + INTERVAL + rb"|no function)", rb"punned: access \d+, element \d+"]
RANKS = [re.compile(kind) for kind in KINDS]
PLACE = rb"(.*):(\d+):(\d+): "
ALARM = re.compile(PLACE + rb"((?:overrun|zero|pointer|punned): .*)")
COUNT = re.compile(rb"(1) alarm|(0|[2-9]|[1-9]\d+) alarms")
CALL = re.compile(PLACE + rb"(none|[A-Za-z_]\w*(?: [A-Za-z_]\w*)*)")
CALLS = re.compile(rb"(1) indirect call|(0|[2-9]|[1-9]\d+) indirect calls")
TARGET = rb"&[^ ]+\+" + INTERVAL + rb"/" + INTERVAL
VALUE = re.compile(rb"node (\d+) " + PLACE + rb".+ = (?:none|(?:" + INTERVAL + rb"|" + TARGET + rb")(?: " + TARGET + rb")*)")
NODE = re.compile(rb"node (\d+) (.*)")
REFUSED = re.compile(PLACE + rb"refused ([FMU]\d+): (.*)\n")

Alarm = tuple[bytes, int, int, int, bytes]  # name, line, column, rank of the kind, text: the order of a report


def refusal_texts() -> dict[str, re.Pattern[str]]:
    """The text of each code, by the table of the document. In one row N stands for a number."""
    found = ROW.findall(DOCUMENT.read_text(encoding="utf-8"))
    return {code: re.compile(re.escape(text).replace("N", r"\d+") if code == "M8" else re.escape(text)) for code, text in found}


TEXTS = refusal_texts()


def refusal(answer: Answer) -> Optional[str]:
    """The code of a refusal."""
    found = REFUSED.fullmatch(answer.out)
    return found[4].decode("ascii") if found and answer.status == 2 else None


def fault(answer: Answer, texts: dict[str, bytes]) -> str:
    """What is wrong with an answer to files; nothing where all is well."""
    if answer.hung:
        return "didn't end"
    if answer.status < 0:
        return f"ended by signal {-answer.status} after {answer.seconds:.1f} s with {answer.bytes_held >> 20} MiB"
    if answer.err:
        return f"wrote to standard error: {answer.err[:100]!r}"
    if answer.status > 2:
        return f"status {answer.status}"
    if answer.seconds > SECONDS or answer.bytes_held > MEMORY:
        return f"took {answer.seconds:.1f} s and {answer.bytes_held >> 20} MiB"
    if answer.status == 2:
        return refusal_fault(answer, texts)
    return calls_fault(answer) if answer.words[0] == "calls" else report_fault(answer)


def refusal_fault(answer: Answer, texts: dict[str, bytes]) -> str:
    found = REFUSED.fullmatch(answer.out)
    if found is None:
        return f"no refusal of one line: {answer.out[:100]!r}"
    name, line, column, code, text = found[1], int(found[2]), int(found[3]), found[4].decode("ascii"), found[5].decode("latin-1")
    if code not in TEXTS or not TEXTS[code].fullmatch(text):
        return f"the text of {code} isn't that of docs/REPORT.md: {text}"
    file = name.decode("latin-1")
    if any(b"#" in it for it in texts.values()):
        return "" if file in texts or any(name in it for it in texts.values()) else f"a name of no file: {name!r}"
    lines = texts.get(file, b"").split(b"\n")
    if file not in texts or not 1 <= line <= len(lines) or not 1 <= column <= len(lines[line - 1]) + 1:
        return f"a place outside the files: {file}:{line}:{column}"
    return ""


def alarm_of(line: bytes) -> Optional[Alarm]:
    found = ALARM.fullmatch(line)
    ranks = [rank for rank, kind in enumerate(RANKS) if found and kind.fullmatch(found[4])]
    return (found[1], int(found[2]), int(found[3]), ranks[0], line[len(found[1]):]) if found and ranks else None


def report_fault(answer: Answer) -> str:
    """A report: alarms in order, their count, and then the lines of values and nodes that were asked for."""
    lines = answer.out.split(b"\n")
    at = next((at for at, line in enumerate(lines) if COUNT.fullmatch(line)), len(lines))
    if lines[-1] or at == len(lines):
        return "a report without its count or its last newline"
    alarms = [alarm_of(line) for line in lines[:at]]
    told = COUNT.fullmatch(lines[at])
    if None in alarms:
        return f"no line of an alarm: {lines[alarms.index(None)]!r}"
    known = [it for it in alarms if it is not None]
    wrong = next((line for line, it in zip(lines, known) if not ordered_bounds(line) or not justified(it)), None)
    if wrong is not None:
        return f"an alarm whose numbers don't tell one: {wrong!r}"
    if any(one >= other for one, other in zip(known, known[1:])):
        return "alarms that aren't sorted, or that stand twice"
    if told is None or int(told[1] or told[2]) != at or answer.status != int(at > 0):
        return f"{at} alarms, told as {lines[at].decode()}, and status {answer.status}"
    return node_fault(lines[at + 1:-1], answer, lines[:at])


def ordered_bounds(line: bytes) -> bool:
    return all(int(low) <= int(high) for low, high in re.findall(INTERVAL, line[line.rindex(b": "):]))


def justified(alarm: Alarm) -> bool:
    """An offset may be below 0 or past the last element; a divisor may be 0."""
    found = RANKS[alarm[3]].fullmatch(alarm[4].split(b": ", 1)[1])
    if found is None or alarm[3] > 1:
        return found is not None
    if alarm[3] == 1:
        return int(found[1]) <= 0 <= int(found[2])
    return int(found[1]) < 0 or int(found[2]) + int(found[4] or 1) > int(found[5])


def node_fault(lines: list[bytes], answer: Answer, alarms: list[bytes]) -> str:
    """What stands behind the count: values by node, then the alarms by node, which together are those of the report."""
    values = next((at for at, line in enumerate(lines) if not VALUE.fullmatch(line)), len(lines))
    nodes = [NODE.fullmatch(line) for line in lines[values:]]
    if (values and "--values" not in answer.words) or (nodes and "--nodes" not in answer.words):
        return f"lines behind the count: {lines[0]!r}"
    if None in nodes:
        return f"no line of a value or a node: {lines[values + nodes.index(None)]!r}"
    told = [(int(it[1]), alarm) for it in nodes if it and (alarm := alarm_of(it[2])) is not None]
    if len(told) < len(nodes):
        return "a line of a node without its alarm"
    if any(one >= other for one, other in zip(told, told[1:])):
        return "alarms of nodes that aren't sorted, or that stand twice"
    if "--nodes" in answer.words and {it[2] for it in nodes if it} != set(alarms):
        return "the alarms of nodes aren't those of the report"
    numbers = [int(line.split(b" ", 2)[1]) for line in lines[:values]]
    return "values whose nodes aren't sorted" if numbers != sorted(numbers) else ""


def calls_fault(answer: Answer) -> str:
    """The indirect calls of a program and their count. Their status is 0."""
    *lines, told, last = answer.out.split(b"\n") if b"\n" in answer.out else [answer.out, b"-"]
    count = CALLS.fullmatch(told)
    if last or count is None or int(count[1] or count[2]) != len(lines) or answer.status:
        return f"{len(lines)} indirect calls, told as {told[:100]!r}, and status {answer.status}"
    wrong = next((line for line in lines if not CALL.fullmatch(line)), None)
    return f"no line of a call: {wrong!r}" if wrong else ""
