#!/usr/bin/env python3
"""Shows that tests/hostile.py sees what is wrong: each answer here has one fault, or none, and the tester must say which."""
from __future__ import annotations

import sys

from hostile import difference, unwanted
from hostile_answers import fault
from hostile_runs import MEMORY, SECONDS, Answer
from told import tell

FILES = {"a.c": b"int main(void){\nreturn 1/0;}\n"}
ZERO, NEXT = b"a.c:2:9: zero: divisor [0,0]\n", b"a.c:2:9: pointer: value [0,0]\n"
ONE, TWO = ZERO + b"1 alarm\n", ZERO + NEXT + b"2 alarms\n"
OVERRUN = b"a.c:1:1: overrun: offset %s, size [4,4]\n1 alarm\n"
BY_NODE, VALUE = b"node 3 " + ZERO, b"node 3 a.c:2:9: main.x = [0,0] &y+[0,1]/[4,4]\n"
REFUSAL = b"a.c:2:1: refused F7: unexpected token\n"
CLEAN = b"0 alarms\n"


def answer(status: int, out: bytes, command: str = "analyse", err: bytes = b"", took: tuple[float, int] = (0.0, 0)) -> Answer:
    return Answer((*command.split(), "a.c"), status, out, err, *took, False)


# What stands behind the answer is the beginning of what the tester must say of it. Nothing is wrong with the first ones.
ANSWERS = {
    "no alarm": (answer(0, CLEAN), ""),
    "an alarm": (answer(1, ONE), ""),
    "two alarms of a place": (answer(1, TWO), ""),
    "an index past the last": (answer(1, OVERRUN % b"[0,4]"), ""),
    "elements past the last": (answer(1, OVERRUN % b"[0,0], count [1,5]"), ""),
    "values and alarms by node": (answer(1, ONE + VALUE + BY_NODE, "dense --values --nodes"), ""),
    "a refusal": (answer(2, REFUSAL), ""),
    "a call": (answer(0, b"a.c:2:1: f g\n1 indirect call\n", "calls"), ""),
    "a signal": (answer(-11, b""), "ended by signal 11"),
    "a process that had to be ended": (Answer(("analyse",), -9, b"", b"", 0.0, 0, True), "didn't end"),
    "standard error": (answer(0, CLEAN, err=b"thread panicked"), "wrote to standard error"),
    "no memory": (answer(6, b""), "status 6"),
    "wrong words": (answer(3, b"usage: sparrow COMMAND [OPTION] WORD..\n"), "status 3"),
    "more than all time": (answer(0, CLEAN, took=(SECONDS + 1, 0)), "took 21.0 s"),
    "more than all memory": (answer(0, CLEAN, took=(0.0, MEMORY + 1)), "took 0.0 s and 2048 MiB"),
    "nothing": (answer(0, b""), "a report without its count"),
    "no newline at the end": (answer(0, b"0 alarms"), "a report without its count"),
    "a line that is gone": (answer(1, ZERO + b"2 alarms\n"), "1 alarms, told as 2 alarms"),
    "an alarm with status 0": (answer(0, ONE), "1 alarms, told as 1 alarm, and status 0"),
    "no alarm with status 1": (answer(1, CLEAN), "0 alarms, told as 0 alarms, and status 1"),
    "the other order of kinds": (answer(1, NEXT + ZERO + b"2 alarms\n"), "alarms that aren't sorted"),
    "an alarm twice": (answer(1, ZERO + ZERO + b"2 alarms\n"), "alarms that aren't sorted"),
    "lines by their bytes": (answer(1, ZERO.replace(b"2:9", b"10:9") + ZERO + b"2 alarms\n"), "alarms that aren't sorted"),
    "no kind": (answer(1, b"a.c:2:9: zero: value [0,0]\n1 alarm\n"), "no line of an alarm"),
    "a divisor that isn't 0": (answer(1, b"a.c:2:9: zero: divisor [1,2]\n1 alarm\n"), "an alarm whose numbers"),
    "an index within": (answer(1, OVERRUN % b"[0,3]"), "an alarm whose numbers"),
    "bounds in the other order": (answer(1, OVERRUN % b"[5,-1]"), "an alarm whose numbers"),
    "a line behind the count": (answer(1, ONE + BY_NODE), "lines behind the count"),
    "an alarm of no node": (answer(1, ONE, "analyse --nodes"), "the alarms of nodes aren't"),
    "nodes that aren't sorted":
        (answer(1, TWO + b"node 3 " + NEXT + BY_NODE, "analyse --nodes"), "alarms of nodes that aren't sorted"),
    "half a value":
        (answer(0, CLEAN + b"node 3 a.c:2:9: main.x = [0\n", "analyse --values --nodes"), "a line of a node without its alarm"),
    "values in the other order":
        (answer(0, CLEAN + VALUE.replace(b"3", b"4", 1) + VALUE, "dense --values"), "values whose nodes"),
    "a refusal with status 0": (answer(0, REFUSAL), "a report without its count"),
    "a report with status 2": (answer(2, ONE), "no refusal of one line"),
    "two refusals": (answer(2, REFUSAL * 2), "no refusal of one line"),
    "another text of a refusal": (answer(2, b"a.c:2:1: refused F7: bad byte\n"), "the text of F7"),
    "no such code": (answer(2, b"a.c:2:1: refused F99: bad byte\n"), "the text of F99"),
    "a place past the text": (answer(2, b"a.c:9:1: refused F1: bad byte\n"), "a place outside the files"),
    "a place past the line": (answer(2, b"a.c:2:99: refused F1: bad byte\n"), "a place outside the files"),
    "another file": (answer(2, b"b.c:1:1: refused F1: bad byte\n"), "a place outside the files"),
    "calls with another count": (answer(0, b"a.c:2:1: f g\n2 indirect calls\n", "calls"), "1 indirect calls, told as"),
}
SLOTS, DEPENDENCIES = b"a.c:1:1: refused M8: 1048577 dense slots\n", b"a.c:1:1: refused M6: dependencies past 50000000\n"
# Whether what `analyse` and another command say together is told as wrong.
PAIRS = {
    "the same": (answer(1, ONE), answer(1, ONE, "dense"), False),
    "one alarm more": (answer(1, ONE), answer(1, TWO, "dense"), True),
    "none": (answer(1, ONE), answer(0, CLEAN, "dense"), True),
    "another refusal": (answer(2, REFUSAL), answer(2, REFUSAL.replace(b"2:1", b"2:2"), "dense"), True),
    "a limit of dense": (answer(1, ONE), answer(2, SLOTS, "dense"), False),
    "a limit of analyse": (answer(2, DEPENDENCIES), answer(1, ONE, "dense"), False),
    "the limits of both": (answer(2, DEPENDENCIES), answer(2, SLOTS, "dense"), False),
    "a limit for a refused file": (answer(2, REFUSAL), answer(2, SLOTS, "dense"), True),
    "the limit of the other": (answer(2, SLOTS), answer(1, ONE, "dense"), True),
    "calls of what is analysed": (answer(1, ONE), answer(0, b"0 indirect calls\n", "calls"), False),
    "calls of what is refused": (answer(2, REFUSAL), answer(0, b"0 indirect calls\n", "calls"), True),
    "refused calls": (answer(1, ONE), answer(2, REFUSAL, "calls"), True),
}
# Whether an answer is told not to be the one that a program at a limit must get.
WANTED = {
    "accepted": ("accepted", answer(1, ONE), False),
    "refused": ("accepted", answer(2, REFUSAL), True),
    "its code": ("F7", answer(2, REFUSAL), False),
    "another code": ("M2", answer(2, REFUSAL), True),
    "no refusal": ("M2", answer(0, CLEAN), True),
    "too many slots": ("accepted", answer(2, SLOTS, "dense"), False),
}


def main() -> int:
    faults: dict[str, str] = {}
    for name, (it, begins) in ANSWERS.items():
        said = fault(it, FILES)
        seen = said.startswith(begins) if begins else not said
        faults[name] = "" if seen else f"{said or 'nothing'}, not {begins or 'nothing'}"
    for name, (one, other, wrong) in PAIRS.items():
        faults[f"both, {name}"] = "" if bool(difference(one, other)) == wrong else f"told: {not wrong}"
    for name, (wanted, it, wrong) in WANTED.items():
        faults[f"limit, {name}"] = "" if bool(unwanted(wanted, it)) == wrong else f"told: {not wrong}"
    return tell(faults)


if __name__ == "__main__":
    sys.exit(main())
