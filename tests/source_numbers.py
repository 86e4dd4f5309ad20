"""Random programs that compute with floating numbers and bit-fields: what gcc's program has lies in
--values.

Each has global integers that come of such numbers in some way. The program built by gcc prints
them; `--values` of the analysis tells an interval for each at the last node, which reads them all.
"""

from __future__ import annotations

import os
import random
import re
import subprocess
import sys
import tempfile

PROGRAMS = 20
INTEGERS = ["i0", "i1", "i2", "i3"]
FLOATING = ["d0", "d1", "f0", "f1"]
VALUE = re.compile(r"^node ([0-9]+) [^ ]+ (\w+) = \[(-?[0-9]+),(-?[0-9]+)\]", re.MULTILINE)


def number(source: random.Random) -> str:
    """A floating number."""
    return source.choice(["0.0", "1.5", ".25f", "3e2", "7.0f", "0x1p3"])


def operand(source: random.Random, depth: int) -> str:
    """An arithmetic expression, floating or not."""
    if depth == 0:
        return source.choice([*FLOATING, *INTEGERS, number(source), str(source.randrange(9))])
    left, right = operand(source, depth - 1), operand(source, depth - 1)
    forms = ["({} + {})", "({} - {})", "({} * {})", "({} / ({} + 17.5))", "pick({}, {})"]
    form = source.choice(forms)
    return form.format(left, right)


def statement(source: random.Random) -> str:
    """An assignment, a step, or a choice. Integers stay small, so that conversions are defined."""
    floating, integer = source.choice(FLOATING), source.choice(INTEGERS)
    value = operand(source, source.randrange(3))
    word = "long" if floating.startswith("d") else "int"
    return source.choice(
        [
            f"{floating} = {integer}; {integer} = *({word} *)&{floating} >> 20 & 127;",
            f"{floating} = bounded({value});",
            f"{floating} += bounded({value});",
            f"{integer} = bounded({value});",
            f"{integer} = bounded({value}) < {operand(source, 1)};",
            f"if ({floating}) {integer} = {source.randrange(9)}; else {integer} = -1;",
            f"{integer} = !{floating} || {value} > 2;",
            f"{floating}++;",
            f"{integer} = {floating} ? bounded({value}) : {source.randrange(9)};",
            f"{integer} = (int)bounded(-{floating}) + sizeof {floating};",
            f"pair.real = bounded({value}); {integer} = pair.real;",
            f"bits.low = {integer}; {integer} = bits.low++ + bits.low;",
            f"{integer} = (bits.sign = {integer} - 3) * 2 + bits.sign;",
            f"bits.wide ^= {source.randrange(1, 9)}L << 36; {integer} = bits.wide >> 30;",
            f"bits.sign = -5; bits.whole = {integer} & 7; {integer} = bits.sign + bits.whole;",
        ]
    )


def program(source: random.Random) -> str:
    """A program."""
    declared = [f"static double d0 = {number(source)}, d1; static float f0 = 1, f1;"]
    declared.append(f"static int {', '.join(INTEGERS)};")
    declared.append("static struct { int number; double real; } pair = { 1, 2.5 };")
    declared.append("static struct { unsigned low : 3; int sign : 4; int whole; long wide : 40; }")
    declared.append("bits = { 5, -1, 7 };")
    declared.append("static double pick(double a, float b) { return a < b ? a : b; }")
    declared.append("static double bounded(double a)")
    declared.append("{ return a > -1e6 && a < 1e6 ? a : 1; }")
    body = "\n".join(statement(source) for _ in range(14))
    total = " + ".join(INTEGERS)
    told = "\n".join(f'printf("{name} %d\\n", {name});' for name in INTEGERS)
    return "\n".join(
        [*declared, "int printf(const char *, ...);", "int main(void)\n{", body, told]
        + [f"return ({total}) * 0;", "}", ""]
    )


def faults(sparrow: str, room: str, text: str) -> list[str]:
    """The integers that the analysis gets wrong."""
    path, built = os.path.join(room, "a.c"), os.path.join(room, "a")
    with open(path, "w", encoding="ascii") as file:
        file.write(text)
    build = ["gcc", "-w", "-std=gnu90", "-fno-strict-aliasing", "-o", built, path]
    subprocess.run(build, check=True)
    ran = subprocess.run([built], capture_output=True, text=True, check=True)
    told = subprocess.run([sparrow, "source", "--values", path], capture_output=True, text=True)
    if told.returncode not in (0, 1):
        return [told.stdout + told.stderr]
    nodes = VALUE.findall(told.stdout)
    last = max((int(node) for node, name, _, _ in nodes if name in INTEGERS), default=0)
    intervals = {
        name: (int(low), int(high)) for node, name, low, high in nodes if int(node) == last
    }
    wrong = []
    for name, value in (line.split() for line in ran.stdout.splitlines()):
        low, high = intervals.get(name, (1, 0))
        if not low <= int(value) <= high:
            wrong.append(f"{name} is {value}, and not in [{low},{high}]")
    return wrong


def main() -> int:
    """Tries the programs."""
    sparrow = os.path.join(os.path.dirname(os.path.dirname(os.path.abspath(__file__))), "sparrow")
    failed = 0
    with tempfile.TemporaryDirectory() as room:
        for seed in range(PROGRAMS):
            text = program(random.Random(seed))
            found = faults(sparrow, room, text)
            failed += bool(found)
            if found:
                print(f"FAILED a random program, seed {seed}\n{text}")
                print("\n".join(found))
    print(f"{PROGRAMS - failed} passed, {failed} failed")
    return 1 if failed else 0


if __name__ == "__main__":
    sys.exit(main())
