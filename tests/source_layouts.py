"""Random structs with bit-fields: rewritten they have the size that gcc gives them, and all other
members their offsets."""

from __future__ import annotations

import os
import random
import re
import subprocess
import sys

sys.path.insert(
    0, os.path.join(os.path.dirname(os.path.dirname(os.path.abspath(__file__))), "source")
)

from rewriting.program import rewrite  # noqa: E402

STRUCTS = 200
INTEGERS = {"char": 8, "short": 16, "int": 32, "unsigned": 32, "long": 64, "unsigned long": 64}


def member(source: random.Random, number: int) -> str:
    """A member: bits with or without a name, or another one."""
    kind = source.choice(list(INTEGERS))
    name = f"m{number}"
    form = source.randrange(8)
    if form < 4:
        return f"{kind} {name} : {source.randint(1, INTEGERS[kind])};"
    if form == 4:
        return f"{kind} : {source.randint(0, INTEGERS[kind])};"
    return f"{kind} o{number}{source.choice(['', '[3]'])};"


def struct(source: random.Random, number: int) -> str:
    """A struct, or sometimes a union."""
    members = [member(source, at) for at in range(source.randint(1, 6))]
    word = "union" if source.randrange(8) == 0 else "struct"
    return f"{word} s{number} {{ int o; {' '.join(members)} }};"


def measured(texts: list[str], others: list[str]) -> dict[str, int]:
    """The sizes and offsets that gcc gives; each text is one struct or union."""
    lines = []
    for text, original in zip(texts, others):
        word, tag = original.split()[:2]
        lines.append(text)
        lines.append(f"char size_{tag}[sizeof({word} {tag})];")
        for name in re.findall(r"\b(o[0-9]+)(?:\[3\])?;", original):
            offset = f"__builtin_offsetof({word} {tag}, {name})"
            lines.append(f"char at_{tag}_{name}[{offset} + 1];")
    command = ["gcc", "-w", "-x", "c", "-S", "-o", "-", "-"]
    made = subprocess.run(
        command, input="\n".join(lines), capture_output=True, text=True, check=True
    )
    sizes = re.findall(r"\.size\t(\w+), ([0-9]+)", made.stdout)
    return {name: int(size) for name, size in sizes}


def main() -> int:
    """Tries the structs."""
    source = random.Random(1)
    structs = [struct(source, number) for number in range(STRUCTS)]
    answers = [rewrite([("a.c", text)])[0] for text in structs]
    kept = [number for number, answer in enumerate(answers) if not answer.left]
    originals = [structs[number] for number in kept]
    before = measured(originals, originals)
    after = measured([answers[number].text for number in kept], originals)
    failed = sum(before[name] != after.get(name) for name in before)
    if len(kept) < STRUCTS // 2:
        print(f"FAILED only {len(kept)} of {STRUCTS} structs are rewritten")
        failed += 1
    for name in before:
        if before[name] != after.get(name):
            print(f"FAILED {name}: {before[name]}, rewritten {after.get(name)}")
    print(f"{len(before) - failed} passed, {failed} failed; {len(kept)} of {STRUCTS} rewritten")
    return 1 if failed else 0


if __name__ == "__main__":
    sys.exit(main())
