"""Statements of the programs that tests/soundness.py makes, and the text of a whole program."""
from __future__ import annotations

from dataclasses import dataclass, field
from typing import Iterator, Optional, Union

from soundness_tree import Declaration, Expression, Record, Routine, declared

HEAD = """int input(void);
void *malloc(unsigned long size);
void *calloc(unsigned long count, unsigned long size);
void *memset(void *to, int value, unsigned long size);
void *memcpy(void *to, const void *from, unsigned long size);"""


@dataclass(eq=False)
class Do:
    expression: Expression
    line: int = 0


@dataclass(eq=False)
class If:
    condition: Expression
    yes: list[Statement]
    no: list[Statement] = field(default_factory=list)
    line: int = 0


@dataclass(eq=False)
class While:
    """`while`, or `do` with the condition behind the body, whose line is then that of the condition."""

    condition: Expression
    body: list[Statement]
    behind: bool = False
    line: int = 0


@dataclass(eq=False)
class For:
    first: Expression
    condition: Expression
    step: Expression
    body: list[Statement]
    line: int = 0


@dataclass(eq=False)
class Case:
    """`case value:`, or `default:`, and what stands behind it. It goes on with the next case unless a `break` ends it."""

    value: Optional[int]
    body: list[Statement]


@dataclass(eq=False)
class Switch:
    value: Expression
    cases: list[Case]
    line: int = 0


@dataclass(eq=False)
class Jump:
    """`goto label`, `break` or `continue`."""

    word: str
    label: str = ""
    line: int = 0


@dataclass(eq=False)
class Label:
    name: str
    line: int = 0


@dataclass(eq=False)
class Return:
    value: Optional[Expression]
    line: int = 0


@dataclass(eq=False)
class Block:
    objects: list[Declaration]
    body: list[Statement]
    line: int = 0


Statement = Union[Do, If, While, For, Switch, Jump, Label, Return, Block]


def bodies(statement: Statement) -> list[list[Statement]]:
    """The lists of statements that stand in one."""
    if isinstance(statement, If):
        return [statement.yes, statement.no]
    if isinstance(statement, Switch):
        return [case.body for case in statement.cases]
    return [statement.body] if isinstance(statement, (While, For, Block)) else []


def lists_in(body: list[Statement]) -> Iterator[list[Statement]]:
    """The list, and all that stand in it."""
    yield body
    for statement in body:
        for inner in bodies(statement):
            yield from lists_in(inner)


@dataclass(eq=False)
class Program:
    records: list[Record]
    objects: list[Declaration]
    routines: list[Routine]

    def lists(self) -> Iterator[list[Statement]]:
        for routine in self.routines:
            yield from lists_in(routine.body)

    def text(self) -> str:
        return Writer().program(self)


class Writer:
    """Writes a program, and sets the line of each statement."""

    def __init__(self) -> None:
        self.lines: list[str] = []
        self.depth = 0

    def put(self, text: str) -> int:
        """Adds a line, and gives its number."""
        self.lines.append("  " * self.depth + text)
        return len(self.lines)

    def program(self, program: Program) -> str:
        self.lines = HEAD.split("\n")
        for record in program.records:
            self.put(record.word() + " { " + " ".join(f"{declared(kind, name)};" for name, kind in record.members.items()) + " };")
        for routine in program.routines[:-1]:
            self.put(routine.head() + ";")
        for it in program.objects:
            it.line = self.put(it.text())
        for routine in program.routines:
            routine.line = self.put(routine.head() + " {")
            self.inside(routine.objects, routine.body)
            self.put("}")
        return "\n".join(self.lines) + "\n"

    def inside(self, objects: list[Declaration], body: list[Statement]) -> None:
        self.depth += 1
        for it in objects:
            it.line = self.put(it.text())
        for statement in body:
            self.statement(statement)
        self.depth -= 1

    def statement(self, it: Statement) -> None:
        if isinstance(it, Do):
            it.line = self.put(it.expression.text() + ";")
        elif isinstance(it, If):
            it.line = self.put(f"if ({it.condition.text()}) {{")
            self.inside([], it.yes)
            if it.no:
                self.put("} else {")
                self.inside([], it.no)
            self.put("}")
        elif isinstance(it, Jump):
            it.line = self.put(f"{it.word} {it.label}".rstrip() + ";")
        elif isinstance(it, Label):
            it.line = self.put(f"{it.name}: ;")
        elif isinstance(it, Return):
            it.line = self.put("return;" if it.value is None else f"return {it.value.text()};")
        elif isinstance(it, Block):
            it.line = self.put("{")
            self.inside(it.objects, it.body)
            self.put("}")
        elif isinstance(it, Switch):
            self.switch(it)
        else:
            self.loop(it)

    def loop(self, it: Union[While, For]) -> None:
        if isinstance(it, For):
            it.line = self.put(f"for ({it.first.text()}; {it.condition.text()}; {it.step.text()}) {{")
        elif it.behind:
            self.put("do {")
        else:
            it.line = self.put(f"while ({it.condition.text()}) {{")
        self.inside([], it.body)
        if isinstance(it, While) and it.behind:
            it.line = self.put(f"}} while ({it.condition.text()});")
        else:
            self.put("}")

    def switch(self, it: Switch) -> None:
        it.line = self.put(f"switch ({it.value.text()}) {{")
        for case in it.cases:
            self.put("default: ;" if case.value is None else f"case {case.value}: ;")
            self.inside([], case.body)
        self.put("}")
