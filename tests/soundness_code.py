"""The bodies of routines as code with jumps, which the machine of tests/soundness.py runs."""
from __future__ import annotations

from typing import Any, NamedTuple, Optional

from soundness_statements import Block, Do, For, If, Jump, Label, Return, Statement, Switch, While
from soundness_tree import Expression, Routine


class Instruction(NamedTuple):
    """`do`, `unless` with the place where it goes on else, `jump`, `switch`, `open` of objects, or `return`."""

    operation: str
    statement: Optional[Statement]
    expression: Optional[Expression]
    data: Any


Code = list[Instruction]


def code_of(routine: Routine) -> Code:
    maker = Maker()
    maker.all(routine.body)
    maker.close()
    return maker.code


class Maker:
    """Adds instructions; places that aren't known yet are marks, and are put in at the end."""

    def __init__(self) -> None:
        self.code: Code = []
        self.places: dict[object, int] = {}
        self.breaks: list[object] = []
        self.continues: list[object] = []

    def put(self, operation: str, statement: Optional[Statement], expression: Optional[Expression] = None,
            data: Any = None) -> None:
        self.code.append(Instruction(operation, statement, expression, data))

    def mark(self, place: object) -> None:
        self.places[place] = len(self.code)

    def close(self) -> None:
        for at, it in enumerate(self.code):
            if it.operation in ("jump", "unless"):
                self.code[at] = it._replace(data=self.places[it.data])
            elif it.operation == "switch":
                self.code[at] = it._replace(data={value: self.places[to] for value, to in it.data.items()})

    def all(self, body: list[Statement]) -> None:
        for it in body:
            self.one(it)

    def one(self, it: Statement) -> None:
        if isinstance(it, Do):
            self.put("do", it, it.expression)
        elif isinstance(it, Return):
            self.put("return", it, it.value)
        elif isinstance(it, Label):
            self.mark(it.name)
        elif isinstance(it, Block):
            self.put("open", None, None, it.objects)
            self.all(it.body)
        elif isinstance(it, Jump):
            ends: dict[str, list[object]] = {"goto": [it.label], "break": self.breaks, "continue": self.continues}
            self.put("jump", it, None, ends[it.word][-1])
        elif isinstance(it, If):
            self.choice(it)
        elif isinstance(it, Switch):
            self.switch(it)
        else:
            self.loop(it)

    def choice(self, it: If) -> None:
        no, end = object(), object()
        self.put("unless", it, it.condition, no)
        self.all(it.yes)
        self.put("jump", None, None, end)
        self.mark(no)
        self.all(it.no)
        self.mark(end)

    def loop(self, it: While | For) -> None:
        again, onwards, end = object(), object(), object()
        if isinstance(it, For):
            self.put("do", it, it.first)
        self.mark(again)
        if not (isinstance(it, While) and it.behind):
            self.put("unless", it, it.condition, end)
        self.breaks.append(end)
        self.continues.append(onwards)
        self.all(it.body)
        self.breaks.pop()
        self.continues.pop()
        self.mark(onwards)
        if isinstance(it, For):
            self.put("do", it, it.step)
        elif it.behind:
            self.put("unless", it, it.condition, end)
        self.put("jump", None, None, again)
        self.mark(end)

    def switch(self, it: Switch) -> None:
        end = object()
        to: dict[Optional[int], object] = {case.value: case for case in it.cases}
        to.setdefault(None, end)
        self.put("switch", it, it.value, to)
        self.breaks.append(end)
        for case in it.cases:
            self.mark(case)
            self.all(case.body)
        self.breaks.pop()
        self.mark(end)
