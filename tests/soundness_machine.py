"""Runs the programs that tests/soundness.py makes, and tells the line of the first error.

An object is its bytes. A pointer is a spot: an element of a row, which is an array, or what stands alone as one element.
Each access is checked against its row. A run whose meaning C90 leaves open before any error has no verdict.
"""
from __future__ import annotations

from typing import Any, Callable, NamedTuple, Optional, Union

from soundness_code import Code, code_of
from soundness_spots import (Fault, Frame, NoVerdict, Spot, Stop, Thing, Value, arithmetic, matches, operated, ordered, pointed,
                             same_row, whole)
from soundness_statements import Program, Statement
from soundness_tree import (VOID, Address, Array, Assign, Binary, Call, Cast, Choice, Compare, Constant, Declaration,
                            Expression, Follow, Index, Initial, Int, Library, Logical, Member, Name, Null, Pointer, Record,
                            Routine, Size, Step, Type, Unary, Void)

# Few runs take as many, and they tell no more than shorter ones.
MAX_STEPS = 4000
MAX_CALLS = 40
# A block past this isn't made: a real malloc gives a null pointer then.
MAX_BLOCK = 100000


class Outcome(NamedTuple):
    """`ended`, `none` without a verdict, or the kind of the first error; then its line, and the steps so far."""

    what: str
    line: int
    steps: int
    why: str = ""


class Machine:
    """One program, which may run many times."""

    def __init__(self, program: Program) -> None:
        self.program = program
        self.codes: dict[Routine, Code] = {}
        self.renew(program.routines)
        self.watched: set[int] = set()
        self.watch: Callable[[Statement], None] = lambda statement: None
        self.values: dict[type, Callable[[Any], Value]] = {
            Constant: self.constant, Null: lambda it: 0, Size: self.size, Routine: routine_itself, Name: self.read,
            Index: self.read, Follow: self.read, Member: self.read, Address: self.address, Unary: self.unary,
            Binary: self.binary, Compare: self.compare, Logical: self.logical, Choice: self.choice, Cast: self.cast,
            Assign: self.assign, Step: self.step, Call: self.call, Library: self.library}

    def renew(self, routines: list[Routine]) -> None:
        """Takes their bodies anew."""
        self.codes.update({routine: code_of(routine) for routine in routines})

    def run(self, inputs: list[int]) -> Outcome:
        self.inputs, self.taken = inputs, 0
        self.steps, self.depth, self.line = 0, 0, 0
        self.frame: Frame = {}
        self.statics: Frame = {}
        self.current: Union[Statement, Declaration, None] = None
        self.routine = self.program.routines[-1]
        try:
            self.start()
            self.enter(self.program.routines[-1], [])
        except Fault as fault:
            return Outcome(str(fault), self.line, self.steps)
        except NoVerdict as reason:
            return Outcome("none", self.line, self.steps, str(reason))
        return Outcome("ended", self.line, self.steps)

    def start(self) -> None:
        objects = list(self.program.objects)
        for routine in self.program.routines:
            objects += [it for it in routine.objects if it.storage == "static"]
        self.statics = {it: Thing(it.kind.size, True) for it in objects}
        for it in objects:
            self.line, self.current = it.line, it
            self.initialise(self.statics[it], it)

    # Calls

    def enter(self, routine: Routine, arguments: list[Value]) -> Value:
        if self.depth == MAX_CALLS:
            raise NoVerdict("calls past the limit")
        caller = self.frame, self.line, self.current, self.routine
        self.frame, self.routine = {}, routine
        self.depth += 1
        for it, value in zip(routine.parameters, arguments):
            self.frame[it] = Thing(it.kind.size, False)
            self.store(whole(self.frame[it], it.kind), it.kind, value)
        for it in routine.objects:
            if it.storage != "static":
                self.open(it)
        result = self.follow(self.codes[routine])
        for thing in self.frame.values():
            thing.alive = False
        self.frame, self.line, self.current, self.routine = caller
        self.depth -= 1
        kind = routine.kind.result
        return None if isinstance(kind, Void) else self.converted(result, kind)

    def open(self, it: Declaration) -> None:
        """Makes a local object anew."""
        if it in self.frame:
            self.frame[it].alive = False
        self.line, self.current = it.line, it
        self.frame[it] = Thing(it.kind.size, it.initial is not None and not isinstance(it.kind, (Int, Pointer)))
        self.initialise(self.frame[it], it)

    def initialise(self, thing: Thing, it: Declaration) -> None:
        if it.initial is not None:
            self.set_initial(whole(thing, it.kind), it.kind, it.initial)

    def set_initial(self, spot: Spot, kind: Type, initial: Initial) -> None:
        if not isinstance(initial, (list, tuple)):
            self.store(spot, kind, self.given(initial, kind))  # type: ignore[arg-type]
        elif isinstance(kind, Array):
            for index, part in enumerate(initial):
                row = Spot(spot.thing, spot.address(), kind.count, kind.of, index, spot.room)
                self.set_initial(row, kind.of, part)
        elif isinstance(kind, Record):
            for (name, member), part in zip(kind.members.items(), initial):
                self.set_initial(self.member_of(spot, kind, name), member, part)

    def follow(self, code: Code) -> Value:
        """Runs the code of a routine to its `return`."""
        at = 0
        while at < len(code):
            operation, statement, expression, data = code[at]
            if statement is not None:
                self.line, self.current = statement.line, statement
            self.steps += 1
            if self.steps > MAX_STEPS:
                raise NoVerdict("steps past the limit")
            if self.steps in self.watched and statement is not None:
                self.watch(statement)
            at += 1
            if operation == "do":
                self.value(expression)
            elif operation == "unless":
                if not self.truth(expression):
                    at = data
            elif operation == "jump":
                at = data
            elif operation == "switch":
                at = data.get(self.number(expression), data[None])
            elif operation == "open":
                for it in data:
                    self.open(it)
            elif operation == "return":
                return self.value(expression) if expression is not None else None
        return None

    # Values

    def value(self, it: Optional[Expression]) -> Value:
        return self.values[type(it)](it)

    def number(self, it: Optional[Expression]) -> int:
        value = self.value(it)
        if not isinstance(value, int):
            raise NoVerdict("a pointer as a number")
        return value

    def truth(self, it: Optional[Expression]) -> bool:
        value = self.value(it)
        if value is None:
            raise NoVerdict("no value")
        return value != 0

    def constant(self, it: Constant) -> Value:
        return it.value

    def size(self, it: Size) -> Value:
        return it.of.size

    def given(self, it: Expression, kind: Type) -> Value:
        """The value as an assignment converts it. A block gets its type where its call is assigned at once."""
        value = self.value(it)
        inner = it.operand if isinstance(it, Cast) else it
        if isinstance(inner, Library) and isinstance(value, Spot) and isinstance(kind, Pointer):
            return self.typed(value, kind.to)._replace(room=None)
        return self.converted(value, kind)

    def converted(self, value: Value, kind: Type) -> Value:
        if value is None:
            raise NoVerdict("no value")
        if isinstance(kind, Int):
            if not isinstance(value, int):
                raise NoVerdict("a pointer as a number")
            return kind.wrapped(value)
        if isinstance(kind, Pointer) and isinstance(value, Spot) and value.kind == VOID:
            return self.typed(value, kind.to)
        return value

    def typed(self, spot: Spot, kind: Type) -> Spot:
        """A block's first pointer with a type gives it one."""
        if kind == VOID or spot.kind != VOID:
            return spot
        return Spot(spot.thing, 0, spot.length // kind.size, kind, 0, (0, spot.length))

    def cast(self, it: Cast) -> Value:
        return self.given(it.operand, it.kind)

    def unary(self, it: Unary) -> Value:
        if it.sign == "!":
            return int(not self.truth(it.operand))
        kind = it.kind
        assert isinstance(kind, Int)
        number = self.number(it.operand)
        return arithmetic(kind, -kind.wrapped(number) if it.sign == "-" else ~kind.wrapped(number))

    def binary(self, it: Binary) -> Value:
        left, right = self.value(it.left), self.value(it.right)
        if isinstance(left, int) and isinstance(right, int) and isinstance(it.kind, Int):
            kind = it.kind
            if it.sign not in ("<<", ">>"):
                left, right = kind.wrapped(left), kind.wrapped(right)
            return operated(it.sign, kind, left, right)
        if isinstance(left, Spot) and isinstance(right, int):
            return self.moved(left, right if it.sign == "+" else -right, it.kind)
        if isinstance(left, Spot) and isinstance(right, Spot) and same_row(left, right):
            return left.at - right.at
        raise NoVerdict("arithmetic of pointers")

    def moved(self, spot: Spot, by: int, kind: Type) -> Spot:
        """A pointer that moves within its row, or to its end; `kind` is its type."""
        if not isinstance(kind, Pointer) or not matches(spot.kind, kind.to):
            raise NoVerdict("a pointer of another type moves")
        if not 0 <= spot.at + by <= spot.length:
            raise NoVerdict("a pointer leaves its row")
        return spot._replace(at=spot.at + by)

    def compare(self, it: Compare) -> Value:
        left, right = self.value(it.left), self.value(it.right)
        if isinstance(left, int) and isinstance(right, int):
            if it.common is not None:
                left, right = it.common.wrapped(left), it.common.wrapped(right)
            return ordered(it.sign, left, right)
        if it.sign in ("==", "!="):
            return int(self.same(left, right) == (it.sign == "=="))
        if isinstance(left, Spot) and isinstance(right, Spot) and same_row(left, right):
            return ordered(it.sign, left.at, right.at)
        raise NoVerdict("pointers that aren't compared")

    def same(self, left: Value, right: Value) -> bool:
        if isinstance(left, Spot) and isinstance(right, Spot):
            if not (left.thing.alive and right.thing.alive):
                raise NoVerdict("an object that is gone")
            if left.thing is right.thing:
                return left.address() == right.address()
            if left.address() == len(left.thing.bytes) or right.address() == len(right.thing.bytes):
                raise NoVerdict("the end of an object is compared")
            return False
        return left is right

    def logical(self, it: Logical) -> Value:
        left = self.truth(it.left)
        return int(left) if left == (it.sign == "||") else int(self.truth(it.right))

    def choice(self, it: Choice) -> Value:
        value = self.value(it.yes if self.truth(it.condition) else it.no)
        return self.converted(value, it.kind)

    # Places

    def place(self, it: Expression) -> Spot:
        """Where an lvalue is. What it goes through is checked; the place itself is only where it is accessed."""
        if isinstance(it, Name):
            thing = self.frame.get(it.declaration) or self.statics[it.declaration]
            return whole(thing, it.kind)
        if isinstance(it, Follow):
            return pointed(self.value(it.pointer))
        if isinstance(it, Index):
            return self.element(it)
        assert isinstance(it, Member) and isinstance(it.record.kind, Record)
        record = self.place(it.record)
        self.check(record, it.record.kind)
        return self.member_of(record, it.record.kind, it.name)

    def element(self, it: Index) -> Spot:
        if isinstance(it.base.kind, Array):
            row = self.place(it.base)
            self.check(row, it.base.kind)
            return Spot(row.thing, row.address(), it.base.kind.count, it.base.kind.of, self.number(it.index), row.room)
        spot = self.value(it.base)
        index = self.number(it.index)
        found = pointed(spot)
        assert isinstance(it.base.kind, Pointer)
        if not matches(found.kind, it.base.kind.to):
            raise self.punned(found.kind, it.base.kind.to)
        return found._replace(at=found.at + index)

    def member_of(self, spot: Spot, kind: Record, name: str) -> Spot:
        start = spot.address()
        room = (start, start + kind.size) if kind.union else spot.room
        return Spot(spot.thing, start + kind.offsets[name], 1, kind.members[name], 0, spot.room or room)

    def address(self, it: Address) -> Value:
        if isinstance(it.of, Routine):
            return it.of
        pointer = it.of.pointer if isinstance(it.of, Follow) else it.of.base if isinstance(it.of, Index) else None
        if pointer is not None and isinstance(pointer.kind, Pointer) and not isinstance(self.value(pointer), Spot):
            raise NoVerdict("the address of what no pointer leads to")
        spot = self.place(it.of)
        if not 0 <= spot.at <= spot.length:
            raise NoVerdict("a pointer leaves its row")
        return spot

    def check(self, spot: Spot, kind: Type) -> None:
        """That what is accessed as a type stands in its row."""
        if not spot.thing.alive:
            raise NoVerdict("an object that is gone")
        if spot.kind == VOID:
            raise NoVerdict("a block without a type")
        if not 0 <= spot.at < spot.length:
            if spot.room and spot.room[0] <= spot.address() <= spot.room[1] - kind.size:
                raise NoVerdict("bytes of a union or an untyped block")
            raise Fault("overrun")
        if not matches(spot.kind, kind):
            raise self.punned(spot.kind, kind)

    def punned(self, one: Type, other: Type) -> Stop:
        """Of integers of two sizes Sparrow tells that they are mixed up."""
        sizes = isinstance(one, Int) and isinstance(other, Int)
        return Fault("punned") if sizes else NoVerdict("an object of another type")

    def read(self, it: Expression) -> Value:
        spot = self.place(it)
        if isinstance(it.kind, Array):
            self.check(spot, it.kind)
            return Spot(spot.thing, spot.address(), it.kind.count, it.kind.of, 0, spot.room)
        return self.load(spot, it.kind)

    def load(self, spot: Spot, kind: Type) -> Value:
        self.check(spot, kind)
        start = spot.address()
        found = spot.thing.bytes[start:start + kind.size]
        if isinstance(kind, Record):
            return found
        first = found[0]
        if isinstance(first, tuple):
            if not isinstance(kind, Pointer) or any(it != (first[0], at) for at, it in enumerate(found)):
                raise NoVerdict("parts of a pointer")
            return first[0]
        try:
            number = int.from_bytes(bytes(found), "little")  # type: ignore[arg-type]
        except TypeError:
            raise NoVerdict("unwritten") from None
        return kind.wrapped(number) if isinstance(kind, Int) else number

    def store(self, spot: Spot, kind: Type, value: Value) -> None:
        self.check(spot, kind)
        start, size = spot.address(), kind.size
        if isinstance(value, list):
            spot.thing.bytes[start:start + size] = value
        elif isinstance(value, int):
            spot.thing.bytes[start:start + size] = list((value % (1 << (8 * size))).to_bytes(size, "little"))
        elif value is not None:
            spot.thing.bytes[start:start + size] = [(value, at) for at in range(size)]

    # Effects

    def assign(self, it: Assign) -> Value:
        if not it.sign:
            value = self.given(it.value, it.kind)
            self.store(self.place(it.to), it.kind, value)
            return value
        right = self.number(it.value)
        return self.changed(it.to, it.sign, right, Binary(it.sign, it.to, it.value).kind)[1]

    def step(self, it: Step) -> Value:
        old, new = self.changed(it.to, it.sign, 1, Binary(it.sign, it.to, Constant(1)).kind)
        return new if it.new else old

    def changed(self, to: Expression, sign: str, right: int, kind: Type) -> tuple[Value, Value]:
        """Puts `to sign right` in its place; gives the value before and after. `kind` is that of the operator."""
        spot = self.place(to)
        old = self.load(spot, to.kind)
        new: Value
        if isinstance(kind, Int) and isinstance(old, int):
            shift = sign in ("<<", ">>")
            new = operated(sign, kind, kind.wrapped(old), right if shift else kind.wrapped(right))
        elif isinstance(old, Spot):
            new = self.moved(old, right if sign == "+" else -right, kind)
        else:
            raise NoVerdict("arithmetic of pointers")
        new = self.converted(new, to.kind)
        self.store(spot, to.kind, new)
        return old, new

    def call(self, it: Call) -> Value:
        callee = self.value(it.callee)
        if not isinstance(callee, Routine):
            raise Fault("pointer")
        kind = it.callee.kind.to if isinstance(it.callee.kind, Pointer) else it.callee.kind
        if not callee.kind.same(kind):
            raise NoVerdict("a function of another type")
        arguments = [self.given(value, to) for value, to in zip(it.arguments, callee.kind.parameters)]
        return self.enter(callee, arguments)

    def library(self, it: Library) -> Value:
        if it.name == "input":
            self.taken += 1
            return self.inputs[(self.taken - 1) % len(self.inputs)]
        arguments = [self.value(value) for value in it.arguments]
        if it.name in ("malloc", "calloc"):
            size = 1
            for argument in arguments:
                size *= self.block_size(argument)
            return Spot(Thing(self.block_size(size), it.name == "calloc"), 0, size, VOID, 0)
        count = self.block_size(arguments[2])
        target = self.filled(arguments[0], count)
        start = target.address()
        if it.name == "memset":
            assert isinstance(arguments[1], int)
            target.thing.bytes[start:start + count] = [arguments[1] % 256] * count
            return arguments[0]
        source = self.filled(arguments[1], count)
        if source.kind != target.kind or source.thing is target.thing:
            raise NoVerdict("a copy between types, or within an object")
        target.thing.bytes[start:start + count] = source.thing.bytes[source.address():source.address() + count]
        return arguments[0]

    def block_size(self, value: Value) -> int:
        if not isinstance(value, int):
            raise NoVerdict("a pointer as a number")
        size = value % (1 << 64)
        if size > MAX_BLOCK:
            raise NoVerdict("a block past the limit")
        return size

    def filled(self, value: Value, count: int) -> Spot:
        """The spot from which so many bytes are accessed by the library."""
        spot = pointed(value)
        if not spot.thing.alive or count == 0 or spot.kind == VOID:
            raise NoVerdict("an object that is gone, nothing, or a block without a type")
        if not 0 <= spot.at or spot.at * spot.kind.size + count > spot.length * spot.kind.size:
            if spot.room:
                raise NoVerdict("bytes of a union or an untyped block")
            raise Fault("overrun")
        return spot


def routine_itself(it: Routine) -> Value:
    return it
