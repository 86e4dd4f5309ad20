"""The statements of the programs that tests/soundness.py makes: each move is a few of them that go together.

Most moves are made to mislead an analysis that cuts a variable by what an access or a condition says: it is used again,
copied before, changed through a pointer, or set by what it led to.
"""
from __future__ import annotations

from typing import Callable, Optional

from soundness_expressions import COMPARED, SMALL, Scope, mentions
from soundness_statements import Block, Case, Do, For, If, Jump, Label, Return, Statement, Switch, While
from soundness_tree import (INT, ULONG, Address, Array, Assign, Binary, Call, Cast, Compare, Constant, Declaration,
                            Expression, Follow, Function, Index, Int, Library, Logical, Member, Name, Null, Pointer, Record,
                            Routine, Size, Step, Type, Unary, Void)

Body = list[Statement]


class Moves:
    """Makes the body of a function. `fuel` is a private number that ends its loops."""

    def __init__(self, scope: Scope, fuel: Declaration, callees: list[Routine], hooks: list[Declaration]) -> None:
        self.scope, self.rng, self.often = scope, scope.rng, scope.often
        self.fuel, self.callees, self.hooks = fuel, callees, hooks
        self.depth = 0
        self.labels = 0
        weights: list[tuple[int, Callable[[], Body]]] = [
            (9, self.set_number), (9, self.set_index), (8, self.guarded), (9, self.twice), (6, self.chase), (7, self.alias),
            (6, self.copied), (8, self.choice), (7, self.counted), (5, self.looped), (6, self.walk), (4, self.switch),
            (3, self.jump), (7, self.call), (3, self.hook), (4, self.block), (4, self.fill), (3, self.record),
            (5, self.divide), (6, self.point), (6, self.change), (6, self.push), (4, self.taken), (3, self.inner)]
        self.moves = [move for weight, move in weights for _ in range(weight)]

    def body(self, count: int) -> Body:
        found: Body = []
        while len(found) < count:
            found += self.rng.choice(self.moves)()
        return found

    def nested(self) -> Body:
        if self.depth >= 3:
            return self.set_number()
        self.depth += 1
        found = self.body(self.rng.randrange(1, 4))
        self.depth -= 1
        return found

    def name(self) -> Name:
        """A private number; the last one is the fuel, which stays."""
        return Name(self.rng.choice(self.scope.private))

    def set(self, to: Expression, value: Expression) -> Statement:
        return Do(Assign(to, value))

    def row(self) -> tuple[Expression, int]:
        """An array of numbers, or a pointer to some, and how many there are, or might be."""
        found = self.scope.array() if self.often(0.75) else None
        if found is not None and isinstance(found.kind, Array):
            return found, found.kind.count
        pointer = self.scope.place(Pointer(INT))
        assert pointer is not None
        return pointer, self.rng.randrange(2, 7)

    def set_number(self) -> Body:
        to = self.scope.integer()
        value = self.scope.number()
        if self.often(0.4):
            value = Binary("&", value, Constant(self.rng.choice([7, 15, 63])))
        return [self.set(to, value)]

    def set_index(self) -> Body:
        return [self.set(self.name(), self.scope.small())]

    def guard(self, it: Expression, count: int) -> Expression:
        """That a number is an index; seldom it lets one too many through."""
        end = count + self.rng.choice([0, 0, 0, 0, 1, -1])
        kind = self.rng.random()
        if kind < 0.3:
            return Compare("<", Cast(ULONG, it), Constant(end, ULONG))
        if kind < 0.4:
            return Compare("<", it, Constant(end))
        low, high = Compare(">=", it, Constant(0)), Compare("<", it, Constant(end))
        return Logical("&&", low, high) if self.often(0.6) else Unary("!", Logical(
            "||", Compare("<", it, Constant(0)), Compare(">=", it, Constant(end))))

    def guarded(self) -> Body:
        row, count = self.row()
        it: Expression = self.name() if self.often(0.7) else self.scope.integer()
        kind = self.rng.random()
        access = self.set(Index(row, it), self.scope.number(1))
        if kind < 0.5:
            return [If(self.guard(it, count), [access, *(self.nested() if self.often(0.4) else [])])]
        if kind < 0.8:
            return [If(Unary("!", self.guard(it, count)), [self.set(it, self.scope.index(count))]), access]
        return [If(Logical("&&", self.guard(it, count), Compare(self.rng.choice(COMPARED), Index(row, it),
                                                               self.scope.number(1))), self.nested())]

    def twice(self) -> Body:
        """Two rows by one index, which may change between."""
        it = self.name()
        one, other = self.row()[0], self.row()[0]
        between = [self.set(it, Binary(self.rng.choice("+-"), it, Constant(self.rng.choice([1, 1, 2, 3]))))]
        found = [self.set(Index(one, it), self.scope.number(1))]
        if self.often(0.3):
            found += between
        elif self.often(0.2):
            found += self.nested()
        access = Index(other, it)
        back = self.set(self.scope.integer(), Binary(self.rng.choice("+-&|^"), access, self.scope.number(1)))
        return [*found, self.set(access, self.scope.number(1)) if self.often(0.6) else back]

    def chase(self) -> Body:
        """What leads to an element becomes the element."""
        kind = self.rng.random()
        if kind < 0.55:
            it, row = self.name(), self.row()[0]
            element: Expression = Index(row, it)
            value = element if self.often(0.6) else Binary(self.rng.choice("+-"), it, element)
            return [self.set(it, value)]
        pointer = self.scope.place(Pointer)
        if pointer is None or not isinstance(pointer.kind, Pointer) or not isinstance(pointer.kind.to, Record):
            return self.set_index()
        links = [name for name, member in pointer.kind.to.members.items() if member == pointer.kind]
        if not links:
            return self.set_index()
        follow = self.set(pointer, Member(Follow(pointer), self.rng.choice(links)))
        return [If(pointer, [follow])] if self.often(0.6) else [follow]

    def alias(self) -> Body:
        """An index that is changed through a pointer between two uses."""
        pointer = self.scope.place(Pointer(INT))
        target = self.scope.place(INT)
        if pointer is None or target is None or (isinstance(target, Name) and self.scope.hidden(target.declaration)):
            return self.set_number()
        one, other = self.row()[0], self.row()[0]
        change = self.set(Follow(pointer), self.scope.small())
        uses = [self.set(Index(one, target), self.scope.number(1)), change, self.set(Index(other, target), self.scope.small())]
        point: Body = [self.set(pointer, Address(target))]
        return [*(point if self.often(0.6) else []), *uses]

    def copied(self) -> Body:
        """A copy of the index from before an access, or of the element."""
        one, other = self.row()[0], self.row()[0]
        it, copy = self.name(), self.scope.integer()
        value: Expression = it if self.often(0.6) else Binary(self.rng.choice("+-"), it, Constant(self.rng.choice([1, 2])))
        found = [self.set(copy, value), self.set(Index(one, it), self.scope.small())]
        if self.often(0.5):
            found.append(self.set(it, self.scope.small()))
        return [*found, self.set(Index(other, copy), self.scope.number(1))]

    def choice(self) -> Body:
        it, row = self.name(), self.row()[0]
        condition = self.scope.condition()
        if self.often(0.4):
            sign = self.rng.choice(COMPARED)
            condition = Logical(self.rng.choice(["&&", "||"]), Compare(sign, Index(row, it), self.scope.number(1)), condition)
        return [If(condition, self.nested(), self.nested() if self.often(0.5) else [])]

    def counted(self) -> Body:
        """A loop over a row, seldom too far."""
        row, count = self.row()
        it = self.name()
        if it.declaration is self.fuel:
            return self.set_index()
        end: Expression = Constant(count + self.rng.choice([0, 0, 0, 0, -1, 1]))
        if self.often(0.25):
            end = self.scope.small()
        body = [self.set(Index(row, it), self.scope.small()), *(self.nested() if self.often(0.5) else [])]
        condition: Expression = Compare("<", it, end)
        if self.often(0.15):
            condition = Logical("&&", condition, self.scope.condition(1))
        if self.often(0.2):
            first = self.set(it, Constant(count - 1))
            return [first, While(Compare(">=", it, Constant(self.rng.choice([0, 0, 0, -1]))),
                                 [*body, Do(Step(it, "-"))])]
        step: Expression = Step(it, "+", self.often(0.5)) if self.often(0.7) else Assign(it, Constant(2), "+")
        return [For(Assign(it, Constant(self.rng.choice([0, 0, 0, 1]))), condition, step, body)]

    def looped(self) -> Body:
        left = Compare(">", Step(Name(self.fuel), "-"), Constant(0))
        condition = Logical("&&", left, self.scope.condition(1))
        body = [*self.nested(), *self.nested()]
        if self.often(0.3):
            body.append(If(self.scope.condition(1), [Jump(self.rng.choice(["break", "continue"]))]))
        return [While(condition, body, self.often(0.3))]

    def walk(self) -> Body:
        """A pointer over a row."""
        array = self.scope.array(INT)
        pointer = self.scope.place(Pointer(INT))
        if array is None or pointer is None or not isinstance(array.kind, Array):
            return self.set_number()
        count = array.kind.count
        start: Expression = array if self.often(0.7) else self.scope.pointer(INT)
        body = [self.set(Follow(pointer), self.scope.small()), Do(Step(pointer, "+"))]
        if self.often(0.4):
            body = [self.set(Follow(Step(pointer, "+")), Constant(self.rng.choice(SMALL)))]
        if self.often(0.4):
            body[:0] = self.nested()
        if self.often(0.4):
            end = Binary("+", array, Constant(count))
            return [self.set(pointer, array), While(Compare("<", pointer, end), body)]
        it = self.name()
        last = count + self.rng.choice([0, 0, -1, 1])
        return [self.set(pointer, start), For(Assign(it, Constant(0)), Compare("<", it, Constant(last)), Step(it, "+"), body)]

    def switch(self) -> Body:
        values = self.rng.sample(range(-1, 8), self.rng.randrange(1, 5))
        cases = [Case(value, self.nested()) for value in values]
        if self.often(0.6):
            cases.insert(self.rng.randrange(len(cases) + 1), Case(None, self.nested()))
        for case in cases:
            if self.often(0.7):
                case.body.append(Jump("break"))
        return [Switch(self.scope.small(), cases)]

    def jump(self) -> Body:
        """Forward over some statements, or back, as long as there is fuel."""
        self.labels += 1
        label = f"l{self.labels}_{self.depth}"
        go: Body = [Jump("goto", label)]
        middle = [*self.nested(), *self.nested()]
        if self.often(0.5):
            return [If(self.scope.condition(1), go), *middle, Label(label)]
        left = Compare(">", Step(Name(self.fuel), "-"), Constant(0))
        return [Label(label), *middle, If(Logical("&&", left, self.scope.condition(1)), go)]

    # Calls and pointers

    def argument(self, kind: Type) -> Expression:
        if isinstance(kind, Pointer):
            return self.scope.pointer(kind.to)
        if isinstance(kind, Record):
            found = self.scope.place(kind)
            assert found is not None
            return found
        return self.scope.small()

    def received(self, call: Expression) -> Body:
        """A call as a statement. What gets the result is no place that the call may move."""
        kind = call.kind
        if isinstance(kind, Void) or self.often(0.15):
            return [Do(call)]
        if isinstance(kind, Pointer):
            to = [Name(it) for it in self.scope.objects if it.kind == kind]
            return [self.set(self.rng.choice(to), call)] if to else [Do(call)]
        if self.often(0.2):
            return [If(Compare(self.rng.choice(COMPARED), call, Constant(self.rng.choice(SMALL))), self.nested())]
        it = self.name()
        return [self.set(Index(self.row_by_name(), it) if self.often(0.25) else it, call)]

    def row_by_name(self) -> Expression:
        rows = [it for it in self.scope.objects if isinstance(it.kind, Array) and isinstance(it.kind.of, Int)]
        return Name(self.rng.choice(rows))

    def call(self) -> Body:
        if not self.callees or (self.depth > 1 and self.often(0.6)):
            return self.set_index()
        callee = self.rng.choice(self.callees)
        return self.received(Call(callee, [self.argument(kind) for kind in callee.kind.parameters]))

    def hook(self) -> Body:
        """A call through a pointer, or a new pointer."""
        if not self.hooks:
            return self.call()
        hook = self.rng.choice(self.hooks)
        to: Expression = Name(hook)
        if isinstance(hook.kind, Array):
            to = Index(to, self.scope.index(hook.kind.count))
        kind = to.kind.to if isinstance(to.kind, Pointer) else None
        assert isinstance(kind, Function)
        same = [it for it in self.callees if it.kind.same(kind)]
        if same and self.often(0.4):
            return [self.set(to, self.rng.choice(same) if self.often(0.9) else Null(to.kind))]
        return self.received(Call(to, [self.argument(it) for it in kind.parameters]))

    def block(self) -> Body:
        """A block of malloc or calloc, mostly written at once."""
        pointer = self.scope.place(Pointer)
        if pointer is None or not isinstance(pointer.kind, Pointer):
            return self.set_number()
        to = pointer.kind.to
        if isinstance(to, (Void, Function)):
            return self.set_number()
        count: Expression = Constant(self.rng.randrange(1, 7)) if self.often(0.7) else Cast(ULONG, self.scope.small())
        if self.often(0.4):
            return [self.set(pointer, Library("calloc", [count, Size(to)]))]
        size = Binary("*", count, Size(to))
        made = self.set(pointer, Library("malloc", [size]))
        if isinstance(to, Record):
            whole = self.scope.place(to)
            return [made, self.set(Follow(pointer), whole)] if whole is not None else [made]
        it = self.name()
        zeros = Do(Library("memset", [pointer, Constant(0), size]))
        loop = For(Assign(it, Constant(0)), Compare("<", it, Cast(INT, count)), Step(it, "+"),
                   [self.set(Index(pointer, it), self.scope.small())])
        return [made, zeros if self.often(0.4) or not isinstance(to, Int) else loop]

    def fill(self) -> Body:
        row, count = self.row()
        assert isinstance(row.kind, (Array, Pointer))
        of = row.kind.of if isinstance(row.kind, Array) else row.kind.to
        size: Expression = Binary("*", self.scope.index(count + 1), Size(of))
        if isinstance(row.kind, Array) and self.often(0.5):
            size = Size(row.kind)
        if self.often(0.1):
            size = Binary("+", size, Constant(self.rng.randrange(1, 4)))
        start = row if self.often(0.7) else Binary("+", row, self.scope.index(2))
        if self.often(0.5):
            value = Constant(0) if self.often(0.6) else self.scope.number(1)
            return [Do(Library("memset", [start, value, size]))]
        return [Do(Library("memcpy", [start, self.scope.pointer(of), size]))]

    def record(self) -> Body:
        to = self.scope.place(Record)
        value = self.scope.place(to.kind) if to is not None else None
        if to is None or value is None:
            return self.set_number()
        return [self.set(to, value)]

    def divide(self) -> Body:
        by = self.scope.integer()
        sign = self.rng.choice("//%")
        found = [self.set(self.scope.integer(), Binary(sign, self.scope.number(1), by))]
        if self.often(0.4):
            found = [If(self.rng.choice([by, Compare("!=", by, Constant(0)), Compare(">", by, Constant(0))]), found)]
        if self.often(0.5):
            found.append(self.set(by, Binary(self.rng.choice(["-", "-", "/", "&", ">>"]), by, Constant(self.rng.choice([1, 1, 2])))))
        return found

    def point(self) -> Body:
        pointer = self.scope.place(Pointer)
        if pointer is None or not isinstance(pointer.kind, Pointer) or isinstance(pointer.kind.to, Function):
            return self.set_number()
        value = self.scope.pointer(pointer.kind.to)
        found = [self.set(pointer, value)]
        if isinstance(pointer.kind.to, Int) and self.often(0.4):
            found.append(self.set(Index(pointer, self.name()), self.scope.small()))
        if self.often(0.3):
            return [If(self.scope.condition(1), found)]
        return found

    def change(self) -> Body:
        """A step, or an assignment with an operator."""
        to = self.scope.integer() if self.often(0.6) else self.name()
        if self.often(0.5):
            return [Do(Step(to, self.rng.choice("++-"), self.often(0.5)))]
        sign = self.rng.choice(["+", "-", "&", "|", "^", "%", "/", ">>"])
        value: Expression = Constant(self.rng.choice([1, 2, 3, 5, 7])) if self.often(0.6) else self.scope.small()
        return [Do(Assign(to, value, sign))]

    def push(self) -> Body:
        """An index that grows by each use."""
        row, count = self.row()
        it = self.name()
        value = self.scope.number(1)
        if mentions(value, it.declaration) or mentions(row, it.declaration):
            value, row = Constant(1), self.row_by_name()
        used = Index(row, Step(it, self.rng.choice("++-"), self.often(0.3)))
        found = self.set(used, value)
        if self.often(0.4):
            return [If(Compare("<", it, Constant(count)), [found])]
        length = self.scope.integer()
        return [found] if self.often(0.5) else [self.set(Index(row, length), value), Do(Step(length, "+"))]

    def taken(self) -> Body:
        """What comes from outside, mostly made small."""
        to: Expression = self.name() if self.often(0.7) else self.scope.integer()
        take = self.set(to, Library("input"))
        row, count = self.row()
        kind = self.rng.random()
        if kind < 0.3:
            return [take, If(Unary("!", self.guard(to, count)), [self.set(to, Constant(self.rng.randrange(count)))])]
        if kind < 0.5:
            return [take, self.set(to, Binary("&", to, Constant(self.rng.choice([1, 3, 7]))))]
        if kind < 0.7:
            return [take, self.set(Index(row, to), self.scope.number(1))]
        return [take, If(self.guard(to, count), self.nested())]

    def inner(self) -> Body:
        """A block with an object of its own."""
        if self.depth >= 3:
            return self.set_number()
        self.labels += 1
        mine = Declaration(f"t{self.labels}_{self.depth}", INT, "inner", self.scope.small())
        it = Name(mine)
        before = list(self.scope.objects), self.scope.found
        self.scope.add(mine)
        body = [self.set(Index(self.row()[0], it), self.scope.number(1)), *self.nested()]
        self.scope.objects, self.scope.found = before
        return [Block([mine], body)]


def returned(moves: Moves, kind: Type) -> Optional[Return]:
    if isinstance(kind, Void):
        return None
    return Return(moves.scope.pointer(kind.to) if isinstance(kind, Pointer) else moves.scope.small())
