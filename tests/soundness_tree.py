"""Types, expressions and statements of the programs that tests/soundness.py makes, and their text.

Sizes and layouts are those of docs/LANGUAGE.md. An expression is between brackets wherever it stands in another, and a
statement has a line of its own: so a line is the place of an error.
"""
from __future__ import annotations

from dataclasses import dataclass, field
from typing import TYPE_CHECKING, Any, Callable, Optional, Sequence, Union

if TYPE_CHECKING:
    from soundness_statements import Statement


class Kind:
    """A type. Two that are the same are one object, but for functions. `kept` is what is made of it once."""

    size = 8
    align = 8

    def __init__(self) -> None:
        self.kept: dict[Any, Any] = {}

    def once(self, key: Any, make: Callable[[], Any]) -> Any:
        if key not in self.kept:
            self.kept[key] = make()
        return self.kept[key]


class Int(Kind):
    def __init__(self, name: str, size: int, signed: bool) -> None:
        super().__init__()
        self.name, self.size, self.align, self.signed = name, size, size, signed
        self.count = 1 << (8 * size)
        self.low, self.high = (-self.count // 2, self.count // 2 - 1) if signed else (0, self.count - 1)

    def holds(self, number: int) -> bool:
        return self.low <= number <= self.high

    def wrapped(self, number: int) -> int:
        """As gcc converts: modulo 2 to the width, which C90 leaves to the implementation for signed types."""
        if self.low <= number <= self.high:
            return number
        number %= self.count
        return number - self.count if number > self.high else number


CHAR, UCHAR = Int("char", 1, True), Int("unsigned char", 1, False)
SHORT, USHORT = Int("short", 2, True), Int("unsigned short", 2, False)
INT, UNSIGNED = Int("int", 4, True), Int("unsigned", 4, False)
LONG, ULONG = Int("long", 8, True), Int("unsigned long", 8, False)


class Void(Kind):
    """The type of what has no value, and behind `void *`."""


class Pointer(Kind):
    to: Type

    def __new__(cls, to: Type) -> Pointer:
        found: Pointer = to.once(cls, lambda: super(Pointer, cls).__new__(cls))
        return found

    def __init__(self, to: Type) -> None:
        if "kept" not in self.__dict__:
            super().__init__()
            self.to = to


class Array(Kind):
    of: Type
    count: int

    def __new__(cls, of: Type, count: int) -> Array:
        found: Array = of.once((cls, count), lambda: super(Array, cls).__new__(cls))
        return found

    def __init__(self, of: Type, count: int) -> None:
        if "kept" not in self.__dict__:
            super().__init__()
            self.of, self.count = of, count
            self.size, self.align = count * of.size, of.align


class Record(Kind):
    """A struct, or a union. `close` comes when its members are known, since a pointer among them may lead to itself."""

    def __init__(self, name: str, union: bool = False) -> None:
        super().__init__()
        self.name, self.union = name, union
        self.members: dict[str, Type] = {}
        self.offsets: dict[str, int] = {}

    def close(self, members: Sequence[tuple[str, Type]]) -> None:
        end = 0
        self.align = max(kind.align for _, kind in members)
        for name, kind in members:
            at = 0 if self.union else -(-end // kind.align) * kind.align
            self.members[name], self.offsets[name] = kind, at
            end = max(end, at + kind.size)
        self.size = -(-end // self.align) * self.align

    def word(self) -> str:
        return f"{'union' if self.union else 'struct'} {self.name}"


class Function(Kind):
    def __init__(self, result: Type, parameters: tuple[Type, ...]) -> None:
        super().__init__()
        self.result, self.parameters = result, parameters

    def same(self, other: Type) -> bool:
        return isinstance(other, Function) and (self.result, self.parameters) == (other.result, other.parameters)


Type = Union[Int, Void, Pointer, Array, Record, Function]
VOID = Void()


def declared(kind: Type, name: str) -> str:
    """The declaration of a name, from the inside out."""
    if isinstance(kind, Pointer):
        inner = f"(*{name})" if isinstance(kind.to, (Array, Function)) else f"*{name}"
        return declared(kind.to, inner)
    if isinstance(kind, Array):
        return declared(kind.of, f"{name}[{kind.count}]")
    if isinstance(kind, Function):
        return declared(kind.result, f"{name}({', '.join(declared(it, '') for it in kind.parameters) or 'void'})")
    word = "void" if isinstance(kind, Void) else kind.word() if isinstance(kind, Record) else kind.name
    return f"{word} {name}".rstrip()


def promoted(kind: Type) -> Int:
    assert isinstance(kind, Int)
    return kind if kind.size >= INT.size else INT


def common(one: Type, other: Type) -> Int:
    """The usual arithmetic conversions (C90 6.2.1.5)."""
    left, right = promoted(one), promoted(other)
    if left.size != right.size:
        return max(left, right, key=lambda kind: kind.size)
    return right if left.signed else left


# Expressions. `kind` is the type.


@dataclass(eq=False)
class Declaration:
    """An object with a name. `storage` is global, static (of a function), local, inner (of a block) or parameter."""

    name: str
    kind: Type
    storage: str
    initial: Optional[Initial] = None
    line: int = 0

    def text(self) -> str:
        word = "static " if self.storage == "static" else ""
        value = f" = {initial_text(self.initial)}" if self.initial is not None else ""
        return f"{word}{declared(self.kind, self.name)}{value};"


@dataclass(eq=False)
class Constant:
    value: int
    kind: Int = INT

    def text(self) -> str:
        mark = {"int": "", "unsigned": "u", "long": "L", "unsigned long": "UL"}[self.kind.name]
        return f"({self.value}{mark})" if self.value < 0 else f"{self.value}{mark}"


@dataclass(eq=False)
class Null:
    kind: Type

    def text(self) -> str:
        return "0"


@dataclass(eq=False)
class Name:
    declaration: Declaration

    def __post_init__(self) -> None:
        self.kind = self.declaration.kind

    def text(self) -> str:
        return self.declaration.name


@dataclass(eq=False)
class Index:
    """`base[index]`, of an array that is an lvalue, or of a pointer."""

    base: Expression
    index: Expression

    def __post_init__(self) -> None:
        base = self.base.kind
        assert isinstance(base, (Array, Pointer))
        self.kind: Type = base.of if isinstance(base, Array) else base.to

    def text(self) -> str:
        return f"{self.base.text()}[{self.index.text()}]"


@dataclass(eq=False)
class Follow:
    """`*pointer`."""

    pointer: Expression

    def __post_init__(self) -> None:
        assert isinstance(self.pointer.kind, Pointer)
        self.kind: Type = self.pointer.kind.to

    def text(self) -> str:
        return f"(*{self.pointer.text()})"


@dataclass(eq=False)
class Member:
    """`record.name`, of an lvalue; of what is followed it is written `pointer->name`."""

    record: Expression
    name: str

    def __post_init__(self) -> None:
        assert isinstance(self.record.kind, Record)
        self.kind: Type = self.record.kind.members[self.name]

    def text(self) -> str:
        if isinstance(self.record, Follow):
            return f"{self.record.pointer.text()}->{self.name}"
        return f"{self.record.text()}.{self.name}"


@dataclass(eq=False)
class Address:
    of: Expression

    def __post_init__(self) -> None:
        self.kind: Type = Pointer(self.of.kind)

    def text(self) -> str:
        return f"(&{self.of.text()})"


@dataclass(eq=False)
class Unary:
    """`-`, `~` of a number, or `!`."""

    sign: str
    operand: Expression

    def __post_init__(self) -> None:
        self.kind: Type = INT if self.sign == "!" else promoted(self.operand.kind)

    def text(self) -> str:
        return f"({self.sign}{self.operand.text()})"


@dataclass(eq=False)
class Binary:
    """An operator on numbers, a pointer that moves by one, or the distance of two pointers."""

    sign: str
    left: Expression
    right: Expression

    def __post_init__(self) -> None:
        left, right = decayed(self.left.kind), decayed(self.right.kind)
        self.kind: Type
        if isinstance(left, Pointer):
            self.kind = LONG if isinstance(right, Pointer) else left
        else:
            self.kind = promoted(left) if self.sign in ("<<", ">>") else common(left, right)

    def text(self) -> str:
        return f"({self.left.text()} {self.sign} {self.right.text()})"


@dataclass(eq=False)
class Compare:
    """Of numbers, in their common type, or of pointers."""

    sign: str
    left: Expression
    right: Expression
    kind: Type = INT

    def __post_init__(self) -> None:
        numbers = isinstance(self.left.kind, Int) and isinstance(self.right.kind, Int)
        self.common = common(self.left.kind, self.right.kind) if numbers else None

    def text(self) -> str:
        return f"({self.left.text()} {self.sign} {self.right.text()})"


@dataclass(eq=False)
class Logical:
    """`&&` or `||`."""

    sign: str
    left: Expression
    right: Expression
    kind: Type = INT

    def text(self) -> str:
        return f"({self.left.text()} {self.sign} {self.right.text()})"


@dataclass(eq=False)
class Choice:
    """`condition ? yes : no`, of numbers, or of pointers of one type."""

    condition: Expression
    yes: Expression
    no: Expression

    def __post_init__(self) -> None:
        yes = decayed(self.yes.kind)
        self.kind: Type = yes if isinstance(yes, Pointer) else common(yes, self.no.kind)

    def text(self) -> str:
        return f"({self.condition.text()} ? {self.yes.text()} : {self.no.text()})"


@dataclass(eq=False)
class Cast:
    kind: Type
    operand: Expression

    def text(self) -> str:
        return f"(({declared(self.kind, '')}){self.operand.text()})"


@dataclass(eq=False)
class Size:
    """`sizeof(of)`."""

    of: Type
    kind: Type = ULONG

    def text(self) -> str:
        return f"sizeof({declared(self.of, '')})"


@dataclass(eq=False)
class Assign:
    """`to = value`, or with an operator `to sign= value`."""

    to: Expression
    value: Expression
    sign: str = ""

    def __post_init__(self) -> None:
        self.kind: Type = self.to.kind

    def text(self) -> str:
        return f"{self.to.text()} {self.sign}= {self.value.text()}"


@dataclass(eq=False)
class Step:
    """`to++`, or `++to` where the new value is given."""

    to: Expression
    sign: str
    new: bool = False

    def __post_init__(self) -> None:
        self.kind: Type = self.to.kind

    def text(self) -> str:
        return f"{self.sign * 2}{self.to.text()}" if self.new else f"{self.to.text()}{self.sign * 2}"


@dataclass(eq=False)
class Routine:
    """A function with its parameters, its objects and its body."""

    name: str
    kind: Function
    parameters: list[Declaration]
    objects: list[Declaration] = field(default_factory=list)
    body: list[Statement] = field(default_factory=list)
    line: int = 0

    def text(self) -> str:
        """The name, which is an expression."""
        return self.name

    def head(self) -> str:
        names = ", ".join(declared(it.kind, it.name) for it in self.parameters) or "void"
        return declared(self.kind.result, f"{self.name}({names})")


@dataclass(eq=False)
class Call:
    """Of a function by its name, or of what a pointer points to."""

    callee: Expression
    arguments: list[Expression]

    def __post_init__(self) -> None:
        callee = self.callee.kind
        function = callee.to if isinstance(callee, Pointer) else callee
        assert isinstance(function, Function)
        self.kind: Type = function.result

    def text(self) -> str:
        return f"{self.callee.text()}({', '.join(it.text() for it in self.arguments)})"


@dataclass(eq=False)
class Library:
    """A call of a function that the program doesn't define."""

    name: str
    arguments: list[Expression] = field(default_factory=list)

    def __post_init__(self) -> None:
        self.kind: Type = INT if self.name == "input" else Pointer(VOID)

    def text(self) -> str:
        return f"{self.name}({', '.join(it.text() for it in self.arguments)})"


Expression = Union[Constant, Null, Name, Index, Follow, Member, Address, Unary, Binary, Compare, Logical, Choice, Cast,
                   Size, Assign, Step, Routine, Call, Library]
Initial = Union[Expression, Sequence["Initial"]]


def decayed(kind: Type) -> Type:
    """An array's value is a pointer to its first element, a function's one to itself (C90 6.2.2.1)."""
    if isinstance(kind, Array):
        return Pointer(kind.of)
    return Pointer(kind) if isinstance(kind, Function) else kind


def initial_text(initial: Initial) -> str:
    if isinstance(initial, Sequence):
        return "{ " + ", ".join(initial_text(it) for it in initial) + " }"
    return initial.text()
