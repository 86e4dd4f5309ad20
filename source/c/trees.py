"""Trees of a unit: each has its first and last token, and expressions have their types."""

from __future__ import annotations

from typing import Optional, Union

from .types import MaybeType, Member, Pointer, Record, decayed


class Symbol:
    """What a name stands for: a `typedef`, `object`, `function`, or the `constant` of an enum."""

    __slots__ = ("kind", "name", "type", "value", "depth", "hides_type", "uses")

    def __init__(self, kind: str, name: str, type_: MaybeType) -> None:
        self.kind = kind
        self.name = name
        self.type = type_
        # Of an enumeration constant.
        self.value: Optional[int] = None
        # How many scopes lie around it; 0 is that of the file.
        self.depth = 0
        # Whether it hides the name of a type.
        self.hides_type = False
        # The tokens that mean it, but for the declared one.
        self.uses: list[int] = []


class Expression:
    """An expression by its kind:

    name, number, character, string, function name (`__func__`), call (function, arguments), index,
    member (`text` is . or ->), postfix and prefix (++ and --), unary, cast, literal (`(T){..}`),
    sizeof, sizeof type, binary, assign, conditional, comma, parenthesis, block (`({ .. })`),
    generic (`_Generic`, whose part is the expression that is chosen, where that is known).
    """

    __slots__ = (
        "kind", "first", "last", "parts", "text", "type", "symbol", "written", "values", "path",
        "block",
    )

    def __init__(self, kind: str, first: int, last: int, parts: list[Expression]) -> None:
        self.kind = kind
        self.first = first
        self.last = last
        self.parts = parts
        # The operator, or the spelling of a name or number.
        self.text = ""
        self.type: MaybeType = None
        self.symbol: Optional[Symbol] = None
        # The type that a cast, a literal or a sizeof writes.
        self.written: Optional[TypeName] = None
        self.values: Optional[Initialiser] = None
        # The members from the record to the one named.
        self.path: list[Member] = []
        self.block: Optional[Statement] = None


class TypeName:
    """A type as a cast writes it."""

    __slots__ = ("first", "last", "specifiers", "declarator")

    def __init__(self, specifiers: Specifiers, declarator: Declarator, last: int) -> None:
        self.first = specifiers.first
        self.last = last
        self.specifiers = specifiers
        self.declarator = declarator

    @property
    def type(self) -> MaybeType:
        """The type."""
        return self.declarator.type


class Designator:
    """`.name`, `[index]`, or `[from ... to]`."""

    __slots__ = ("name", "index", "upto")

    def __init__(
        self, name: Optional[str], index: Optional[Expression], upto: Optional[Expression]
    ) -> None:
        self.name = name
        self.index = index
        self.upto = upto


class Initialiser:
    """An expression, or a list in braces of initialisers, each with its designators."""

    __slots__ = ("first", "last", "expression", "items")

    def __init__(self, first: int, last: int) -> None:
        self.first = first
        self.last = last
        self.expression: Optional[Expression] = None
        self.items: list[tuple[list[Designator], Initialiser]] = []


class FunctionPart:
    """The parameters of a declarator: their brackets, and what stands between."""

    __slots__ = ("open", "close", "ellipsis", "parameters", "identifiers")

    def __init__(self, opening: int) -> None:
        self.open = opening
        self.close = opening
        self.ellipsis: Optional[int] = None
        self.parameters: list[Declaration] = []
        # The tokens of an old-style list of names.
        self.identifiers: list[int] = []


class Declarator:
    """A declarator with its initialiser or width of bits; its name may be missing."""

    __slots__ = (
        "first", "last", "place", "token", "name", "type", "symbol", "functions", "lengths",
        "values", "width",
    )

    def __init__(self, first: int) -> None:
        self.first = first
        self.last = first - 1
        # The token of the name; or where there is none, the one before which it would stand.
        self.place = first
        self.token = -1
        self.name: Optional[str] = None
        self.type: MaybeType = None
        self.symbol: Optional[Symbol] = None
        # From the one next to the name outwards.
        self.functions: list[FunctionPart] = []
        # The expressions of lengths of arrays.
        self.lengths: list[Expression] = []
        self.values: Optional[Initialiser] = None
        self.width: Optional[Expression] = None


class RecordBody:
    """The members of a struct or union, in braces."""

    __slots__ = ("record", "open", "close", "members")

    def __init__(self, record: Record, opening: int) -> None:
        self.record = record
        self.open = opening
        self.close = opening
        self.members: list[Declaration] = []


class EnumBody:
    """The constants of an enumerated type, in braces."""

    __slots__ = ("open", "close", "values", "symbols")

    def __init__(self, opening: int) -> None:
        self.open = opening
        self.close = opening
        self.values: list[Expression] = []
        # Each constant with its token.
        self.symbols: list[tuple[int, Symbol]] = []


class Specifiers:
    """What stands before the declarators of a declaration."""

    __slots__ = ("first", "last", "storage", "type", "is_implicit", "body", "tag", "is_tag_local")

    def __init__(self, first: int) -> None:
        self.first = first
        # The last token; before the first where there is none.
        self.last = first - 1
        self.storage: set[str] = set()
        self.type: MaybeType = None
        # Whether no type is written.
        self.is_implicit = False
        self.body: Union[RecordBody, EnumBody, None] = None
        # The token of the tag of a struct, union or enum.
        self.tag = -1
        # Whether the tag is that of a block.
        self.is_tag_local = False


class Declaration:
    """A declaration, a parameter, the declaration of members, or a static assertion."""

    __slots__ = ("first", "last", "specifiers", "declarators", "assertion")

    def __init__(self, specifiers: Specifiers) -> None:
        self.first = specifiers.first
        self.last = specifiers.last
        self.specifiers = specifiers
        self.declarators: list[Declarator] = []
        # What `_Static_assert` wants to be true.
        self.assertion: Optional[Expression] = None


class Statement:
    """A statement by its kind:

    block, declaration, expression, if, while, do, for, switch, case, default, label, goto, jump,
    return, empty, asm. `expressions` are those of its head; of a `for` they may be missing.
    """

    __slots__ = ("kind", "first", "last", "expressions", "bodies", "declaration")

    def __init__(self, kind: str, first: int) -> None:
        self.kind = kind
        self.first = first
        self.last = first
        self.expressions: list[Optional[Expression]] = []
        self.bodies: list[Statement] = []
        # Of a declaration, or in the head of a `for`.
        self.declaration: Optional[Declaration] = None


class FunctionDefinition:
    """A function with its body; old-style ones have the declarations of their parameters."""

    __slots__ = ("first", "last", "specifiers", "declarator", "old_style", "body")

    def __init__(self, specifiers: Specifiers, declarator: Declarator) -> None:
        self.first = specifiers.first
        self.last = declarator.last
        self.specifiers = specifiers
        self.declarator = declarator
        self.old_style: list[Declaration] = []
        self.body = Statement("block", declarator.last + 1)


External = Union[Declaration, FunctionDefinition]


class Unread:
    """A part at file scope that isn't read, from its first token to its last; and why."""

    __slots__ = ("first", "last", "token", "text")

    def __init__(self, first: int, last: int, token: int, text: str) -> None:
        self.first = first
        self.last = last
        self.token = token
        self.text = text


def records_of(node: Expression) -> list[Optional[Record]]:
    """The record in which each member of a member expression's path lies."""
    kind: MaybeType = node.parts[0].type
    if node.text == "->":
        pointer = decayed(kind)
        kind = pointer.target if isinstance(pointer, Pointer) else None
    records = []
    for member in node.path:
        records.append(kind if isinstance(kind, Record) else None)
        kind = member.type
    return records
