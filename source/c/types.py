"""Types of C90 with their sizes on x86-64 Linux, and how GNU C lays out records.

Where a type isn't known, `None` stands for it.
"""

from __future__ import annotations

from typing import NamedTuple, Optional


class Type:
    """A type; qualifiers are left aside."""

    __slots__ = ()


class Void(Type):
    __slots__ = ()


class Integer(Type):
    """An integer type by its spelling; enumerated types are `int`."""

    __slots__ = ("spelling", "size", "is_signed")

    def __init__(self, spelling: str, size: int, is_signed: bool) -> None:
        self.spelling = spelling
        self.size = size
        self.is_signed = is_signed


class Floating(Type):
    __slots__ = ("spelling", "size")

    def __init__(self, spelling: str, size: int) -> None:
        self.spelling = spelling
        self.size = size


class Pointer(Type):
    __slots__ = ("target",)

    def __init__(self, target: MaybeType) -> None:
        self.target = target


class Array(Type):
    """An array; its length is None where it is missing or isn't known."""

    __slots__ = ("element", "length")

    def __init__(self, element: MaybeType, length: Optional[int]) -> None:
        self.element = element
        self.length = length


class Function(Type):
    """A function; its parameters are None where no prototype tells them."""

    __slots__ = ("result", "parameters", "is_variadic")

    def __init__(
        self, result: MaybeType, parameters: Optional[list[MaybeType]], is_variadic: bool
    ) -> None:
        self.result = result
        self.parameters = parameters
        self.is_variadic = is_variadic


class Member(NamedTuple):
    """A member; its name is missing where it is a struct or union without one, or padding bits."""

    name: Optional[str]
    type: MaybeType
    width: Optional[int]
    token: int


class Record(Type):
    """A struct or union; its members are None until they are read."""

    __slots__ = ("word", "tag", "members", "layout", "is_laid_out")

    def __init__(self, word: str, tag: Optional[str]) -> None:
        self.word = word
        self.tag = tag
        self.members: Optional[list[Member]] = None
        self.layout: Optional[Layout] = None
        self.is_laid_out = False

    def path_to(self, name: str) -> list[Member]:
        """The members from this record to the named one, through those without a name."""
        for member in self.members or ():
            if member.name == name:
                return [member]
            if member.name is None and isinstance(member.type, Record):
                path = member.type.path_to(name)
                if path:
                    return [member, *path]
        return []


MaybeType = Optional[Type]

VOID = Void()
CHAR = Integer("char", 1, True)
SIGNED_CHAR = Integer("signed char", 1, True)
UNSIGNED_CHAR = Integer("unsigned char", 1, False)
SHORT = Integer("short", 2, True)
UNSIGNED_SHORT = Integer("unsigned short", 2, False)
INT = Integer("int", 4, True)
# An enumerated type, whose bits in a struct may be taken for a number without a sign.
ENUM = Integer("int", 4, True)
UNSIGNED = Integer("unsigned int", 4, False)
LONG = Integer("long", 8, True)
UNSIGNED_LONG = Integer("unsigned long", 8, False)
# `_Bool` (C99 6.2.5): it holds 0 or 1, and what becomes one is 1 unless it is 0.
BOOL = Integer("unsigned char", 1, False)
FLOAT = Floating("float", 4)
DOUBLE = Floating("double", 8)
LONG_DOUBLE = Floating("long double", 16)

# Each set of specifier words, sorted, `int` and `signed` left out where another word is there.
BY_WORDS: dict[tuple[str, ...], Type] = {
    ("void",): VOID,
    ("char",): CHAR,
    ("char", "signed"): SIGNED_CHAR,
    ("char", "unsigned"): UNSIGNED_CHAR,
    ("short",): SHORT,
    ("short", "unsigned"): UNSIGNED_SHORT,
    (): INT,
    ("_Bool",): BOOL,
    ("unsigned",): UNSIGNED,
    ("long",): LONG,
    ("long", "unsigned"): UNSIGNED_LONG,
    ("long", "long"): LONG,
    ("long", "long", "unsigned"): UNSIGNED_LONG,
    ("float",): FLOAT,
    ("double",): DOUBLE,
    ("double", "long"): LONG_DOUBLE,
}


def type_of_words(words: list[str]) -> MaybeType:
    """The type of specifier words, or None where they are none."""
    left = [word for word in words if word != "int"]
    if "char" not in left:
        left = [word for word in left if word != "signed"]
    return BY_WORDS.get(tuple(sorted(left)))


def size_of(kind: MaybeType) -> Optional[int]:
    """The size of a type, or None where it isn't known."""
    if isinstance(kind, (Integer, Floating)):
        return kind.size
    if isinstance(kind, Pointer):
        return 8
    if isinstance(kind, Array):
        size = size_of(kind.element)
        return None if size is None or kind.length is None else size * kind.length
    if isinstance(kind, Record):
        layout = layout_of(kind)
        return None if layout is None else layout.size
    return None


def alignment_of(kind: MaybeType) -> Optional[int]:
    """The alignment of a type, or None where it isn't known."""
    if isinstance(kind, Array):
        return alignment_of(kind.element)
    if isinstance(kind, Record):
        layout = layout_of(kind)
        return None if layout is None else layout.alignment
    return size_of(kind)


class Layout(NamedTuple):
    """Size and alignment of a record in bytes, and where its members begin, in bits."""

    size: int
    alignment: int
    offsets: list[int]


def layout_of(record: Record) -> Optional[Layout]:
    """The layout of a record (System V ABI for x86-64, 3.1.2), or None where it isn't known."""
    if not record.is_laid_out and record.members is not None:
        record.is_laid_out = True
        record.layout = layout_of_members(record.word, record.members)
    return record.layout


def layout_of_members(word: str, members: list[Member]) -> Optional[Layout]:
    """The layout of a record of that word with these members."""
    at, greatest, alignment = 0, 0, 1
    offsets = []
    for member in members:
        size, align = size_of(member.type), alignment_of(member.type)
        if isinstance(member.type, Array) and member.type.length is None and member is members[-1]:
            # A flexible member takes no room.
            size = 0
        if size is None or not align:
            return None
        unit = align * 8
        width = size * 8 if member.width is None else member.width
        at = 0 if word == "union" else at
        if member.width is None or width == 0 or at // unit != (at + width - 1) // unit:
            at = -(-at // unit) * unit
        offsets.append(at)
        at += width
        greatest = max(greatest, at)
        # Bits without a name don't align their record.
        if member.width is None or member.name is not None:
            alignment = max(alignment, align)
    return Layout(-(-greatest // (alignment * 8)) * alignment, alignment, offsets)


def decayed(kind: MaybeType) -> MaybeType:
    """The type of a value of that type (C90 6.2.2.1)."""
    if isinstance(kind, Array):
        return Pointer(kind.element)
    if isinstance(kind, Function):
        return Pointer(kind)
    return kind


def promoted(kind: MaybeType) -> MaybeType:
    """The type behind the integral promotions (C90 6.2.1.1)."""
    return INT if isinstance(kind, Integer) and kind.size < 4 else kind


def common(left: MaybeType, right: MaybeType) -> MaybeType:
    """The type behind the usual arithmetic conversions (C90 6.2.1.5)."""
    left, right = promoted(left), promoted(right)
    floating = [kind for kind in (left, right) if isinstance(kind, Floating)]
    are_numbers = all(isinstance(kind, (Integer, Floating)) for kind in (left, right))
    if floating and are_numbers:
        return max(floating, key=lambda kind: kind.size)
    if not isinstance(left, Integer) or not isinstance(right, Integer):
        return None
    if left.size != right.size:
        return left if left.size > right.size else right
    return right if left.is_signed else left
