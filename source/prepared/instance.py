"""A model as it stands for one call."""

from __future__ import annotations

import re
from typing import Optional

from c.constants import value_of
from c.edits import marker_to
from c.rules import stripped, value_type
from c.trees import Expression
from c.types import (
    Floating,
    Function,
    Integer,
    MaybeType,
    Pointer,
    Record,
    Void,
    decayed,
    promoted,
    size_of,
)
from contexts.functions import Call, ContextUnit
from contexts.meant import spelling
from outside.written import is_null

from .formats import scanned
from .printing import UNKNOWN, count_of_format, numbers_told
from .table import COMPARE, COMPARISON, Model, Parameter

# For the analysis any number of the type, since the constant is too large for it.
ANY = {
    "ANY_SIZE": "(unsigned long)(signed char)256u",
    "ANY_LONG": "(long)18446744073709551615u",
    "ANY_INT": "(int)4294967295u",
    "ANY": "(signed char)256u",
}
WORD = re.compile(r"\b(?:ANY_SIZE|ANY_LONG|ANY_INT|ANY|TARGET|OWN|RECORD)\b|@")
CALL = re.compile(r"\b(SIZE|SCANNED|PRINTED|ELEMENT|FIRST|FIELD|SET|TOLD|ONLY_TOLD)\(([^()]*)\)")
FAILS = "FAILS "
POINTER = "const void *"
COMPARED = f"int (*{COMPARE})({POINTER}, {POINTER})"


class Unfit(Exception):
    """The model doesn't fit the call, which stays as it is."""


class Instance:
    """What becomes of a model for a call of a unit."""

    def __init__(self, unit: ContextUnit, call: Call, kind: Function, model: Model) -> None:
        self.unit = unit
        self.call = call
        self.kind = kind
        self.model = model
        self.name = ""
        self.extras: list[Parameter] = []
        self.counted = UNKNOWN
        # What is assigned before the call.
        self.first = ""
        self.arguments = dict(zip((each.name for each in model.parameters), call.arguments))

    def text(self, name: str, before: int, own: str) -> str:
        """The function, to stand before a token; `own` is the name of what calls share."""
        self.name = name
        parameters = self.parameters()
        body = CALL.sub(lambda match: self.expanded(match, before), self.model.body)
        if body.startswith(FAILS):
            body = f"{self.set('errno', before)} {{ {body[len(FAILS) :]} }}"
        body = body.replace("COUNT", self.counted.number)
        place = marker_to(self.unit.places.of(self.unit.tokens.starts[self.call.token]))
        words = {**ANY, "@": place, "OWN": own, "RECORD": own, "TARGET": self.target(before)}
        body = WORD.sub(lambda match: words[match.group()], body)
        return f"{place}static {self.result(before)} {name}({parameters}) {{ {body} }}"

    def result(self, before: int) -> str:
        """The type of the result: the one that the program declares."""
        kind, written = self.kind.result, self.model.result
        is_pointer, is_void = written.endswith("*"), written == "void"
        if isinstance(kind, Pointer) != is_pointer or isinstance(kind, Void) != is_void:
            raise Unfit
        spelled = spelling(kind, self.unit.scope, before)
        if spelled is None or isinstance(kind, Floating):
            raise Unfit
        return spelled

    def parameters(self) -> str:
        """The parameters, with one for each argument; whether the arguments fit them is looked
        at."""
        listed, arguments = list(self.model.parameters), self.call.arguments
        more = len(arguments) - len(listed)
        if more < 0 or (more > 0 and not self.model.is_variadic):
            raise Unfit
        for number, argument in enumerate(arguments[len(listed) :]):
            self.extras.append(Parameter(type_of_extra(argument), f"x{number}"))
        for parameter, argument in zip(listed, arguments):
            if not fits(parameter, argument):
                raise Unfit
        shown = [
            COMPARED if each.type == COMPARISON else f"{each.type} {each.name}"
            for each in listed + self.extras
        ]
        return ", ".join(shown) or "void"

    def target(self, before: int) -> str:
        """The type of what the result points to."""
        kind = self.kind.result
        if "TARGET" not in self.model.body:
            return ""
        target = kind.target if isinstance(kind, Pointer) else None
        written = spelling(target, self.unit.scope, before)
        if written is None or size_of(target) is None:
            raise Unfit
        return written

    def expanded(self, match: re.Match[str], before: int) -> str:
        """What stands for a word with arguments."""
        word, given = match.groups()
        names = [name.strip() for name in given.split(",")]
        if word == "SIZE":
            return str(self.size(names[0]))
        if word == "FIRST":
            self.first = self.assigned(*names)
            return ""
        if word == "ELEMENT":
            return self.element(names, before)
        if word == "SET":
            return self.set(names[0], before)
        if word == "FIELD":
            return self.field(*names)
        literal = self.literal(names[0])
        if word in ("TOLD", "ONLY_TOLD"):
            told = numbers_told(literal, self.extras)
            if not told and word == "ONLY_TOLD":
                raise Unfit
            return told
        if word == "PRINTED":
            self.counted = count_of_format(literal, self.extras)
            return self.counted.before
        return self.scanned_by(literal)

    def size(self, name: str) -> int:
        """The size of what a parameter points to, or 1 where that isn't known."""
        place = [each.name for each in self.model.parameters].index(name)
        known = self.kind.parameters
        kind = decayed(known[place]) if known is not None and place < len(known) else None
        if kind is None or is_void_pointer(kind):
            kind = value_type(self.arguments[name])
        return (size_of(kind.target) if isinstance(kind, Pointer) else None) or 1

    def assigned(self, pointer: str, value: str) -> str:
        """An assignment to an object whose address the call gives, of another by its name."""
        given, name = stripped(self.arguments[pointer]), stripped(self.arguments[value])
        target = stripped(given.parts[0]) if given.kind == "unary" and given.text == "&" else None
        if target is None or target.kind != "name" or name.kind != "name":
            return ""
        return f"{target.text} = (char *){name.text}"

    def set(self, name: str, before: int) -> str:
        """What lets a variable hold anything, where the file declares it."""
        known = self.unit.scope.names.get(name)
        if known is None or known.kind != "object" or known.first >= before:
            return ""
        if isinstance(known.type, Pointer):
            return f"{name} = (void *)ANY_LONG;"
        return f"{name} = ANY_INT;" if isinstance(known.type, Integer) else ""

    def field(self, name: str, least: str, most: str) -> str:
        """What sets a member of the shared object to a number between two."""
        kind = self.kind.result
        target = kind.target if isinstance(kind, Pointer) else None
        members = target.path_to(name) if isinstance(target, Record) else []
        if not members or not isinstance(members[-1].type, Integer):
            return ""
        limits = f"if (n < {least}) n = {least}; if ({most} < n) n = {most};"
        return f"n = ANY_INT; {limits} RECORD.{name} = n;"

    def element(self, names: list[str], before: int) -> str:
        """The element of a pointer: by its type, where elements have its size, else by bytes."""
        pointer, index, size = names
        kind = value_type(uncast(self.arguments[pointer]))
        target = kind.target if isinstance(kind, Pointer) else None
        written = spelling(target, self.unit.scope, before)
        length = size_of(target)
        if written is not None and length and length == value_of(self.arguments[size]):
            return f"(({written} *){pointer} + {index})"
        return f"((char *){pointer} + {index} * {size})"

    def literal(self, name: str) -> Optional[str]:
        """The text of an argument that is a string literal, without its quotes."""
        node = stripped(self.arguments[name])
        if node.kind != "string":
            return None
        texts = self.unit.tokens.values[node.first : node.last + 1]
        if any(not text.startswith('"') for text in texts):
            return None
        # It ends where a 0 stands.
        return "".join(unescaped(text[1:-1]) for text in texts).partition("\0")[0]

    def scanned_by(self, text: Optional[str]) -> str:
        """The statements that write what a format of scanf asks for; one that isn't known may ask
        for anything."""
        conversions = [] if text is None else scanned(text)
        parts = []
        for place, extra in enumerate(self.extras):
            if not extra.is_pointer:
                continue
            count = None if text is None else 1
            if place < len(conversions):
                count = conversions[place].size
            size = "1 + ANY_SIZE / 2" if count is None else str(count)
            parts.append(f"@memset((void *){extra.name}, ANY, {size});")
        return " ".join(parts)


def type_of_extra(argument: Expression) -> str:
    """The type of a parameter for an argument that the prototype doesn't tell."""
    kind = promoted(value_type(argument))
    if isinstance(kind, Pointer) and not isinstance(kind.target, Function):
        return POINTER
    if isinstance(kind, Integer):
        return kind.spelling
    raise Unfit


def fits(parameter: Parameter, argument: Expression) -> bool:
    """Whether an argument may be given for a parameter."""
    kind: MaybeType = value_type(argument)
    if parameter.type == COMPARISON:
        return is_comparison(kind)
    if parameter.is_pointer:
        is_object = isinstance(kind, Pointer) and not isinstance(kind.target, Function)
        return is_object or is_null(argument)
    return isinstance(kind, Integer)


def is_comparison(kind: MaybeType) -> bool:
    """Whether a type is that of a pointer to a function that compares what two pointers lead to."""
    function = kind.target if isinstance(kind, Pointer) else None
    if not isinstance(function, Function) or function.parameters is None:
        return False
    are_pointers = all(map(is_void_pointer, function.parameters))
    result = function.result
    is_int = isinstance(result, Integer) and result.spelling == "int"
    return is_int and are_pointers and len(function.parameters) == 2 and not function.is_variadic


def uncast(node: Expression) -> Expression:
    """An expression without parentheses and casts to `void *` around it."""
    node = stripped(node)
    while node.kind == "cast" and is_void_pointer(node.type):
        node = stripped(node.parts[0])
    return node


def is_void_pointer(kind: MaybeType) -> bool:
    """Whether a type is `void *`."""
    return isinstance(kind, Pointer) and isinstance(kind.target, Void)


ESCAPE = re.compile(r"\\([0-7]{1,3}|x[0-9a-fA-F]+|.)", re.DOTALL)


def unescaped(text: str) -> str:
    """A text with a character for each escape: the one of a number, as `\\045` may be a `%`. Which
    one a letter stands for doesn't matter for a format."""
    return ESCAPE.sub(lambda match: character(match.group(1)), text)


def character(escape: str) -> str:
    """The character of an escape."""
    if escape[0] in "01234567":
        return chr(int(escape, 8) & 255)
    return chr(int(escape[1:], 16) & 255) if escape[0] == "x" and escape[1:] else "~"
