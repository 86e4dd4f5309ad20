"""How many characters a format of printf gives, as an expression of C.

Numbers of digits are kept in objects, and the rest is added up where it is used: what is stored is
rounded to the ladder. An assignment that isn't made in a branch is left out by its value, which is
computed from what was tested: `k = 0 * x + 2` has none where no x comes to it.
"""

from __future__ import annotations

from typing import NamedTuple, Optional

from .formats import MOST_BYTES, PRECISION, UP_TO_POINT, Printed, printed
from .table import Parameter

DECIMAL, HEXADECIMAL, OCTAL = 10, 16, 8
LENGTH_OF_POINTER = 20
# The types of numbers by their sizes.
TYPES = {1: "char", 2: "short", 4: "int", 8: "long"}


class Counted(NamedTuple):
    """The statements that come first, and the expression for the number."""

    before: str
    number: str


# A conversion, the arguments of its `*`, and its own.
Match = tuple[Printed, list[Parameter], Parameter]

UNKNOWN = Counted("", "1 + ANY_SIZE / 2")


def count_of_format(text: Optional[str], extras: list[Parameter]) -> Counted:
    """How many characters a format gives with its arguments, and the closing 0. Its text may not be
    known."""
    if text is None:
        return UNKNOWN
    rest, conversions = printed(text)
    declared: list[str] = []
    statements: list[str] = []
    terms = [str(rest + 1)]
    pairs = matched(conversions, extras)
    if len(pairs) < len(conversions):
        return UNKNOWN
    for each, stars, argument in pairs:
        if any(star.type != "int" for star in stars):
            return UNKNOWN
        if each.letter == "s" and argument.is_pointer and not each.width and each.precision is None:
            terms.append(f"@strlen({argument.name})")
            continue
        name = f"k{len(declared)}"
        plain = each._replace(width=max(0, each.width))
        if each.precision == -1:
            # No more than without one, but for numbers.
            plain = plain._replace(precision=None)
        written = statements_for(plain, argument, name)
        if written is None:
            return UNKNOWN
        declared.append(name)
        statements.append(written + at_least(name, each.width) + starred(each, stars, name))
        terms.append(name)
    head = f"unsigned long {', '.join(declared)};" if declared else ""
    return Counted(" ".join([head, *statements]), " + ".join(terms))


def starred(each: Printed, stars: list[Parameter], name: str) -> str:
    """The statements for a width and a precision that are arguments."""
    text = ""
    if each.width == -1:
        width = stars[0].name
        text += f" if (0 < {width}) {{ if ({name} < {width}) {name} = {width}; }}"
        text += f" if ({width} < 0) {name} = {name} - (long){width};"
    if each.precision == -1:
        precision = stars[-1].name
        if each.letter in "sS":
            # One below 0 is a great number here, and no limit.
            limit = f"unsigned long most; most = {precision};"
            text += f" {{ {limit} if (most < {name}) {name} = most; }}"
        else:
            text += f" if (0 < {precision}) {name} = {name} + {precision};"
    return text


def numbers_told(text: Optional[str], extras: list[Parameter]) -> str:
    """The statements that write the numbers that `%n` asks for."""
    conversions = [] if text is None else printed(text)[1]
    return " ".join(
        f"@memset((void *){extra.name}, ANY, {each.size});"
        for each, _, extra in matched(conversions, extras)
        if each.letter == "n" and extra.is_pointer
    )


def matched(conversions: list[Printed], extras: list[Parameter]) -> list[Match]:
    """The conversions that have their arguments, each with those of its `*` and its own."""
    found, place = [], 0
    for each in conversions:
        stars = (each.width, each.precision).count(-1)
        if len(extras) <= place + stars:
            break
        found.append((each, extras[place : place + stars], extras[place + stars]))
        place += stars + 1
    return found


def statements_for(each: Printed, argument: Parameter, name: str) -> Optional[str]:
    """The statements that make an object the number of characters of one conversion."""
    if each.letter == "n":
        return f"{name} = 0;"
    if each.is_wide:
        return wide(each, name)
    if each.letter == "c":
        return f"{name} = 1;"
    if each.letter == "s" and argument.is_pointer:
        most = "" if each.precision is None else f" {at_most(name, each.precision)}"
        return f"{name} = @strlen({argument.name});{most}"
    if each.letter in "diuxXo" and not argument.is_pointer:
        return digits(each, argument, name)
    if each.letter in "fFeEgG" and each.modifier != "L":
        precision = PRECISION if each.precision is None else each.precision
        return up_to(name, UP_TO_POINT + precision)
    return up_to(name, LENGTH_OF_POINTER) if each.letter == "p" else None


def wide(each: Printed, name: str) -> Optional[str]:
    """The statements for wide characters, each of which may become several bytes."""
    if each.letter in "cC":
        return up_to(name, MOST_BYTES)
    return None if each.precision is None else up_to(name, each.precision)


def converted(each: Printed, argument: Parameter) -> tuple[str, str]:
    """The number that is printed, and its declaration: what is given becomes one of the
    conversion's type."""
    wanted = TYPES[each.size] if each.letter in "di" else f"unsigned {TYPES[each.size]}"
    wanted = "signed char" if wanted == "char" else wanted
    if argument.type == wanted:
        return argument.name, ""
    number = f"v{argument.name}"
    return number, f"{{ {wanted} {number}; {number} = {argument.name};"


def digits(each: Printed, argument: Parameter, name: str) -> str:
    """The statements for a number: one digit more from each power of the base on, and a sign."""
    number, before = converted(each, argument)
    base = {"x": HEXADECIMAL, "X": HEXADECIMAL, "o": OCTAL}.get(each.letter, DECIMAL)
    is_signed = each.letter in "di"
    greatest = 2 ** (8 * each.size - 1) if is_signed else 2 ** (8 * each.size) - 1
    has_sign = is_signed and ("+" in each.flags or " " in each.flags)
    more = 2 * ("#" in each.flags) + has_sign
    least = max(1, each.precision or 0) + more
    parts, made = [f"{before} {name} = {least};"], f"{name} = 0 * {number} +"
    if is_signed:
        parts.append(f"if ({number} < 0) {made} {max(1, each.precision or 0) + 1};")
    power, count = base, 2
    while power <= greatest:
        if count > (each.precision or 0):
            power_word = f"{power}" if is_signed else f"{power}u"
            parts.append(f"if ({power_word} <= {number}) {made} {count + more};")
            if is_signed:
                parts.append(f"if ({number} <= -{power}) {made} {count + 1};")
        power, count = power * base, count + 1
    if "'" in each.flags:
        # Before each digit may stand a separator, of up to three bytes.
        parts.append(f"{name} = 4 * {name};")
    return " ".join(parts) + (" }" if before else "")


def up_to(name: str, most: int) -> str:
    """The statements that make an object any number from 1 to another."""
    return f"{name} = ANY_SIZE; {at_most(name, most)}{at_least(name, 1)}"


def at_most(name: str, most: int) -> str:
    """The statement for the most that a number may be."""
    return f"if ({most} < {name}) {name} = {most};"


def at_least(name: str, least: int) -> str:
    """The statement for a width."""
    return f" if ({name} < {least}) {name} = {least};" if least > 0 else ""
