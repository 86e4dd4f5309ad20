"""Tokens of C90 and what looks like them, and how tests/hostile.py cuts a text into tokens."""
from __future__ import annotations

import re

PIECE = re.compile(rb"""[A-Za-z_]\w*|\.?\d[\w.]*|"(?:\\.|[^"\\\n])*"|'(?:\\.|[^'\\\n])*'|/\*.*?\*/|//[^\n]*
|\#[^\n]*|<<=|>>=|\.\.\.|[-+*/%&|^=!<>]=|->|\+\+|--|&&|\|\||<<|>>|\s+|.""".replace(b"\n|", b"|"), re.DOTALL)
NUMBER = re.compile(rb"\.?\d[\w.]*")

KEYWORDS = b"""auto break case char const continue default do double else enum extern float for goto if int long
register return short signed sizeof static struct switch typedef union unsigned void volatile while""".split()
MARKS = b"""[ ] ( ) . -> ++ -- & * + - ~ ! sizeof / % << >> < > <= >= == != ^ | && || ? : = *= /= %= += -= <<= >>= &=
^= |= , ; { } ...""".split()
# Words and marks that C90 hasn't, or that have a row of their own among the refusals.
STRANGE = [b"asm", b"__asm__", b"__attribute__", b"__typeof__", b"__builtin_va_list", b"__extension__", b"setjmp", b"longjmp",
           b"_Bool", b"inline", b"long long", b"0xffull", b"L'x'", b'L"x"', b"1.5", b"1e309", b"0x1p3", b"@", b"$", b"`", b"\\",
           b"##", b"<:", b"%>", b"??=", b"/*", b"*/", b"//", b"'", b'"', b"'ab'", b"''", b'""', b"'\\q'", b"'\\777'", b"'\\x'",
           b"'\\xfff'", b"\\\n", b"main", b"malloc", b"memcpy", b"strlen", b"realloc", b"exit", b"void *"]
LONG = 5000
NUMBERS = [b"0", b"1", b"-1", b"127", b"128", b"255", b"256", b"32768", b"65536", b"2147483647", b"2147483648", b"4294967295",
           b"4294967296", b"9223372036854775807", b"9223372036854775808", b"18446744073709551615", b"18446744073709551616",
           b"0x7fffffff", b"0xffffffff", b"0xffffffffffffffff", b"0x10000000000000000", b"01777777777777777777777",
           b"02000000000000000000000", b"1099511627776", b"0u", b"4294967295u", b"1lu", b"2147483648ul", b"1lul", b"08", b"0x",
           b"1e", b"1.", b".5f", b"1ll", b"9" * LONG, b"0" * LONG, b"0x" + b"f" * LONG, b"0" * LONG + b"1"]
TABLE = KEYWORDS + MARKS
# Operators that may mostly stand for one another.
OPERATORS = b"""+ - * / % << >> < > <= >= == != & ^ | && || =""".split()


def pieces(text: bytes) -> list[bytes]:
    """The tokens of a text with the blanks between, which joined give the text."""
    return PIECE.findall(text)


def kind(token: bytes) -> str:
    if NUMBER.fullmatch(token):
        return "number"
    if token in KEYWORDS:
        return "keyword"
    return "name" if token[:1].isalpha() or token[:1] == b"_" else "mark"


def token_places(parts: list[bytes]) -> list[int]:
    return [at for at, part in enumerate(parts) if not part.isspace()]
