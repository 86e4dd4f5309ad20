"""Changes of a text by bytes, tokens and lines, as tests/hostile.py makes them."""
from __future__ import annotations

import random
from typing import Callable

from hostile_tokens import NUMBERS, OPERATORS, STRANGE, TABLE, kind, pieces, token_places

Mutation = Callable[[random.Random, bytes], bytes]
SPECIAL = [b"\0", b"\r", b"\f", b"\v", b"\t", b"\n", b"\x1a", b"\x7f", b"\x80", b"\xc3\xa9", b"\xef\xbb\xbf", b"\xfe", b"\xff",
           b"\\", b'"', b"'", b"#", b"/*", b"*/", b"//", b"\r\n", b"\\\n", b"?", b"%", b":"]
MARKERS = [b'# 1 "b.h"', b'# 7 "b.h" 1 3 4', b'#line 9 "c.c"', b"#pragma once", b'# 0 "z"', b'# 2147483647 "z"',
           b'# 2147483648 "z"', b'# 1 ""', b'# 3 "a\\"b"', b'# 3 "\xff\xfe"', b'# 1 "a.c:1:1: zero: divisor [0,0]"', b"#", b"# 1",
           b'#1 "b.h"', b"#define X", b"#include <stdio.h>", b'# 1 "b.h', b'# 2 "' + b"n" * 5000 + b'"']
MOST = 200000  # bytes of a changed text


def place(rng: random.Random, text: bytes) -> int:
    return rng.randrange(len(text) + 1)


def span(rng: random.Random, text: bytes) -> tuple[int, int]:
    """A short part of a text, at times a long one."""
    start = place(rng, text)
    return start, min(len(text), start + rng.choice([1, 1, 1, 2, 3, 8, 30, 300]))


# Bytes

def flip_bit(rng: random.Random, text: bytes) -> bytes:
    if not text:
        return text
    at = rng.randrange(len(text))
    return text[:at] + bytes([text[at] ^ 1 << rng.randrange(8)]) + text[at + 1:]


def insert_bytes(rng: random.Random, text: bytes) -> bytes:
    at, put = place(rng, text), rng.choice(SPECIAL) if rng.random() < 0.7 else bytes([rng.randrange(256)])
    return text[:at] + put + text[at:]


def replace_bytes(rng: random.Random, text: bytes) -> bytes:
    start, end = span(rng, text)
    return text[:start] + rng.choice(SPECIAL) + text[end:]


def delete_bytes(rng: random.Random, text: bytes) -> bytes:
    start, end = span(rng, text)
    return text[:start] + text[end:]


def repeat_bytes(rng: random.Random, text: bytes) -> bytes:
    start, end = span(rng, text)
    return text[:end] + text[start:end] * rng.choice([1, 1, 2, 10, 250]) + text[end:]


def cut(rng: random.Random, text: bytes) -> bytes:
    at = place(rng, text)
    return text[:at] if rng.random() < 0.7 else text[at:]


def other_blanks(rng: random.Random, text: bytes) -> bytes:
    """Another blank for all of one kind, as the ends of lines of another system."""
    old, new = rng.choice([b" ", b"\n"]), rng.choice([b"\r\n", b"\r", b"\f", b"\v", b"\t", b"\n", b"", b"\\\n", b"/**/"])
    return text.replace(old, new)


# Tokens

def delete_token(rng: random.Random, text: bytes) -> bytes:
    return changed_token(rng, text, lambda token: b"")


def repeat_token(rng: random.Random, text: bytes) -> bytes:
    times = rng.choice([2, 2, 2, 3, 50, 201])
    return changed_token(rng, text, lambda token: b" ".join([token] * times))


def table_token(rng: random.Random, text: bytes) -> bytes:
    return changed_token(rng, text, lambda token: rng.choice(TABLE))


def strange_token(rng: random.Random, text: bytes) -> bytes:
    return changed_token(rng, text, lambda token: rng.choice(STRANGE))


def insert_token(rng: random.Random, text: bytes) -> bytes:
    return changed_token(rng, text, lambda token: token + b" " + rng.choice(TABLE))


def own_token(rng: random.Random, text: bytes) -> bytes:
    """A token in place of another of the same text. Mostly both are of a kind, so that more is accepted."""
    tokens = [part for part in pieces(text) if not part.isspace()]
    def alike(token: bytes) -> bytes:
        return rng.choice([it for it in tokens if kind(it) == kind(token)] if rng.random() < 0.8 else tokens)
    return changed_token(rng, text, alike)


def swap_tokens(rng: random.Random, text: bytes) -> bytes:
    parts = pieces(text)
    places = token_places(parts)
    if len(places) < 2:
        return text
    at = rng.randrange(len(places) - 1)
    one, other = places[at], places[at + 1] if rng.random() < 0.6 else rng.choice(places)
    parts[one], parts[other] = parts[other], parts[one]
    return b"".join(parts)


def number(rng: random.Random, text: bytes) -> bytes:
    """A number at a limit in place of one of the text."""
    return replaced(rng, text, lambda part: kind(part) == "number", NUMBERS)


def operator(rng: random.Random, text: bytes) -> bytes:
    return replaced(rng, text, lambda part: part in OPERATORS, OPERATORS)


def replaced(rng: random.Random, text: bytes, fits: Callable[[bytes], bool], table: list[bytes]) -> bytes:
    """A token of a table in place of one that fits."""
    parts = pieces(text)
    places = [at for at, part in enumerate(parts) if fits(part)]
    if not places:
        return text
    parts[rng.choice(places)] = rng.choice(table)
    return b"".join(parts)


def changed_token(rng: random.Random, text: bytes, change: Callable[[bytes], bytes]) -> bytes:
    parts = pieces(text)
    places = token_places(parts)
    if not places:
        return text
    at = rng.choice(places)
    parts[at] = b" " + change(parts[at]) + b" " if rng.random() < 0.8 else change(parts[at])
    return b"".join(parts)


# Lines

def delete_line(rng: random.Random, text: bytes) -> bytes:
    return changed_line(rng, text, lambda line: [])


def repeat_line(rng: random.Random, text: bytes) -> bytes:
    return changed_line(rng, text, lambda line: [line] * rng.choice([2, 2, 3, 40]))


def marker_line(rng: random.Random, text: bytes) -> bytes:
    return changed_line(rng, text, lambda line: [rng.choice(MARKERS), line])


def swap_lines(rng: random.Random, text: bytes) -> bytes:
    lines = text.split(b"\n")
    one, other = rng.randrange(len(lines)), rng.randrange(len(lines))
    lines[one], lines[other] = lines[other], lines[one]
    return b"\n".join(lines)


def join_lines(rng: random.Random, text: bytes) -> bytes:
    lines = text.split(b"\n")
    at = rng.randrange(len(lines))
    return b"\n".join([*lines[:at], b"".join(lines[at:at + 2]), *lines[at + 2:]])


def changed_line(rng: random.Random, text: bytes, change: Callable[[bytes], list[bytes]]) -> bytes:
    lines = text.split(b"\n")
    at = rng.randrange(len(lines))
    return b"\n".join([*lines[:at], *change(lines[at]), *lines[at + 1:]])


BY_BYTES: list[Mutation] = [flip_bit, insert_bytes, replace_bytes, delete_bytes, repeat_bytes, cut, other_blanks]
BY_TOKENS: list[Mutation] = [
    delete_token, repeat_token, table_token, strange_token, insert_token, own_token, own_token, own_token, swap_tokens,
    number, number, number, operator, operator,
]
BY_LINES: list[Mutation] = [delete_line, repeat_line, marker_line, swap_lines, join_lines]
# Each way with its share. Tokens change most: what comes of that is still a program more often.
WAYS: list[tuple[str, list[Mutation], int]] = [("bytes", BY_BYTES, 3), ("tokens", BY_TOKENS, 8), ("lines", BY_LINES, 3)]


def mutated(rng: random.Random, text: bytes, mutations: list[Mutation]) -> bytes:
    """A text with one change or some more."""
    for _ in range(rng.choice([1, 1, 1, 1, 2, 2, 3, 5, 12])):
        text = rng.choice(mutations)(rng, text)[:MOST]
    return text


def spliced(rng: random.Random, one: bytes, other: bytes) -> bytes:
    """The beginning of a text and the end of another; both are cut at lines, tokens or bytes."""
    cuts: Callable[[bytes], list[bytes]] = rng.choice([by_lines, pieces, by_bytes])
    before, after = cuts(one), cuts(other)
    return b"".join(before[:rng.randrange(len(before) + 1)] + after[rng.randrange(len(after) + 1):])


def by_lines(text: bytes) -> list[bytes]:
    return [line + b"\n" for line in text.split(b"\n")]


def by_bytes(text: bytes) -> list[bytes]:
    return [text[at:at + 1] for at in range(len(text))]
