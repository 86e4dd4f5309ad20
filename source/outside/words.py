"""Functions of the library that are known, and a first look at which others a text may call."""

from __future__ import annotations

# The functions whose effect is known (docs/LANGUAGE.md), and how many arguments they have.
KNOWN = {
    "malloc": 1, "calloc": 2, "realloc": 2, "free": 1, "exit": 1, "abort": 0, "memset": 3,
    "memcpy": 3, "memmove": 3, "strlen": 1, "strcpy": 2, "strncpy": 3, "strcat": 2,
}
# Functions that only read what their extras, or a va_list, point to. A format with %n aside.
READING = frozenset(
    ["printf", "fprintf", "dprintf", "vprintf", "vfprintf", "vdprintf", "syslog", "vsyslog"]
    + ["err", "errx", "warn", "warnx", "verr", "verrx", "vwarn", "vwarnx", "error"]
    + ["execl", "execlp", "execle", "__builtin_prefetch", "__builtin_object_size"]
)
STATEMENTS = frozenset(["if", "while", "for", "switch", "return", "sizeof", "main"])
EXPECTED = STATEMENTS | READING

# Bytes that are no part of a name become blanks.
OTHER = {code: " " for code in range(256) if not (chr(code).isalnum() or code == ord("_"))}
# Names are looked for in so many bytes before a parenthesis.
MOST_BEFORE = 64


def may_call_others(text: str) -> bool:
    """Whether a name that isn't expected stands before a parenthesis; where none does nothing
    more has to be loaded."""
    for part in text.split("(")[:-1]:
        words = part[-MOST_BEFORE:].translate(OTHER).split()
        if words and words[-1] not in EXPECTED:
            return True
    return False
