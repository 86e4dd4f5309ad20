"""Functions that GNU C has built in become functions with a prototype.

Those of the library are called by their own names. The others are defined nowhere, so that a call
gives any value of its type.
"""

from __future__ import annotations

from c.tokens import NAME

from .walk import Rewriting

PREFIX = "__builtin_"
WORDS = {"": "unsigned int", "l": "unsigned long", "ll": "unsigned long"}
COUNTING = ("clz", "ctz", "ffs", "popcount", "parity")
# Result and parameters of each.
PROTOTYPES = {
    **{f"{name}{end}": ("int", word) for name in COUNTING for end, word in WORDS.items()},
    "bswap16": ("unsigned short", "unsigned short"),
    "bswap32": ("unsigned int", "unsigned int"),
    "bswap64": ("unsigned long", "unsigned long"),
    "unreachable": ("void", "void"),
    "trap": ("void", "void"),
    "prefetch": ("void", "const void *, ..."),
    "object_size": ("unsigned long", "const void *, int"),
}
LIBRARY = {
    "abort": ("void", "void"),
    "abs": ("int", "int"),
    "labs": ("long", "long"),
    "memcmp": ("int", "const void *, const void *, unsigned long"),
    "memcpy": ("void *", "void *, const void *, unsigned long"),
    "memmove": ("void *", "void *, const void *, unsigned long"),
    "memset": ("void *", "void *, int, unsigned long"),
    "strcmp": ("int", "const char *, const char *"),
    "strlen": ("unsigned long", "const char *"),
}


class Builtins(Rewriting):
    """Renames calls, and declares what is called at the head of the unit."""

    def prepare(self) -> None:
        """Looks at all tokens."""
        used = set()
        for token in range(self.tokens.count):
            value = self.tokens.values[token]
            if self.tokens.kinds[token] == NAME and value.startswith(PREFIX):
                name = value[len(PREFIX) :]
                if name in PROTOTYPES or name in LIBRARY:
                    used.add(name)
                    self.edits.replace(token, token, self.name_of(name))
                    self.unit.count("builtin function")
        for name in sorted(used):
            result, parameters = PROTOTYPES.get(name) or LIBRARY[name]
            self.unit.heads.append(f"extern {result} {self.name_of(name)}({parameters});")

    def name_of(self, name: str) -> str:
        """The function that is called."""
        return name if name in LIBRARY else f"builtin__{name}"
