#!/usr/bin/env python3
"""Writes the texts of bench/scan.sh into a folder: ordinary code and the scanner's worst kinds, each at 8 and at 16 MiB."""
import pathlib
import sys

MEBIBYTE = 1 << 20
FUNCTION = """
# 12 "table.h"
/* Adds a row to the table. */
static int add_row_%d(struct table *table, const char *key, unsigned long count)
{
    int place, found = 0;
    for (place = 0; place < table->length; place++) {
        if (table->rows[place].count >= count && key[0] != '\\0') {
            table->rows[place].count += 0x1fUL + (count << 3) - 42;
            found |= 1;
        } else if (!found) {
            report("no row of that key: \\"%%s\\"\\n", key);
        }
    }
    return found ? table->length * 2 : -1;
}
"""


def ordinary(size):
    parts, length, number = [], 0, 0
    while length < size:
        part = FUNCTION % (number % 4000)
        parts.append(part)
        length += len(part)
        number += 1
    return "".join(parts)


KINDS = {
    "ordinary": ordinary,
    "comment": lambda size: "/*" + "*" * (size - 4) + "*/",
    "blanks": lambda size: " " * size,
    "newlines": lambda size: "\n" * size,
    "marks": lambda size: ";" * (2_000_000 if size == 16 * MEBIBYTE else 1_000_000),
    "string": lambda size: '"' + "s" * (size - 2) + '"',
    "names": lambda size: " ".join("n%d" % number for number in range(size // 8)),
}


def main():
    folder = pathlib.Path(sys.argv[1])
    for kind, make in KINDS.items():
        for size in (8, 16):
            (folder / f"{kind}-{size}").write_text(make(size * MEBIBYTE))


main()
