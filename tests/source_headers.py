"""Compares the headers of include/ with those of glibc, where these are there.

A unit with glibc's header gets the prototypes of ours, and asserts that macros which are numbers
have our values, and types our sizes. So the compiler finds what differs. Prints a line for each
header that it refuses, and what it says.
"""

from __future__ import annotations

import os
import re
import subprocess
import sys

INCLUDE = os.path.join(os.path.dirname(os.path.dirname(os.path.abspath(__file__))), "include")
OURS = ["-nostdinc", "-isystem", f"{INCLUDE}/c90", "-isystem", f"{INCLUDE}/posix", "-U__GNUC__"]
MACRO = re.compile(r"#define ([A-Za-z]\w*) ")
NUMBER = re.compile(r"[-+~|&<>*() 0-9a-fA-FxXuUlL]+")
PROTOTYPE = re.compile(r"^extern [^;]*?\b(\w+)\([^;]*\);", re.MULTILINE)
TYPE = re.compile(r"^(?:(struct \w+) \{|typedef [^;{]*?\b(\w+);|\} (\w+);)", re.MULTILINE)
# What docs/LANGUAGE.md says differs.
COMMON = (
    "stdarg.h stddef.h stdint.h stdlib.h stdio.h wchar.h locale.h time.h signal.h sys/time.h"
    " unistd.h sys/stat.h netinet/in.h"
).split()
# Ours have `long` for `long long`.
LONG_LONG = {"atoll", "llabs", "strtoll", "strtoull", "llrint", "llround"}
DIFFERENT = {"va_list", "__va_list", "NULL", "bool", "FILE", "DIR"}


def gcc(words: list[str], text: str) -> subprocess.CompletedProcess[str]:
    """Runs gcc on a text."""
    command = ["gcc", "-x", "c", "-w", *words, "-"]
    return subprocess.run(command, input=text, capture_output=True, text=True, check=False)


def our_numbers(header: str) -> dict[str, str]:
    """The macros of our header that are numbers."""
    include = f"#include <{header}>\n"
    names = MACRO.findall(gcc(["-E", "-dM", *OURS], include).stdout)
    names = [name for name in names if not name.startswith("_")]
    values = gcc(["-E", "-P", *OURS], include + "".join(f'"{name}" {name}\n' for name in names))
    found = re.findall(r'^"(\w+)" ([^\n]+)', values.stdout, re.MULTILINE)
    return {name: value for name, value in found if NUMBER.fullmatch(value)}


def our_sizes(header: str, text: str) -> dict[str, int]:
    """The sizes of the types of our header."""
    types = ["".join(groups) for groups in TYPE.findall(text)]
    asked = "".join(f"char size_{number}[sizeof({name})];\n" for number, name in enumerate(types))
    assembly = gcc(["-S", "-o", "-", *OURS], f"#include <{header}>\n{asked}").stdout
    sizes = re.findall(r"\.size\tsize_([0-9]+), ([0-9]+)", assembly)
    return {types[int(number)]: int(size) for number, size in sizes}


def check(header: str) -> str:
    """What gcc says against our header, beside glibc's."""
    text = gcc(["-E", "-P", *OURS], f"#include <{header}>\n").stdout
    # Ours may give types that glibc's own header doesn't.
    lines = [f"#include <{other}>" for other in (header, *COMMON)]
    lines.append("typedef va_list __va_list;")
    for match in PROTOTYPE.finditer(text):
        if match.group(1) not in LONG_LONG:
            lines.append(f"#undef {match.group(1)}\n{' '.join(match.group().split())}")
    for name, value in our_numbers(header).items():
        if name not in DIFFERENT:
            assertion = f'_Static_assert(({name}) == ({value}), "{name}");'
            lines.append(f"#ifdef {name}\n{assertion}\n#endif")
    for name, size in our_sizes(header, text).items():
        if name not in DIFFERENT:
            lines.append(f'_Static_assert(sizeof({name}) == {size}, "{name}");')
    names = ["-D_DEFAULT_SOURCE", "-D_XOPEN_SOURCE=700"]
    checked = gcc([*names, "-fsyntax-only"], "\n".join(lines) + "\n")
    return "\n".join(line for line in checked.stderr.splitlines() if "error" in line)


def main() -> int:
    """Compares the headers given, or all."""
    headers = sys.argv[1:] or sorted(
        os.path.relpath(os.path.join(folder, name), base)
        for base in (f"{INCLUDE}/c90", f"{INCLUDE}/posix")
        for folder, _, names in os.walk(base)
        for name in names
        if os.path.basename(folder) != "bits"
    )
    passed = failed = 0
    for header in headers:
        if gcc(["-E"], f"#include <{header}>\n").returncode != 0:
            continue
        said = check(header)
        passed += not said
        failed += bool(said)
        if said:
            print(f"FAILED {header}\n{said}")
    print(f"{passed} passed, {failed} failed")
    return 1 if failed else 0


if __name__ == "__main__":
    sys.exit(main())
