"""Units that the program accepts as they are stay byte for byte what they are, when `source` rewrites
them beside others that it refuses.

usage: python3 bench/unchanged.py [CPP-OPTION..] FILE..

A FILE is a unit of C, one that is preprocessed (.i), a table whose fields are texts (.tsv), or a
folder of such. Prints how many texts there are, how many are accepted, and which of these change.
"""

from __future__ import annotations

import os
import subprocess
import sys
import tempfile
from typing import Iterator

from survey import TOP, prepare_environment

sys.path.insert(0, os.path.join(TOP, "source"))

from c.attributes import clear_attributes  # noqa: E402
from driver.failure import Failure  # noqa: E402
from driver.preprocessor import Preprocessor  # noqa: E402
from rewriting.program import rewrite  # noqa: E402

ENDINGS = (".c", ".i", ".tsv")


def files_in(path: str) -> Iterator[str]:
    """A file, or the files of a folder and of those in it."""
    if not os.path.isdir(path):
        yield path
        return
    for folder, _, names in sorted(os.walk(path)):
        yield from (os.path.join(folder, name) for name in sorted(names) if name.endswith(ENDINGS))


def read(path: str) -> str:
    """A file; each byte is a character."""
    with open(path, encoding="latin-1", newline="") as file:
        return file.read()


def texts_of(path: str, options: list[str], room: str) -> Iterator[tuple[str, str]]:
    """The texts of a file, each with a name. One that isn't preprocessed is none."""
    if path.endswith(".tsv"):
        for number, row in enumerate(read(path).splitlines(), 1):
            for field, text in enumerate(row.split("\t"), 1):
                if ";" in text or "}" in text:
                    yield f"{path}:{number}:{field}", unescaped(text)
    elif path.endswith(".i"):
        yield path, read(path)
    else:
        place = os.path.join(room, "text")
        try:
            Preprocessor().write(path, options, place)
        except Failure:
            return
        yield path, clear_attributes(read(place), path).text


def unescaped(text: str) -> str:
    """The text of a field; one that isn't escaped stays."""
    try:
        return text.encode("latin-1").decode("unicode_escape")
    except UnicodeDecodeError:
        return text


def is_accepted(text: str, room: str) -> bool:
    """Whether the program accepts a text as a unit: a bad byte behind it is what is refused."""
    names = [os.path.join(room, name) for name in ("unit", "probe")]
    for name, content in zip(names, (text, "@")):
        with open(name, "w", encoding="latin-1", newline="") as file:
            file.write(content)
    words = [os.environ["SPARROW_PROGRAM"], "analyse", *names]
    answer = subprocess.run(words, capture_output=True, check=False).stdout
    return answer.startswith(os.fsencode(names[1]) + b":")


def main() -> int:
    """Looks at all files. Equal texts count once."""
    options = [word for word in sys.argv[1:] if word.startswith("-")]
    paths = [word for word in sys.argv[1:] if not word.startswith("-")]
    if not paths:
        print(__doc__, file=sys.stderr)
        return 3
    prepare_environment()
    seen: set[str] = set()
    accepted = changed = 0
    with tempfile.TemporaryDirectory() as room:
        for path in (file for given in paths for file in files_in(given)):
            for name, text in texts_of(path, options, room):
                is_new = text not in seen
                seen.add(text)
                if not is_new or not is_accepted(text, room):
                    continue
                accepted += 1
                if rewrite([(name, text)])[0].text != text:
                    changed += 1
                    print(f"changed: {name}")
    print(f"{len(seen)} texts, {accepted} accepted as they are, {changed} of these change")
    return int(changed > 0)


if __name__ == "__main__":
    sys.exit(main())
