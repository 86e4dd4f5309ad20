"""What a call of ./sparrow source costs beside the preprocessor and the program, all in one run.

usage: python3 bench/call.py [ROUNDS]. Each is the least time of processors, since other work takes
some of the others. The last rows are what a call takes over the preprocessor and the program: the
package alone, and ./sparrow, which looks whether a source has changed since the program was built.
With a warning the parts are loaded that tell where it stands.
"""

from __future__ import annotations

import os
import resource
import subprocess
import sys
import tempfile

from survey import TOP, prepare_environment

sys.path.insert(0, os.path.join(TOP, "source"))

from driver.preprocessor import Preprocessor  # noqa: E402

ROUNDS = 30
CLEAN = "int main(void) { int a[2]; a[1] = 0; return a[1]; }\n"
WRONG = "int main(void) { int a[2]; a[2] = 0; return a[1]; }\n"


def seconds(words: list[str]) -> float:
    """What a program takes."""
    before = resource.getrusage(resource.RUSAGE_CHILDREN)
    subprocess.run(words, stdout=subprocess.DEVNULL, stderr=subprocess.DEVNULL, check=False)
    after = resource.getrusage(resource.RUSAGE_CHILDREN)
    return after.ru_utime + after.ru_stime - before.ru_utime - before.ru_stime


def main() -> int:
    """Prints a row for each, with its time against the preprocessor's."""
    prepare_environment()
    rounds = int(sys.argv[1]) if len(sys.argv) > 1 else ROUNDS
    with tempfile.TemporaryDirectory() as room:
        path, wrong = os.path.join(room, "a.c"), os.path.join(room, "wrong.c")
        for name, text in ((path, CLEAN), (wrong, WRONG)):
            with open(name, "w", encoding="ascii") as file:
                file.write(text)
        package = os.path.join(TOP, "source", "__main__.py")
        calls = {
            "gcc -E": [*Preprocessor().words, "-o", os.devnull, path],
            "program": [os.environ["SPARROW_PROGRAM"], "analyse", path],
            "start with packages": ["python3", "-I", "-c", "pass"],
            "start of Python": ["python3", "-I", "-S", "-c", "pass"],
            "source": ["python3", "-I", "-S", package, path],
            "with a warning": ["python3", "-I", "-S", package, wrong],
            "./sparrow source": [os.path.join(TOP, "sparrow"), "source", path],
        }
        least = dict.fromkeys(calls, float("inf"))
        for _ in range(rounds):
            for name, words in calls.items():
                least[name] = min(least[name], seconds(words))
    base = least["gcc -E"]
    for name in ("source", "./sparrow source"):
        least[f"{name}, over both"] = least[name] - base - least["program"]
    print(f"{'':28} {'ms':>6} {'gcc -E':>7}")
    for name, value in least.items():
        print(f"{name:28} {1000 * value:6.1f} {value / base:7.2f}")
    return 0


if __name__ == "__main__":
    sys.exit(main())
