"""How often nodes are evaluated by each order of service, as a table: bench/order.sh runs it.

usage: python3 bench/order.py PROGRAM [FOLDER..], with folders of prepared texts, as `source --keep FOLDER` writes them.
"""
import os
import subprocess
import sys

from analysis import allocations, deep, modules, targets

ORDERS = ("waiting", "last", "least number", "sweeps, numbers", "sweeps")
SHAPES = ((modules, 80), (modules, 400), (deep, 80), (deep, 400), (allocations, 10), (targets, 100))
ESCAPES = {"\\": "\\\\", "\n": "\\n", "\t": "\\t", "\r": "\\r"}


def escaped(text):
    return "".join(ESCAPES.get(c, c if " " <= c <= "~" else f"\\x{ord(c):02x}") for c in text)


def texts_of(folder):
    """The prepared texts of a folder."""
    for name in sorted(os.listdir(folder)):
        if name.endswith(".i"):
            with open(os.path.join(folder, name), encoding="latin-1", newline="") as file:
                yield file.read()


def programs():
    """The name of each program, and its texts."""
    for shape, functions in SHAPES:
        yield f"{shape.__name__} {functions}", [shape(functions)]
    for folder in sys.argv[2:]:
        yield os.path.basename(os.path.normpath(folder)), list(texts_of(folder))


def main():
    if len(sys.argv) < 2:
        sys.exit(__doc__)
    head = " ".join(f"{order:>16} {'s':>7}" for order in ORDERS)
    print(f"{'program':<16} {'nodes':>7} {'triples':>8} {head}")
    for name, texts in programs():
        row = "\t".join(map(escaped, texts)) + "\n"
        done = subprocess.run([sys.argv[1]], input=row, stdout=subprocess.PIPE, encoding="ascii", check=False)
        figures = done.stdout.split()
        if len(figures) != 2 + 2 * len(ORDERS):
            print(f"{name:<16} {done.stdout.strip() or done.returncode}", flush=True)
            continue
        numbers = [int(figure) for figure in figures]
        pairs = zip(numbers[2::2], numbers[3::2])
        cells = " ".join(f"{count:>16} {micros / 1e6:>7.2f}" for count, micros in pairs)
        print(f"{name:<16} {numbers[0]:>7} {numbers[1]:>8} {cells}", flush=True)


if __name__ == "__main__":
    main()
