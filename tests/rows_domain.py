#!/usr/bin/env python3
"""Writes the rows of crates/rows_domain with their answers, computed here from the definitions alone.

usage: tests/rows_domain.py          writes crates/rows_domain/stdin and stdout
       tests/rows_domain.py --check  says whether they are as it would write them

Intervals are gone through member by member, octagons point by point: nothing here knows the formulas of the
crates. tests/rows/interval.tsv has cases with wider numbers, of the same form: call, operands, range, answer.
The rows under "worked" have answers that were found by hand. Triples are kept as a list or as a diagram: the nodes
of a diagram are counted as the parts of the set that differ.
"""
import itertools
import os
import sys

from rows_keepings import keeping_rows

TOP = os.path.dirname(os.path.dirname(os.path.abspath(__file__)))
CASES = f"{TOP}/tests/rows/interval.tsv"
ROWS = f"{TOP}/crates/rows_domain"

LOWEST, HIGHEST = -(2**63), 2**64 - 1
CALLS = ["add", "sub", "mul", "div", "rem", "shl", "shr", "and", "or", "xor"]
RELATIONS = ["<", "<=", ">", ">=", "==", "!="]
TYPES = [("[-128,127]", 8), ("[0,255]", 8)]
SMALL = [(lo, hi) for lo in range(-4, 5) for hi in range(lo, 5)]


# ---- intervals: None is the empty one

def show(interval):
    return "empty" if interval is None else f"[{interval[0]},{interval[1]}]"


def read(text):
    return None if text == "empty" else tuple(int(n) for n in text[1:-1].split(","))


def members(interval):
    return range(0) if interval is None else range(interval[0], interval[1] + 1)


def hull(numbers):
    numbers = list(numbers)
    return (min(numbers), max(numbers)) if numbers else None


def after_range(interval, range_, width):
    """C90's rule: a result within the type stays, an unsigned one is reduced modulo 2^width where one interval can
    show it, every other result is the whole range."""
    if interval is None:
        return None
    numbers = members(interval) if interval[1] - interval[0] < 1 << 16 else interval
    if all(range_[0] <= n <= range_[1] for n in numbers):
        return interval
    turns = {n // 2**width for n in numbers}
    if range_[0] == 0 and len(turns) == 1:
        return hull(n - turns.copy().pop() * 2**width for n in numbers)
    return range_


def truncated(x, y):
    size = abs(x) // abs(y)
    return size if (x < 0) == (y < 0) else -size


def exact(call, x, y):
    """The exact result of two numbers, or None."""
    if call in ("div", "rem"):
        if y == 0:
            return None
        return truncated(x, y) if call == "div" else x - truncated(x, y) * y
    return {
        "add": lambda: x + y, "sub": lambda: x - y, "mul": lambda: x * y,
        "shl": lambda: x * 2**y, "shr": lambda: x // 2**y,
        "and": lambda: x & y, "or": lambda: x | y, "xor": lambda: x ^ y,
    }[call]()


def remainder(left, right):
    """Empty where 0 is the one divisor; the dividends where each is smaller than each divisor; else what lies between 0
    and a dividend and is smaller than the greatest divisor."""
    greatest = max(abs(y) for y in members(right))
    if greatest == 0:
        return None
    if all(abs(x) < abs(y) for x in members(left) for y in members(right)):
        return left
    return hull([0] + [max(-(greatest - 1), min(greatest - 1, x)) for x in left if x != 0])


def bits(left, call, right, range_):
    """The formulas for `&`, `|` and `^`."""
    natural = left[0] >= 0 and right[0] >= 0
    ones = 0
    while natural and (ones < left[1] or ones < right[1]):
        ones = 2 * ones + 1
    if call == "and":
        tops = [side[1] for side in (left, right) if side[0] >= 0]
        return (0, min(tops)) if tops else range_
    if not natural:
        return range_
    return (max(left[0], right[0]) if call == "or" else 0, ones)


def binary(call, left, right, range_, width):
    if left is None or right is None:
        return None
    if call in ("shl", "shr") and not (0 <= right[0] and right[1] < width):
        return range_
    if call == "rem":
        return after_range(remainder(left, right), range_, width)
    if call in ("and", "or", "xor"):
        return after_range(bits(left, call, right, range_), range_, width)
    results = (exact(call, x, y) for x in members(left) for y in members(right))
    return after_range(hull(v for v in results if v is not None), range_, width)


def related(x, relation, y):
    return {"<": x < y, "<=": x <= y, ">": x > y, ">=": x >= y, "==": x == y, "!=": x != y}[relation]


def pair(call, left, right, operator="", width=0):
    """The answer to a call of two intervals, as a field."""
    if call == "meet":
        return show(hull(set(members(left)) & set(members(right))))
    if call == "refine":
        return show(hull(x for x in members(left) if any(related(x, operator, y) for y in members(right))))
    if call == "leq":
        return "true" if set(members(left)) <= set(members(right)) else "false"
    if call == "join":
        joined = hull([*members(left), *members(right)])
        return f"{show(joined)}:{'false' if joined == left else 'true'}"
    return show(binary(call, left, right, read(operator), width))


# ---- the ladder

BASE = [LOWEST, -(2**31) - 1, -(2**31), -32769, -32768, -129, -128, -1, 0, 1, 127, 128, 255, 256, 32767, 32768, 65535, 65536,
        2**31 - 1, 2**31, 2**32 - 1, 2**32, 2**63 - 1, 2**63, HIGHEST]


def points(constants):
    taken = sorted(set(constants), key=lambda k: (abs(k), k < 0))[:256]
    added = {k + by for k in taken for by in (-1, 0, 1)}
    return sorted(set(BASE) | {p for p in added if LOWEST <= p <= HIGHEST})


def constants_field(constants):
    return ",".join(str(k) for k in constants) or "-"


# ---- octagons of two members, in the plainest form: a bound for each row and column

MISSING = None
PLACES = [(0, 1), (1, 0), (2, 3), (3, 2), (0, 2), (0, 3), (1, 2), (1, 3)]


def numbered(number):
    """The octagon of this number: its digits to the base 6 tell the entries, 5 is none."""
    entries = {(row, row): 0 for row in range(4)}
    for row, column in PLACES:
        digit = number % 6
        number //= 6
        if digit < 5:
            entries[row, column] = entries[column ^ 1, row ^ 1] = digit - 2
    return entries


def points_held(entries):
    """Whether some point of halves meets each bound. Where one does, one does near 0: no least walk is below -6."""
    for x, y in itertools.product(range(-6, 7), repeat=2):
        stands = (x, -x, y, -y)
        if all(stands[c] - stands[r] <= 2 * bound for (r, c), bound in entries.items()):
            return True
    return False


def closed(entries):
    """Each entry by the definition: least walks of up to three steps, then half the sum of two unary ones."""
    def plus(*bounds):
        return MISSING if MISSING in bounds else sum(bounds)

    def least(bounds):
        return min((b for b in bounds if b is not MISSING), default=MISSING)

    walks = {}
    for row, column in itertools.product(range(4), repeat=2):
        inner = [p for n in range(3) for p in itertools.permutations(set(range(4)) - {row, column}, n)]
        ways = [[row, *p, column] for p in inner] + ([[row]] if row == column else [])
        walks[row, column] = least(plus(*(entries.get(step) for step in zip(way, way[1:]))) for way in ways)

    def halves(first, second):
        both = plus(first, second)
        return MISSING if both is MISSING else both // 2

    return {(r, c): least([walks[r, c], halves(walks[r, r ^ 1], walks[c ^ 1, c])]) for r, c in walks}


def closures(first, step, count):
    held, digest = 0, 0
    for turn in range(count):
        entries = numbered(first + step * turn)
        if points_held(entries):
            held += 1
            result = closed(entries)
            for row, column in itertools.product(range(4), repeat=2):
                bound = result[row, column]
                number = 1000003 if bound is MISSING else bound % 1000003
                digest = (digest * 1000033 + number) % 1000000007
    return f"{held} {digest}"


# ---- the rows

INT = "[-2147483648,2147483647] 32"
UNSIGNED = "[0,4294967295] 32"
LONG = "[0,18446744073709551615] 64"
TOP_NUMBER = HIGHEST

WORKED = [
    ("# worked: intervals", None),
    (f"rem [5,9] [4,4] {INT}", "[0,3]"),
    (f"rem [-7,2] [3,3] {INT}", "[-2,2]"),
    (f"rem [1,2] [5,9] {INT}", "[1,2]"),
    (f"rem [4,4] [0,0] {INT}", "empty"),
    (f"div [7,7] [-2,3] {INT}", "[-7,7]"),
    (f"shl [1,3] [0,4] {INT}", "[1,48]"),
    (f"shl [1,3] [0,32] {INT}", "[-2147483648,2147483647]"),
    (f"shr [-5,-5] [1,1] {INT}", "[-3,-3]"),
    (f"or [1,4] [2,3] {INT}", "[2,7]"),
    (f"xor [1,4] [2,3] {INT}", "[0,7]"),
    (f"and [1,4] [2,3] {INT}", "[0,3]"),
    ("convert [-1,5] [-128,127] 8", "[-1,5]"),
    ("convert [-1,5] [0,255] 8", "[0,255]"),
    ("convert [200,300] [0,255] 8", "[0,255]"),
    ("convert empty [0,255] 8", "empty"),
    ("snap [0,9] 10", "[0,9]"),
    ("snap [2,12] 10", "[1,127]"),
    ("snap [-5,10] 10", "[-128,10]"),
    ("snap [12,12] 10", "[11,127]"),
    (f"snap [{LOWEST + 1},{HIGHEST - 1}] 10", f"[{LOWEST},{HIGHEST}]"),
    ("snap empty 10", "empty"),
    ("between 2 3", "[2,3]"),
    ("between 3 2", "empty"),
    ("bottom", "empty"),
    ("# worked: results of unsigned types, modulo the width", None),
    (f"sub [0,0] [1,1] {UNSIGNED}", "[4294967295,4294967295]"),
    ("convert [256,256] [0,255] 8", "[0,0]"),
    ("convert [600,610] [0,255] 8", "[88,98]"),
    ("convert [-1,-1] [0,255] 8", "[255,255]"),
    ("convert [-256,-1] [0,255] 8", "[0,255]"),
    ("convert [-257,-1] [0,255] 8", "[0,255]"),
    ("convert [-300,-260] [0,255] 8", "[212,252]"),
    ("convert [128,130] [-128,127] 8", "[-128,127]"),
    ("convert [256,256] [-128,127] 8", "[-128,127]"),
    (f"convert [{LOWEST},{LOWEST}] {LONG}", f"[{2**63},{2**63}]"),
    (f"mul [{TOP_NUMBER},{TOP_NUMBER}] [{TOP_NUMBER},{TOP_NUMBER}] {LONG}", "[1,1]"),
    (f"mul [{TOP_NUMBER - 1},{TOP_NUMBER}] [{TOP_NUMBER},{TOP_NUMBER}] {LONG}", f"[0,{TOP_NUMBER}]"),
    (f"mul [{TOP_NUMBER - 2},{TOP_NUMBER - 2}] [2,2] {LONG}", f"[{TOP_NUMBER - 5},{TOP_NUMBER - 5}]"),
    (f"mul [{LOWEST},{LOWEST}] [{TOP_NUMBER},{TOP_NUMBER}] {LONG}", f"[{2**63},{2**63}]"),
    (f"mul [{LOWEST},{LOWEST}] [{LOWEST},{LOWEST}] {LONG}", "[0,0]"),
    (f"mul [{2**63},{2**63}] [{2**63},{2**63}] {INT}", "[-2147483648,2147483647]"),
    (f"mul [65536,65536] [65536,65537] {UNSIGNED}", "[0,65536]"),
    (f"shl [4294967295,4294967295] [1,1] {UNSIGNED}", "[4294967294,4294967294]"),
    (f"shl [{TOP_NUMBER},{TOP_NUMBER}] [63,63] {LONG}", f"[{2**63},{2**63}]"),
    ("# worked: the ladder", None),
    ("ladder - down 5", "1"),
    ("ladder - up 5", "127"),
    ("ladder 5 down -5", "-128"),
    ("ladder 5 up -5", "-1"),
    ("ladder 5 down 5", "5"),
    ("ladder 10,0 down 9", "9"),
    ("ladder 10,0 up 9", "9"),
    ("ladder 10,0 down 12", "11"),
    ("ladder 10,0 up 12", "127"),
    ("ladder -7,10,3 down -9", "-128"),
    ("ladder -7,10,3 up -9", "-8"),
    ("ladder -7,10,3 down -6", "-6"),
    ("ladder 70000 down 69998", "65536"),
    ("ladder 70000 up 69998", "69999"),
    (f"ladder {2**64} down {2**64 - 2}", f"{2**63}"),
    (f"ladder {2**64} up {2**64 - 2}", f"{2**64 - 1}"),
    (f"ladder {2**64 - 1} down {2**64 - 2}", f"{2**64 - 2}"),
    (f"ladder {-2**63 - 1} down {1 - 2**63}", f"{-2**63}"),
    (f"ladder {-2**63 - 1} up {1 - 2**63}", "-2147483649"),
    (f"ladder {2**127 - 1},{-2**127},{-2**63} down {1 - 2**63}", f"{1 - 2**63}"),
    (f"ladder {2**127 - 1},{-2**127},{-2**63} up {1 - 2**63}", f"{1 - 2**63}"),
    ("# worked: octagons", None),
    ("octagon 2; bounds 0 [0,10]; shift 1 0 3; close; project 1; size", "true [3,13] 2"),
    ("octagon 2; bounds 0 [5,5]; bounds 1 [0,4]; constrain 0 < 1; close", "false"),
    ("octagon 3; bounds 0 [0,9]; bounds 2 [4,4]; constrain 0 < 2; close; project 0", "true [0,3]"),
    ("octagon 3; bounds 0 [0,9]; bounds 2 [4,4]; constrain 0 <= 2; close; project 0", "true [0,4]"),
    ("octagon 3; bounds 0 [0,9]; bounds 2 [4,4]; constrain 0 > 2; close; project 0", "true [5,9]"),
    ("octagon 3; bounds 0 [0,9]; bounds 2 [4,4]; constrain 0 >= 2; close; project 0", "true [4,9]"),
    ("octagon 3; bounds 0 [0,9]; bounds 2 [4,4]; constrain 0 == 2; close; project 0", "true [4,4]"),
    ("octagon 3; bounds 0 [0,9]; bounds 2 [4,4]; constrain 0 != 2; close; project 0", "true [0,9]"),
    (f"octagon 2; bounds 0 [-1,2]; set 2 0 7; shift 0 0 5; project 0; entry 2 0; entry 1 3; forget 0; entry 2 0; project 0",
     f"[4,7] 12 12 none [{LOWEST},{HIGHEST}]"),
    (f"octagon 2; set 2 0 {-2**100}; set 0 2 {2**100}; shift 0 0 -1; entry 2 0; entry 0 2", f"{-2**100} none"),
    (f"octagon 2; set 2 0 7; set 1 0 9; set 0 1 -15; set 0 2 {2**65}; snap 5; entry 2 0; entry 1 0; entry 0 1; entry 0 2; entry 0 3",
     "127 8 -2 none none"),
    ("octagon 2; bounds 0 [0,1]; swap; bounds 0 [5,6]; swap; leq; join; project 0; swap; leq; join", "false true [0,6] true true"),
    ("octagon 2; bounds 0 [0,1]; copy; bounds 0 [0,0]; leq; swap; leq; join; project 0", "true false false [0,1]"),
    ("octagon 2; constrain 0 <= 1; entry 2 0; entry 1 3", "0 0"),
    ("octagon 2; constrain 0 < 1; entry 2 0; entry 1 3", "-1 -1"),
    ("octagon 2; constrain 0 == 1; entry 2 0; entry 1 3; entry 0 2; entry 3 1", "0 0 0 0"),
    ("octagon 2; set 0 1 -3; snap -2; entry 0 1", "-4"),
    ("octagon 8; set 14 1 -3; close; entry 0 15; entry 14 1; project 7", f"true -3 -3 [{LOWEST},{HIGHEST}]"),
    ("octagon 2; set 2 0 7; set 1 0 9; keep; entry 2 0; entry 1 3; entry 1 0; entry 0 1; size", "12 7 7 9 none 2"),
    ("octagon 3; bounds 2 [-4,9]; constrain 1 < 2; copy; keep; leq; swap; leq; project 2", "24 true true [-4,9]"),
    ("octagon 8; set 14 1 -3; set 3 9 5; keep; entry 0 15; entry 14 1; entry 3 9; entry 8 2; entry 9 3", "144 -3 -3 5 5 none"),
    # twice the first member is 5: a point of halves
    ("octagon 2; set 1 0 5; set 0 1 -5; close", "true"),
    ("octagon 2; set 1 0 5; set 0 1 -6; close", "false"),
    # half the sum of 3 and 4, rounded down
    ("octagon 2; set 1 0 4; set 3 2 3; close; entry 3 0; entry 3 2", "true 3 3"),
    ("# worked: decision diagrams", None),
    ("diagrams 59 5 5 0 9", "full"),
    ("diagrams 60 5 5 0 9", "60 60 60 true; true true 5; true true 5; true true 5"),
    ("diagrams 60 0 1 0 1", "full"),
    # each row has 60 nodes, and those of bit 0 alone are no one's parts; of the union bit 0 isn't tested
    ("diagrams 179 0 1 0 1", "60 120 179 false; true true 0 1; false false; true false 0"),
    ("diagrams 178 0 1 0 1", "full"),
    ("# worked: triples that are kept", None),
    ("keeping 3 2 60; 1:1:2; 0-3:0-2:0-3", "diagram 60; holds 1:1:2; after 1:1:2"),
    ("keeping 3 2 59; 1:1:2; 0-3:0-2:0-3", "list; holds 1:1:2; after 1:1:2"),
    # both targets: the last bit isn't tested
    ("keeping 3 2 59; 1:1:0-1; 0-3:0-2:0-3", "diagram 59; holds 1:1:0 1:1:1; after 1:1:0 1:1:1"),
    ("keeping 3 2 0; ; 0-3:0-2:0-3", "diagram 0; holds; after"),
    ("# not rows", None),
    ("octagon 9; close", "not a row"),
    ("octagon 2; forget 2", "not a row"),
    ("octagon 2; constrain 1 < 1", "not a row"),
    ("add [3,2] [1,1] [0,255] 8", "not a row"),
    ("add [0,1] [0,1] [0,255] 7", "not a row"),
    (f"diagrams 200 5 {2**60} 0 9", "not a row"),
    (f"diagrams 200 5 9 0 {2**60}", "not a row"),
    ("keeping 3 2 60; 1:2:2; 0:0:0", "not a row"),
    ("keeping 3 2 60; 1:1:3; 0:0:0", "not a row"),
    ("keeping 3 2 60; 1:1:2 1:1:2; 0:0:0", "not a row"),
    ("keeping 3 2 60; 1:1:2 1:1:1; 0:0:0", "not a row"),
    ("keeping 3 2 60; 1:1:2 1:0:2; 0:0:0", "not a row"),
    ("keeping 3 2 60; 1:1; 0:0:0", "not a row"),
]


def rows():
    yield from WORKED
    many = [k for step in range(129) for k in (-1000 * step, 1000 * step)]
    yield "# the ladder", None
    for constants in [[], [10], [2, 3], [-7, 10, 3], [2**64, -(2**63) - 1], many]:
        found = points(constants)
        yield f"ladder {constants_field(constants)} points", ",".join(str(p) for p in found)
        for v in [*range(-12, 13), 126, 129, 999, 128000, -128000, LOWEST, HIGHEST]:
            yield f"ladder {constants_field(constants)} down {v}", str(max(p for p in found if p <= v))
            yield f"ladder {constants_field(constants)} up {v}", str(min(p for p in found if p >= v))
    yield "# cases of wider numbers", None
    for line in open(CASES):
        call, left, right, kind, answer = line.rstrip("\n").split("\t")
        yield "\t".join([call, left, right, kind]), answer
    yield "# every interval of small numbers", None
    for left in [None, *SMALL]:
        for call in ["meet", "leq", "join"]:
            yield f"each {call} {show(left)}", " ".join(pair(call, left, right) for right in [None, *SMALL])
        for relation in RELATIONS:
            yield f"each refine {show(left)} {relation}", " ".join(pair("refine", left, right, relation) for right in [None, *SMALL])
        for call in CALLS:
            for range_, width in TYPES:
                yield f"each {call} {show(left)} {range_} {width}", " ".join(pair(call, left, right, range_, width) for right in [None, *SMALL])
    yield "# small intervals at each end of the types of 8 bits", None
    for lo, hi in SMALL:
        for end in [-512, -128, 0, 127, 255, 768]:
            for range_, width in TYPES:
                interval = (lo + end, hi + end)
                yield f"convert {show(interval)} {range_} {width}", show(after_range(interval, read(range_), width))
    found = points([2, 3])
    for lo, hi in SMALL:
        answer = (max(p for p in found if p <= lo), min(p for p in found if p >= hi))
        yield f"snap {show((lo, hi))} 2,3", show(answer)
    yield "# every 101st of the octagons of two members whose bounds lie from -2 to 2", None
    for start in range(0, 16630, 1000):
        count = min(1000, 16630 - start)
        yield f"closures {101 * start} 101 {count}", closures(101 * start, 101, count)
    yield from keeping_rows()


def main():
    made = list(rows())
    texts = {
        "stdin": "".join(row + "\n" for row, _ in made),
        "stdout": "".join(answer + "\n" for _, answer in made if answer is not None),
    }
    for name, text in texts.items():
        path = f"{ROWS}/{name}"
        if "--check" in sys.argv:
            if open(path).read() != text:
                sys.exit(f"{path} isn't as the definitions say")
        else:
            open(path, "w").write(text)


main()
