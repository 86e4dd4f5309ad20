"""The rows of rows_domain on decision diagrams and on triples that are kept, with answers computed from the definitions
alone (tests/rows_domain.py)."""
import itertools

NUMBERS = 2**20
MOST = 2**26


def diagram(rows):
    """The nodes of the reduced ordered diagram of a set of rows of 60 bits: for each bit the pairs of sets of lower bits
    that stand behind one beginning of rows, without the bit and with it, where they differ."""
    nodes = set()
    for bit in range(60):
        behind = {}
        for row in rows:
            behind.setdefault(row >> (bit + 1), (set(), set()))[row >> bit & 1].add(row % 2**bit)
        nodes |= {(bit, frozenset(low), frozenset(high)) for low, high in behind.values() if low != high}
    return nodes


def nodes_of(rows):
    return len(diagram(rows))


def diagrams(limit, left, right, first, last):
    """The row that makes the sets of two rows, their union and their meet in one manager, and its answer."""
    row = f"diagrams {limit} {left} {right} {first} {last}"
    held, counts = set(), []
    for made in ({left}, {right}, {left, right}, {left} & {right}):
        held |= diagram(made)
        counts.append(len(held))
    if counts[-1] > limit:
        return row, "full"
    shown = [[str(asked in made).lower() for asked in (left, right)] + [str(r) for r in sorted(made) if first <= r <= last]
             for made in ({left, right}, {left} & {right}, {left})]
    numbers = f"{counts[0]} {counts[1]} {counts[3]} {str(left == right).lower()}"
    return row, "; ".join([numbers, *map(" ".join, shown)])


def diagram_rows():
    top = 2**60 - 1
    for left, right in [(5, 9), (9, 5), (5, 5), (0, 1), (0, top), (2**59, 2**59 - 1), (6, 7)]:
        needed = len(diagram({left}) | diagram({right}) | diagram({left, right}))
        for limit in sorted({0, 59, 60, needed - 1, needed, 200}):
            yield diagrams(limit, left, right, 0, top)
        yield diagrams(MOST, left, right, 6, 9)
        yield diagrams(MOST, left, right, 9, 6)


def code(triple):
    return triple[0] * 2**40 + triple[1] * 2**20 + triple[2]


def box(block):
    return itertools.product(*(range(first, last + 1) for first, last in block))


def form(nodes, locations, limit, triples):
    """How triples are kept: a diagram is tried where the first sixteenth of them needs no more than a sixteenth of the
    limit and 60 nodes, and kept where all of them need no more than the limit."""
    if nodes > NUMBERS or locations > NUMBERS:
        return "list"
    codes = sorted(code(triple) for triple in triples)
    if nodes_of(codes[:len(codes) // 16]) > limit // 16 + 60:
        return "list"
    needed = nodes_of(codes)
    return f"diagram {needed}" if needed <= limit else "list"


def show_block(block):
    return ":".join(str(first) if first == last else f"{first}-{last}" for first, last in block)


def show_triples(triples):
    return "".join(f" {from_}:{location}:{to}" for from_, location, to in triples)


def keeping(nodes, locations, limit, blocks, asked):
    """The row that keeps the triples of blocks and asks for those of others, and its answer."""
    triples = {triple for block in blocks for triple in box(block)}
    held = [triple for block in asked for triple in box(block) if triple in triples]
    after = [triple for (first, last), *_ in asked for triple in sorted(triples) if first <= triple[0] <= last]
    row = " ".join(["keeping", str(nodes), str(locations), f"{limit};", *map(show_block, blocks)])
    row += "; " + " ".join(map(show_block, asked))
    return row, f"{form(nodes, locations, limit, triples)}; holds{show_triples(held)}; after{show_triples(after)}"


def at(*triple):
    return tuple((number, number) for number in triple)


def whole(nodes, locations):
    """All triples, and those just past the counts."""
    return [((0, nodes), (0, locations), (0, nodes))]


def scattered(count, nodes, locations, seed):
    """Triples without a pattern, each as a block of its own."""
    found, state = set(), seed
    while len(found) < count:
        numbers = []
        for bound in (nodes, locations, nodes):
            state = (state * 6364136223846793005 + 1442695040888963407) % 2**64
            numbers.append((state >> 33) % bound)
        found.add(tuple(numbers))
    return [at(*triple) for triple in sorted(found)]


def limits(triples):
    """None, one node too few, exactly enough, and the most."""
    needed = nodes_of([code(triple) for triple in triples])
    return sorted({0, max(needed - 1, 0), needed, MOST})


def shapes():
    """Nodes, locations and blocks of triples."""
    yield 0, 0, []
    yield 3, 2, []
    yield 3, 2, [at(1, 1, 2)]
    yield 3, 2, [((0, 2), (0, 1), (0, 2))]
    yield 8, 2, [((0, 7), (0, 1), (0, 7))]
    yield 12, 6, [((0, 4), (0, 5), (6, 11))]
    yield 12, 6, [((0, 9), (1, 2), (3, 9)), ((0, 9), (4, 5), (3, 9))]
    yield 40, 12, scattered(30, 40, 12, 1)


def small_sets():
    """Every set of triples of two nodes and two locations, with a limit of one node too few and with enough."""
    triples = list(itertools.product(range(2), repeat=3))
    for number in range(256):
        chosen = [triple for place, triple in enumerate(triples) if number >> place & 1]
        needed = nodes_of([code(triple) for triple in chosen])
        for limit in sorted({max(needed - 1, 0), needed}):
            yield keeping(2, 2, limit, [at(*triple) for triple in chosen], whole(2, 2))


def front_rows():
    """A set whose first sixteenth needs most of the nodes: a diagram is tried only from a limit on that is far higher
    than what all of it needs."""
    front = scattered(24, 4, 12, 3)
    blocks = front + [((4, 25), (0, 5), (20, 25))]
    codes = sorted(code(triple) for block in blocks for triple in box(block))
    needed = nodes_of(codes)
    tried = 16 * (nodes_of(codes[:len(codes) // 16]) - 60)
    assert needed < tried < 16 * needed, (needed, tried)
    for limit in (needed, tried - 1, tried, 16 * needed):
        yield keeping(26, 12, limit, blocks, [((3, 5), (0, 12), (18, 26)), at(25, 5, 25), at(26, 0, 20)])


def greatest_rows():
    """The greatest numbers that a diagram takes, and those past them. Numbers past 2^20 may not be taken for others."""
    last = NUMBERS - 1
    corner = [((last - 1, last + 1), (last - 1, last + 1), (last - 1, last + 1))]
    for limit in (59, 60, MOST):
        yield keeping(NUMBERS, NUMBERS, limit, [at(last, last, last)], corner)
    ends = [at(0, 0, 0), at(0, last, last), at(last, 0, last), at(last, last, 0)]
    yield keeping(NUMBERS, NUMBERS, MOST, ends, [*ends, *corner])
    shifted = [at(5, 3, 7), at(5, 2, 7 + NUMBERS), at(4, 3 + NUMBERS, 7), at(5, 3 + NUMBERS, 7), at(5, 3, 7 + NUMBERS)]
    for locations in (NUMBERS, NUMBERS + 1, 2**32 - 1):
        yield keeping(9, locations, MOST, shifted[:1], shifted)
    yield keeping(NUMBERS + 1, 4, MOST, [at(5, 3, 7)], shifted)
    yield keeping(NUMBERS + 1, 4, MOST, [at(NUMBERS, 3, NUMBERS)], [((last, NUMBERS + 1), (3, 3), (last, NUMBERS + 1))])
    yield keeping(9, 2**32 - 1, MOST, [at(5, 2**32 - 2, 7)], [((5, 5), (2**32 - 3, 2**32 - 1), (7, 7))])


def keeping_rows():
    yield "# decision diagrams", None
    yield from diagram_rows()
    yield "# triples, kept as a list and as a diagram", None
    for nodes, locations, blocks in shapes():
        triples = {triple for block in blocks for triple in box(block)}
        for limit in limits(triples):
            yield keeping(nodes, locations, limit, blocks, whole(nodes, locations))
    yield "# where a diagram is tried", None
    yield from front_rows()
    yield "# the greatest numbers", None
    yield from greatest_rows()
    yield "# every set of triples of two nodes and two locations", None
    yield from small_sets()
