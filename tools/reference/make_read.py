"""Prints an input of the program `calls` that tries reading: python3 make_read.py [SEED]

Every case of make_write.py's vectors is read back, whole and altered; then come the edges of numbers, depth and length.
A group is (table, pool, [(start, cells)]).
"""

from random import Random

import make_write
from answer import MOST_ROOM, MOST_ROW_WORDS
from cells import WRAPPING_WORDS, altered, off_by_one, with_cell, zeros
from grammars import LAST_WORD, LISTS, LISTS_START, accepted, words_of
from kinds import BELOW, CONS, DEP, EXCEPT, NATS, OR, POOL, SHIFT
from reference import DONE, MOST_CELLS, NUMBERS_END, Refused, case_cells, is_finite, survey, write
from shapes import PRINTED, RULES, chain, chains, last_node, of_length, recursions, shifted, under_excepts
from vectors import Vectors, print_made

DEFAULT_SEED = 5
SHORT = 120  # cells; longer cases are read back but not altered
FIRST_CELLS = 12  # of a case, each of them altered
ALTERED_PER_CASE = 3
ALTERED_SHARE = 0.35
NEAR_LIMIT_TABLES = 120


# ---- the cases of the write vectors ----


def written(table, pool, calls):
    """The cases that the write calls give, each once, as (start, cells)."""
    met = set()
    for start, room, number in calls:
        refusal, _, cells = write(table, pool, start, number, room)
        if refusal == DONE and (start, number) not in met:
            met.add((start, number))
            yield start, cells


def read_back_groups(random):
    for table, pool, calls in make_write.groups(Random(make_write.DEFAULT_SEED)):
        cases = list(written(table, pool, calls))
        reads = list(cases)
        for start, cells in cases:
            if len(cells) <= SHORT and random.random() < ALTERED_SHARE:
                reads += [(start, altered(random, cells)) for _ in range(ALTERED_PER_CASE)]
                other = random.randrange(last_node(table) + 1)
                reads.append((other, cells))
        if not cases:
            reads = [(start, [0, 0]) for start, _, _ in calls[:2]]  # a refused table, or a start that isn't there
        yield table, pool, reads


def every_cell_groups():
    """Each cell of some short cases altered by one, cut, and lengthened."""
    for table, pool, start in (*PRINTED, *RULES):
        reads = []
        for _, cells in written(table, pool, [(start, SHORT, number) for number in (4, 43)]):
            reads += [(start, cells[:length]) for length in range(min(len(cells), FIRST_CELLS))]
            reads += [(start, [*cells, more]) for more in (0, 1)]
            reads += [(start, near) for near in off_by_one(cells, FIRST_CELLS)]
        yield table, pool, reads


def wrapping_groups():
    """Cells replaced by words whose squares and sums pass a word: 16 is due, never a small number."""
    for table, pool, start in (*PRINTED, *RULES):
        reads = []
        for _, cells in written(table, pool, [(start, SHORT, number) for number in (1, 43)]):
            for place in range(min(len(cells), 4)):
                reads += [(start, with_cell(cells, place, word)) for word in WRAPPING_WORDS]
        yield table, pool, reads
    pairs = [(1, [x, y]) for x in (0, 1, *WRAPPING_WORDS) for y in (0, 1, *WRAPPING_WORDS)]
    yield (NATS, 0, 0, CONS, 0, 0), (), pairs


# ---- numbers about 2^62 ----


def unlimited_case(grammar, start, number):
    """The cells of a number that may be 2^62 or more; None where the walk is refused."""
    try:
        return case_cells(grammar, start, number, MOST_ROOM)
    except Refused:
        return None


NUMBERS_ABOUT_LIMIT = (
    *range(NUMBERS_END - 2, NUMBERS_END + 3),
    2**63,
    *range(2**64 - 1, 2**64 + 2),
    2**65,
    2**128,
    2**128 + 3,
)


def about_limit(table, pool, start):
    """Cases whose numbers stand about 2^62, 2^64 and 2^128."""
    grammar = survey(table, pool)[1]
    size = grammar.sizes[start]
    for number in NUMBERS_ABOUT_LIMIT:
        if is_finite(size) and number >= size:
            continue
        cells = unlimited_case(grammar, start, number)
        if cells is not None and len(cells) <= SHORT and max(cells) <= LAST_WORD:
            yield start, cells
            yield start, [*cells, 0]  # left over: 15 comes before 16


def limit_groups(random):
    for table, pool, start in (*PRINTED, *RULES):
        yield table, pool, list(about_limit(table, pool, start))
    for _ in range(NEAR_LIMIT_TABLES):
        table, pool = accepted(random, random.randrange(2, 25))
        endless = [node for node, size in enumerate(survey(table, pool)[1].sizes) if not is_finite(size)]
        starts = random.sample(endless, min(2, len(endless)))
        yield table, pool, [read for start in starts for read in about_limit(table, pool, start)]


def except_limit_groups():
    """Excepts over each other: the number of the case is right to the last unit."""
    for count in (1, 2, 3, 50, 199, 200):
        for removed in (0, 5, NUMBERS_END - 1):
            table = chain([(NATS, 0, 0)], lambda below: (EXCEPT, below, removed), count)
            cells = {0, 1, 4, 5, 6, removed, count - 1, count, count + 1, removed + count - 1, removed + count}
            cells |= {NUMBERS_END + step for step in (-2, -1, 0, 1, count - 2, count - 1, count, count + 1)}
            cells |= {LAST_WORD, 2**63}
            yield table, (), [(count, [cell]) for cell in sorted(cells)]
    for removed in (0, NUMBERS_END - 1):
        for table, pool, start in under_excepts(removed, (1, 2, 99, 150, 197, 198, 199)):
            yield table, pool, list(about_limit(table, pool, start))


# ---- what each kind refuses ----


def removed_groups(random):
    """The case that an except removed, and its neighbours, for the excepts of random tables."""
    for _ in range(120):
        table, pool = accepted(random, random.randrange(4, 30))
        grammar = survey(table, pool)[1]
        reads = []
        for node, (kind, part, removed) in enumerate(grammar.nodes):
            if kind != EXCEPT:
                continue
            for number in (removed, removed + 1, removed - 1):
                if number < 0 or (is_finite(grammar.sizes[part]) and number >= grammar.sizes[part]):
                    continue
                cells = unlimited_case(grammar, part, number)
                if cells is not None and len(cells) <= SHORT:
                    reads += [(node, cells), (node, cells[:-1]), (node, [*cells, 0])]
        if reads:
            yield table, pool, reads


def leaf_groups():
    """Counts, pool words and shifts at their edges."""
    for count in (1, 2, 7, NUMBERS_END - 1, NUMBERS_END):
        cells = (0, 1, count - 1, count, count + 1, NUMBERS_END - 1, NUMBERS_END, LAST_WORD)
        yield (BELOW, count, 0), (), [(0, [cell]) for cell in cells]
    yield (NATS, 0, 0), (), [(0, [cell]) for cell in (0, 1, *WRAPPING_WORDS)] + [(0, []), (1, []), (LAST_WORD, [0])]
    pool = (9, 5, 7, LAST_WORD, 0, 6, 8)
    ranges = (POOL, 1, 2, POOL, 0, 3, POOL, 3, 2, POOL, 0, 7, POOL, 6, 1)
    yield ranges, pool, [(start, [cell]) for start in range(5) for cell in (*range(11), LAST_WORD - 1, LAST_WORD)]
    for k in (0, 1, 97, 2**32 - 1, 2**32):
        shifted = (BELOW, 3, 0, NATS, 0, 0, SHIFT, 0, k, SHIFT, 1, k, SHIFT, 2, 2**32, SHIFT, 3, k)
        edges = {0, k, k - 1, k + 2, k + 3, 2 * k - 1, 2 * k, 2**32 + k - 1, 2**32 + k, 2**32 + k + 2, 2**32 + k + 3}
        edges |= {NUMBERS_END + k - 1, NUMBERS_END + k, NUMBERS_END + 2 * k - 1, NUMBERS_END + 2 * k, LAST_WORD}
        yield shifted, (), [(start, [cell]) for start in range(2, 6) for cell in sorted(edges) if cell >= 0]
    yield shifted, (), [(start, []) for start in range(7)]


def tag_groups():
    ors = (BELOW, 2, 0, NATS, 0, 0, OR, 0, 1, OR, 2, 1, OR, 3, 3)
    tags = (0, 1, 2, 3, 2**32, 2**63, LAST_WORD)
    reads = [(2, [tag, 1]) for tag in tags] + [(2, [tag]) for tag in tags]
    reads += [(3, [one, other, 0]) for one in tags for other in tags]
    reads += [(4, [one, other, 0, 0]) for one in tags for other in tags]
    yield ors, (), reads


# ---- depth, length, and the first met ----


def depth_groups():
    for _, table, pool, offset in chains():
        deepest = offset + 199
        cells = next(iter(written(table, pool, [(deepest, MOST_ROOM, 0)])))[1]
        deeper = write(table, pool, deepest, 200, MOST_ROOM)[2] or cells
        variants = [cells, deeper, [cells[0], *cells], [*cells, cells[-1]], cells[:-1], deeper[:-1], [1, *deeper]]
        variants += [[0], [], [LAST_WORD], [1] * 199, [1] * 200 + [0], [1] * 201 + [0]]
        yield table, pool, [(start, variant) for start in range(deepest - 1, deepest + 3) for variant in variants]
    for table, starts, _ in recursions():
        reads = []
        for start in starts:
            for count in (47, 48, 49, 50, 51):
                whole = zeros(count)
                reads += [(start, whole), (start, whole[:-1]), (start, whole[:-2]), (start, whole[:-3])]
            for count in (64, 65, 66, 67):
                whole = [1] * count + [0, 0]
                reads += [(start, whole), (start, whole[:-1]), (start, whole[:-2])]
        yield table, (), reads
    lists = []
    for count in (*range(1, 12), 20, 48, 49, 50, 51, 100):
        whole = zeros(count)
        lists += [(LISTS_START, cells) for cells in (whole, whole[:-2], [*whole, 0], [*whole[:-2], 2])]
    lists += [(LISTS_START, zeros(50)[:length]) for length in range(96, 103)]
    yield LISTS, (), lists


def order_groups():
    """Of 13, 14 and 15 the first met is given; then leftovers, then 16."""
    too_deep = 200
    nodes = [*shifted(too_deep), (EXCEPT, 0, 13), (CONS, 201, too_deep)]
    nodes += [(BELOW, 3, 0), (CONS, 203, too_deep), (CONS, too_deep, 203), (OR, 203, too_deep), (CONS, 199, 203)]
    reads = [(202, [cell, *more]) for cell in (12, 13, 14, NUMBERS_END) for more in ([], [0], [300], [300, 0])]
    begun = [[cell, *more] for cell in (0, 1, 2, 3, 199) for more in ([], [0], [3], [250])]
    reads += [(start, cells) for start in (204, 205, 206, 207) for cells in begun]
    reads += [(start, []) for start in range(198, 208)]
    yield words_of(nodes), (), reads
    # a number far past 2^62 inside, then a fault
    far = zeros(20)
    more = (BELOW, 2, 0, CONS, 5, 6, EXCEPT, 5, 0, DEP, 6, 0, CONS, 8, 8, OR, 5, 5, EXCEPT, 10, NUMBERS_END - 1)
    table = (*LISTS, *more)
    reads = [(7, far + more) for more in ([], [0], [1], [2], [1, 0], [2, 0])]
    reads += [(8, far), (8, [*far, 0]), (8, far[:-1])]
    reads += [(9, [0, *far]), (9, [1, *far]), (9, [1, *far, 1]), (9, [2, *far])]
    reads += [(10, far + far), (10, far + [1]), (10, far + [0, 0]), (11, [0, *far]), (11, [1, *far]), (11, [2, *far])]
    reads += [(12, far + far), (12, far + far[:-1]), (12, [0, 0] + far), (12, [1, 0, 0, 0] * 2)]
    yield table, (5, 1), reads


def length_groups():
    """65,536 cells are a case; needing one more is 14. A handful, for each is a long line."""
    zeros = [0] * MOST_CELLS
    past = of_length((BELOW, 1, 0), MOST_CELLS + 1)
    full, longer = 16, last_node(past)
    tagged = longer + 1
    yield past, (), [(longer, zeros), (longer, [*zeros, 0]), (longer, zeros[:-1]), (full, [*zeros, 0])]
    yield (*past, OR, 0, full), (), [(tagged, [1, *zeros[:-1]]), (tagged, [1, *zeros[:-2]])]
    # after 65,536 cells a part that is too deep: 13 is met, for no cell is needed yet
    shifts = [(SHIFT, 0 if place == 0 else longer + place, 1) for place in range(200)]
    yield (*past, *words_of(shifts), CONS, full, longer + 200), (), [(longer + 201, zeros)]
    yield (NATS, 0, 0), (), [(0, [0] * MOST_ROW_WORDS)]


# ---- refused tables, starts, lines that cannot be read ----

NO_CALLS = (
    "read",
    "read ",
    "read 5 ",
    "read 5 0 0 ",
    "read 5  0 0",
    "read 5 00 0",
    "read 5 0 18446744073709551616",
    "read 5 0 -0",
    "read x 0 0",
    "read 5 0 0\r",
    "read\t5 0 0",
    "reads 5 0 0",
    "READ 5 0 0",
)


def start_groups():
    starts = (0, 5, 6, 255, 256, 2**32, 2**63, LAST_WORD)
    yield LISTS, (), [(start, cells) for start in starts for cells in ([], [0], [0, 0], [2])]
    for table, pool in make_write.REFUSED:
        yield table, pool, [(5, [0, 0]), (0, []), (LAST_WORD, [LAST_WORD])]


def unreadable(vectors):
    vectors.table(LISTS)
    vectors.between(NO_CALLS, "read", LISTS_START, 1, 6, 0, 0)
    vectors.call("read", 1, *[1] * (MOST_ROW_WORDS + 1))
    vectors.put(("table", "", "00", "read 0 0", "read 0 0"))


def groups(random):
    yield from start_groups()
    yield from leaf_groups()
    yield from tag_groups()
    yield from every_cell_groups()
    yield from wrapping_groups()
    yield from limit_groups(random)
    yield from except_limit_groups()
    yield from removed_groups(random)
    yield from depth_groups()
    yield from order_groups()
    yield from read_back_groups(random)
    yield from length_groups()


def make(seed):
    vectors = Vectors()
    vectors.call("read", 0, 0)  # no table stands yet
    for table, pool, reads in groups(Random(seed)):
        vectors.group(table, pool, [("read", (start, *cells)) for start, cells in reads])
    unreadable(vectors)
    return vectors


if __name__ == "__main__":
    print_made(make, DEFAULT_SEED)
