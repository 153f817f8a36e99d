"""Prints an input of the program `calls` that tries writing: python3 make_write.py [SEED]

groups(random) gives the calls as (table, pool, [(start, room, number)]); make_read.py reads the same cases back.
"""

from random import Random

from answer import MOST_ROOM
from grammars import GUARDED, LAST_WORD, LISTS, LISTS_START, accepted, careless, mutated, words_of
from kinds import AGAIN, BELOW, CONS, EXCEPT, FIX, NATS, OR, POOL
from reference import DONE, MOST_CELLS, NUMBERS_END, check, is_finite, sizes, write
from shapes import PRINTED, RULES, chain, chains, last_node, of_length, recursions, shifted, under_excepts
from vectors import Vectors, print_made

DEFAULT_SEED = 4
RANDOM_TABLES = 330
RANDOM_CALLS = 9  # for each random table
REFUSED_TABLES = 60
WORD_BITS = 64
LONG = 250  # cells; a longer case is written only while LONG_CELLS last
LONG_CELLS = 40_000


# ---- choosing numbers and rooms ----


def random_of_bits(random, bits):
    """A number of exactly so many bits."""
    return random.getrandbits(bits - 1) | 1 << (bits - 1) if bits > 0 else 0


def edge_numbers(size):
    """Numbers about the size and the limits of numbers."""
    about = (size - 1, size, size + 1) if is_finite(size) else ()
    return (0, 1, 2, 3, *about, NUMBERS_END - 1, NUMBERS_END, LAST_WORD)


def random_number(random, size):
    """A number that is mostly below the size."""
    way = random.random()
    if way < 0.15:
        return random.choice(edge_numbers(size))
    if way < 0.35:
        return random.randrange(12)
    if way < 0.45 and is_finite(size):
        return random.randrange(size)
    bits = min(62, size.bit_length()) if is_finite(size) and way < 0.9 else 64 if way < 0.5 else 62
    number = random_of_bits(random, random.randrange(bits + 1))
    return number % size if is_finite(size) and way < 0.9 else number


def rooms_about(length):
    return (0, 1, length, length - 1, length + 1, MOST_CELLS, MOST_CELLS + 1, MOST_ROOM)


def random_room(random, length):
    way = random.random()
    if way < 0.3:
        return length
    if way < 0.45:
        return max(0, length - 1)
    if way < 0.55:
        return random.randrange(length + 3)
    return random.choice((0, 1, MOST_CELLS, MOST_CELLS + 1, MOST_ROOM, MOST_ROOM))


class Budget:
    """Lets every short case through, and long ones while cells last."""

    def __init__(self, cells):
        self.cells = cells

    def allows(self, length):
        if length <= LONG:
            return True
        self.cells -= length
        return self.cells >= 0


def length_of(table, pool, start, number):
    return len(write(table, pool, start, number, MOST_ROOM)[2])


# One table for each refusal, the fault at the last node or at its lowest.
REFUSED = (
    ((), ()),
    (LISTS[:-1], ()),
    (LISTS * 43, ()),
    (LISTS, (0,) * 4_097),
    ((*LISTS, 10, 0, 0), ()),
    ((*LISTS, NATS, 0, 1), ()),
    ((*LISTS, OR, 6, 0), ()),
    ((*LISTS, BELOW, 0, 0), ()),
    ((*LISTS, POOL, 0, 2), (1, 1)),
    ((*LISTS, FIX, 0, 0), ()),
    ((*LISTS, BELOW, NUMBERS_END, 0, OR, 0, 6), ()),
    ((AGAIN, 1, 0, FIX, 0, 0), ()),
    ((BELOW, 1, 0, AGAIN, 4, 0, EXCEPT, 1, 0, OR, 0, 2, FIX, 3, 0), ()),
)

# ---- groups of calls ----


def all_rooms(shape, numbers):
    """Each number with every room about its case's length."""
    table, pool, start = shape
    calls = []
    for number in numbers:
        length = length_of(table, pool, start, number)
        calls += [(start, room, number) for room in rooms_about(length) if room >= 0]
    return table, pool, calls


def printed_groups():
    for shape in PRINTED:
        yield all_rooms(shape, (0, 1, 2, 3, 4, 5, 8, 9, 13, 42, 43, 65, 66, NUMBERS_END - 1, NUMBERS_END))


def rule_groups(random):
    for table, pool, start in RULES:
        size = sizes(table, pool)[start]
        numbers = [*range(8), *edge_numbers(size)[4:]]
        longest = min(size.bit_length() + 1, WORD_BITS) if is_finite(size) else WORD_BITS
        numbers += [random_of_bits(random, bits) for bits in range(longest + 1)]
        calls = []
        for number in numbers:
            length = length_of(table, pool, start, number)
            calls.append((start, random_room(random, length) if random.random() < 0.3 else MOST_ROOM, number))
        # from every other node too
        calls += [(node, MOST_ROOM, number) for node in range(last_node(table)) for number in (0, 1, 5)]
        yield table, pool, [call for call in calls if length_of(table, pool, call[0], call[2]) <= LONG]


def random_groups(random):
    budget = Budget(LONG_CELLS)
    for turn in range(RANDOM_TABLES):
        count = random.randrange(150, 250) if turn % 55 == 54 else random.randrange(1, 30)
        table, pool = accepted(random, count)
        known = sizes(table, pool)
        calls = []
        while len(calls) < RANDOM_CALLS:
            start = random.choice((len(known) - 1, len(known) - 1, random.randrange(len(known))))
            number = random_number(random, known[start])
            length = length_of(table, pool, start, number)
            if budget.allows(length):
                calls.append((start, random_room(random, length), number))
        out = random.choice((len(known), len(known) + 1, 255, 256, 2**32, 2**63, LAST_WORD))
        calls.append((out, random.choice((0, MOST_ROOM)), random.choice((0, LAST_WORD))))
        yield table, pool, calls


def depth_groups():
    """Depths 199, 200 and 201 by every sort of chain."""
    for name, table, pool, offset in chains():
        calls = []
        for start in (offset + 198, offset + 199, offset + 200, offset + 201):
            deep = start - offset if name == "second of or" else 0
            for number in (0, deep, 1, NUMBERS_END - 1):
                calls += [(start, room, number) for room in (MOST_ROOM, 0, 1, 199, 200, 201)]
        yield table, pool, sorted(set(calls))
    for table, starts, numbers in recursions():
        rooms = (MOST_ROOM, 66, 67, 68, 100, 101, 102, 0)
        yield table, (), [(start, room, number) for start in starts for number in numbers for room in rooms]


def middle_groups(random):
    """Cases of hundreds and thousands of cells."""
    leaves = ((NATS, 0, 0), (POOL, 0, 1), (BELOW, 1, 0))
    for length in (255, 256, 257, 1_000, 4_095, 4_096, 4_097, 9_999):
        table = of_length(leaves[length % 3], length)
        start = last_node(table)
        for_nats = random_of_bits(random, 62)
        number = for_nats if table[0] == NATS else 0
        yield table, (2,), [(start, length, number), (start, length - 1, number), (start, MOST_ROOM, number + 1)]


def length_groups():
    """Cases of exactly 65,536 and 65,537 cells; few of them are written out."""
    unit, nats = (BELOW, 1, 0), (NATS, 0, 0)
    over = (MOST_CELLS, MOST_CELLS + 1, MOST_ROOM)
    full = of_length(unit, MOST_CELLS)
    node = last_node(full)
    calls = [(node, MOST_CELLS, 0), (node, MOST_CELLS - 1, 0), (node, 0, 0), (node, MOST_ROOM, 1), (node - 9, 300, 0)]
    yield full, (), calls
    wide = of_length(nats, MOST_CELLS)
    node = last_node(wide)
    yield wide, (), [(node, MOST_ROOM, NUMBERS_END - 1), (node, MOST_CELLS - 1, 7), (node, MOST_CELLS + 1, 1)]
    past = of_length(unit, MOST_CELLS + 1)
    node = last_node(past)
    yield past, (), [(node, room, 0) for room in (*over, MOST_CELLS - 1, 1, 0)]
    # with a tag in front: 65,536 and 65,537 again
    tagged = of_length((POOL, 0, 1), MOST_CELLS - 1)
    node = last_node(tagged)
    calls = [(node + 1, MOST_CELLS, 1), (node + 1, MOST_CELLS - 1, 1), (node + 1, MOST_ROOM, 0)]
    yield (*tagged, OR, 0, node), (3,), calls
    node = last_node(full)
    yield (*full, OR, 0, node), (), [(node + 1, room, number) for room in over for number in (0, 1)]
    yield full, (), [(node - 1, MOST_CELLS // 2, 0), (node - 1, MOST_CELLS // 2 - 1, 0)]


def order_groups():
    """Where a walk meets both the end of the room and depth 201, the first met is given."""
    too_deep, leaf = 200, 201
    nodes = [*shifted(too_deep), (BELOW, 1, 0)]
    first = len(nodes)
    nodes += [(CONS, leaf if bit == 0 else first + bit - 1, leaf if bit == 0 else first + bit - 1) for bit in range(16)]
    full = len(nodes) - 1  # 65,536 cells
    nodes += [(CONS, full, too_deep), (CONS, too_deep, full), (OR, leaf, too_deep), (CONS, full, leaf)]
    nodes += [(CONS, full + 4, too_deep)]
    calls = []
    for room in (0, 1, 2, MOST_CELLS - 1, MOST_CELLS, MOST_CELLS + 1, MOST_ROOM):
        calls += [(start, room, number) for start in range(full + 1, full + 6) for number in (0, 1)]
        calls.append((full + 2, room, NUMBERS_END))
    yield words_of(nodes), (), calls


def except_groups():
    """Numbers inside a walk that pass 2^62."""
    for count in (1, 2, 50, 199):
        for removed in (0, 5, NUMBERS_END - 1):
            table = chain([(NATS, 0, 0)], lambda below: (EXCEPT, below, removed), count)
            numbers = (0, 4, 5, 6, NUMBERS_END - count - 1, NUMBERS_END - 2, NUMBERS_END - 1, NUMBERS_END)
            yield table, (), [(count, MOST_ROOM, max(0, number)) for number in numbers]
    for table, pool, start in under_excepts(0, (1, 2, 100, 198, 199)):
        numbers = (0, 1, NUMBERS_END - 2, NUMBERS_END - 1, NUMBERS_END)
        yield table, pool, [(start, MOST_ROOM, number) for number in numbers]


def refused_groups(random):
    """Refused tables: the table comes before the start, the number and the room."""
    made = 0
    while made < REFUSED_TABLES:
        count = random.randrange(1, 20)
        sound = accepted(random, count) if made % 2 else careless(random, count + 2, GUARDED)
        table, pool = mutated(random, *sound)
        if check(table, pool) == (DONE, 0):
            continue
        made += 1
        nodes = last_node(table) + 1
        yield table, pool, [(nodes - 1, MOST_ROOM, 0), (nodes, 0, LAST_WORD)]
    for table, pool in REFUSED:
        yield table, pool, [(0, MOST_ROOM, 0), (LISTS_START, 1, 0), (LAST_WORD, 0, LAST_WORD)]


def start_groups():
    """11 comes before 12, and 12 before 13 and 14."""
    starts = (0, 5, 6, 7, 255, 256, 2**32, 2**32 + 5, 2**63, LAST_WORD)
    numbers = (0, 43, NUMBERS_END, LAST_WORD)
    yield LISTS, (), [(start, room, number) for start in starts for room in (0, 10) for number in numbers]
    whole = (NATS, 0, 0) * 256
    yield whole, (), [(start, 1, 7) for start in (0, 254, 255, 256, 257, 511, 512, LAST_WORD)]


def groups(random):
    yield from printed_groups()
    yield from rule_groups(random)
    yield from start_groups()
    yield from depth_groups()
    yield from order_groups()
    yield from except_groups()
    yield from random_groups(random)
    yield from refused_groups(random)
    yield from middle_groups(random)
    yield from length_groups()


# ---- lines that cannot be read ----

NO_CALLS = (
    "write",
    "write 5",
    "write 5 10",
    "write 5 10 0 0",
    "write 5 70001 0",
    "write 5 18446744073709551615 0",
    "write 5 10 18446744073709551616",
    "write 18446744073709551616 10 0",
    "write 5 10 00",
    "write 5  10 0",
    "write 5 10 0 ",
    " write 5 10 0",
    "write 5 10 -1",
    "write\t5 10 0",
    "write 5 10 0\r",
    "writes 5 10 0",
    "Write 5 10 0",
)


def unreadable(vectors):
    vectors.table(LISTS)
    vectors.between(NO_CALLS, "write", LISTS_START, MOST_ROOM, 43)
    vectors.put(("table", "0 1", "x", "write 5 10 0", "write 5 10 0"))


def make(seed):
    vectors = Vectors()
    vectors.call("write", 0, 1, 0)  # no table stands yet
    for table, pool, calls in groups(Random(seed)):
        vectors.group(table, pool, [("write", call) for call in calls])
    unreadable(vectors)
    return vectors


if __name__ == "__main__":
    print_made(make, DEFAULT_SEED)
