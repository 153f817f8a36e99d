"""Prints an input of the program `calls` that tries rows and the reader: python3 make_rows.py [SEED]

A group is (table, pool, calls), a call (name, fields). The reader goes over each row that is read.
"""

from random import Random

import make_write
from answer import MOST_ROOM, MOST_ROW_WORDS
from cells import altered, off_by_one, zeros
from grammars import CHAIN, CHAIN_START, LAST_WORD, LISTS, LISTS_START, accepted, words_of
from kinds import BELOW, CONS, EXCEPT, NATS, OR
from make_write import random_number
from reference import DONE, MOST_CELLS, NUMBERS_END, is_finite, sizes, write, write_row
from shapes import PRINTED, RULES, last_node, of_length, shifted
from vectors import Vectors, print_made

DEFAULT_SEED = 6
RANDOM_TABLES = 130
SHORT_CASE = 40  # cells of one item in a random row
MOST_ITEMS = 9  # of a random row
LONG_ROW_ITEMS = 2_000
PLACES = ("first", "middle", "last")


# ---- calls ----


def write_call(start, room, numbers):
    return "write-row", [start, room, *numbers]


def read_calls(start, room, cells):
    """Row reading and the reader over the same row."""
    return [("read-row", [start, room, *cells]), ("reader", [start, *cells])]


def row_of(table, pool, start, numbers):
    refusal, _, _, cells = write_row(table, pool, start, numbers, MOST_ROOM)
    assert refusal == DONE, "the numbers of a sound row have cases"
    return cells


def sound_calls(table, pool, start, numbers):
    """A row that is done, with buffers exactly long enough, one short, and longer."""
    cells = row_of(table, pool, start, numbers)
    calls = [write_call(start, room, numbers) for room in (len(cells), len(cells) + 1, MOST_ROOM)]
    calls += read_calls(start, len(numbers), cells)
    calls.append(("read-row", [start, MOST_ROOM, *cells]))
    if numbers:
        calls.append(write_call(start, len(cells) - 1, numbers))
        calls.append(("read-row", [start, len(numbers) - 1, *cells]))
    return calls


def at_place(items, place, item):
    """The items with one more at the first, a middle or the last place."""
    at = {"first": 0, "middle": len(items) // 2, "last": len(items)}[place]
    return [*items[:at], item, *items[at:]]


def joined(cases):
    return [cell for case in cases for cell in case]


# ---- the documents' rows, rows of no items, rows over each rule ----


def printed_groups():
    numbers = [1, 0, 3]
    cells = [1, 0, 0, 0, 0, 0, 1, 1, 0, 0]
    calls = sound_calls(LISTS, (), LISTS_START, numbers)
    calls += [write_call(LISTS_START, room, numbers) for room in range(12)]
    for length in range(len(cells)):
        calls += read_calls(LISTS_START, 3, cells[:length])
    for room in range(5):
        calls += [("read-row", [LISTS_START, room, *cells])]
        calls += [("read-row", [LISTS_START, room, 0, 0, 2]), ("read-row", [LISTS_START, room, 0, 0, 0, 0])]
    calls += read_calls(LISTS_START, 1, [0, 0, 2])
    for near in off_by_one(cells, len(cells)):
        calls += read_calls(LISTS_START, 3, near)
    yield LISTS, (), calls


def empty_groups():
    """A row of no items is done, but the table and the start are checked first."""
    for start in (LISTS_START, 0, 6, 256, LAST_WORD):
        calls = [write_call(start, 0, []), write_call(start, MOST_ROOM, []), *read_calls(start, 0, [])]
        calls += [write_call(start, MOST_ROOM, [NUMBERS_END, 0]), *read_calls(start, MOST_ROOM, [2])]
        yield LISTS, (), calls
    for table, pool in make_write.REFUSED:
        calls = [call for start in (0, LAST_WORD) for call in (write_call(start, 0, []), *read_calls(start, 0, []))]
        calls += [write_call(0, 9, [LAST_WORD, 0]), *read_calls(0, 9, [2, 2])]
        yield table, pool, calls


def rule_groups():
    """Rows of one and two items, and of all numbers up to a few, over each rule's shape."""
    for table, pool, start in (*PRINTED, *RULES):
        size = sizes(table, pool)[start]
        end = min(size, 6) if is_finite(size) else 6
        yield table, pool, [
            *sound_calls(table, pool, start, [end - 1]),
            *sound_calls(table, pool, start, [end - 1, 0]),
            *sound_calls(table, pool, start, [*range(end), *range(end)]),
        ]


def whole_row_groups():
    yield from printed_groups()
    yield from empty_groups()
    yield from rule_groups()


# ---- a refused item at the first, a middle and the last place ----


def refused_item_groups():
    calls = []
    numbers = [1, 0, 3, 43]
    cases = [write(LISTS, (), LISTS_START, number, MOST_ROOM)[2] for number in numbers]
    for place in PLACES:
        for number in (NUMBERS_END, NUMBERS_END + 1, LAST_WORD):
            calls.append(write_call(LISTS_START, MOST_ROOM, at_place(numbers, place, number)))
            calls.append(write_call(LISTS_START, 0, at_place(numbers, place, number)))
        for faulty in ([2, 0], [0, 1], [1, 5, 2], [1], *map(zeros, (8, 9, 49, 50, 60))):
            row = joined(at_place(cases, place, faulty))
            for room in (0, 1, 2, 4, 5, MOST_ROOM):
                calls.append(("read-row", [LISTS_START, room, *row]))
            calls.append(("reader", [LISTS_START, *row]))
    # every room: 14 is met at each item in turn
    whole = joined(cases)
    calls += [write_call(LISTS_START, room, numbers) for room in range(len(whole) + 2)]
    calls += [("read-row", [LISTS_START, room, *whole]) for room in range(len(numbers) + 2)]
    yield LISTS, (), calls


def deep_item_groups():
    """13 at each place; where the room ends before depth 201 is met it is 14."""
    numbers = [5, 65, 0]
    cases = [write(CHAIN, (), CHAIN_START, number, MOST_ROOM)[2] for number in numbers]
    used = sum(map(len, cases))
    calls = []
    for place in PLACES:
        for number in (66, 67, 1_000, NUMBERS_END - 1, NUMBERS_END):
            row = at_place(numbers, place, number)
            rooms = (MOST_ROOM, used + 66, used + 67, used, used - 1, 66, 67)
            calls += [write_call(CHAIN_START, room, row) for room in rooms]
        for count in (66, 67, 70):
            calls += read_calls(CHAIN_START, MOST_ROOM, joined(at_place(cases, place, [1] * count + [0, 0])))
            calls += read_calls(CHAIN_START, 1, joined(at_place(cases, place, [1] * count)))
    yield CHAIN, (), calls
    # nats under 200 shifts: 13 for every item, with room or without
    nodes = [*shifted(200), (EXCEPT, 0, 13), (CONS, 201, 200)]
    calls = []
    for numbers in ([], [0], [NUMBERS_END], [0, 1]):
        calls += [write_call(200, room, numbers) for room in (0, 1, MOST_ROOM)]
    for cells in ([], [13], [14], [200], [0, 0]):
        calls += [call for start in (199, 200, 202) for call in read_calls(start, 1, cells)]
    yield words_of(nodes), (), calls


def finite_item_groups():
    """12 by the size, after items that fill the room: 12 comes before 14."""
    table = (BELOW, 5, 0, CONS, 0, 0)
    calls = []
    for place in PLACES:
        for number in (24, 25, 26, LAST_WORD):
            row = at_place([3, 0, 24, 7], place, number)
            calls += [write_call(1, room, row) for room in (0, 4, 8, 9, 10, MOST_ROOM)]
    for cells in ([4, 4, 0, 5], [5, 0, 0, 0], [0, 0, 5, 5], [0, 0, 0], [1, 2, 3, 4, 0, 1]):
        for room in (0, 1, 2, 3):
            calls += read_calls(1, room, cells)
    yield table, (), calls


def limit_item_groups():
    """16 at each place, by several grammars; leftovers are the next item here, no fault."""
    nats, pairs = (NATS, 0, 0), (NATS, 0, 0, CONS, 0, 0)
    for place in PLACES:
        calls = []
        for word in (NUMBERS_END - 1, NUMBERS_END, LAST_WORD):
            row = at_place([0, 7, NUMBERS_END - 1], place, word)
            calls += [call for room in (0, 2, 3, 4, MOST_ROOM) for call in read_calls(0, room, row)]
        yield nats, (), calls
        calls = []
        for pair in ([0, 2**31], [2**31 - 1, 2**31 - 1], [0, 2**32], [2**32, 2**32], [2**31, 0]):
            row = joined(at_place([[1, 1], [0, 3]], place, pair))
            calls += [call for room in (0, 2, 3) for call in read_calls(1, room, row)]
        yield pairs, (), calls
        calls = []
        for cell in (0, NUMBERS_END - 1, NUMBERS_END, NUMBERS_END + 1):
            row = at_place([1, NUMBERS_END], place, cell)
            calls += [call for room in (2, 3) for call in read_calls(1, room, row)]
        yield (NATS, 0, 0, EXCEPT, 0, 0), (), calls


def stopped_row_groups():
    yield from refused_item_groups()
    yield from deep_item_groups()
    yield from finite_item_groups()
    yield from limit_item_groups()


# ---- long rows ----


def many_items_groups(random):
    for count in (100, 500, LONG_ROW_ITEMS):
        numbers = [random.choice((random.randrange(50), random.getrandbits(40))) for _ in range(count)]
        yield LISTS, (), sound_calls(LISTS, (), LISTS_START, numbers)[3:]
        cells = row_of(LISTS, (), LISTS_START, numbers)
        calls = [write_call(LISTS_START, len(cells), numbers), write_call(LISTS_START, len(cells) - 1, numbers)]
        if count < LONG_ROW_ITEMS:
            calls += read_calls(LISTS_START, count, cells[:-1]) + read_calls(LISTS_START, count, altered(random, cells))
            calls += [write_call(LISTS_START, MOST_ROOM, at_place(numbers, place, NUMBERS_END)) for place in PLACES]
        yield LISTS, (), calls


def many_cells_groups():
    """Rows longer than 65,536 cells: the limit counts from each item's first cell. A handful."""
    half = 34_000
    table = of_length((BELOW, 1, 0), half)
    start = last_node(table)
    row = [0] * (2 * half)
    calls = [write_call(start, room, [0, 0]) for room in (2 * half, 2 * half - 1, half - 1)]
    calls += [write_call(start, MOST_ROOM, [0, 0, 0]), write_call(start, MOST_ROOM, [0, 1, 0])]
    yield table, (), calls + read_calls(start, 2, row) + [("read-row", [start, 1, *row])]
    # an item of 65,536 cells between short ones, and one of 65,537 at each place among them
    for cells, places in ((MOST_CELLS - 1, ("middle",)), (MOST_CELLS, PLACES)):
        table = of_length((BELOW, 1, 0), cells)
        start = last_node(table) + 1
        calls = [write_call(start, room, [0, 1]) for room in (MOST_ROOM, MOST_CELLS + 1)]
        for place in places:
            calls += read_calls(start, 3, joined(at_place([[0, 0], [0, 0]], place, [1, *[0] * cells])))
        yield (*table, OR, 0, start - 1), (), calls


def row_limit_groups():
    """70,000 words are a row; the reader is soon stopped, for it prints a line for each item."""
    row = [7] * MOST_ROW_WORDS
    stopped = [7, NUMBERS_END, *row[2:]]
    calls = [write_call(0, MOST_ROOM, row), ("read-row", [0, MOST_ROOM, *row]), ("reader", [0, *stopped])]
    yield (NATS, 0, 0), (), calls


def long_row_groups(random):
    yield from many_items_groups(random)
    yield from many_cells_groups()
    yield from row_limit_groups()


# ---- random rows ----


def short_numbers(random, table, pool, start, size, count):
    """Numbers that have short cases."""
    numbers = []
    for _ in range(20 * count):
        if len(numbers) < count:
            number = random_number(random, size)
            refusal, _, cells = write(table, pool, start, number, MOST_ROOM)
            if refusal == DONE and len(cells) <= SHORT_CASE:
                numbers.append(number)
    return numbers


def random_groups(random):
    for _ in range(RANDOM_TABLES):
        table, pool = accepted(random, random.randrange(1, 25))
        known = sizes(table, pool)
        start = random.choice((len(known) - 1, random.randrange(len(known))))
        numbers = short_numbers(random, table, pool, start, known[start], random.randrange(1, MOST_ITEMS + 1))
        calls = sound_calls(table, pool, start, numbers)
        cells = row_of(table, pool, start, numbers)
        if cells:
            for _ in range(3):
                calls += read_calls(start, len(numbers), altered(random, cells))
            calls += read_calls(start, random.randrange(len(numbers) + 1), cells[: random.randrange(len(cells))])
            calls.append(write_call(start, random.randrange(len(cells) + 1), numbers))
        refused = [random_number(random, known[start]) for _ in range(3)]
        for place, number in zip(PLACES, refused):
            calls.append(write_call(start, MOST_ROOM, at_place(numbers, place, number)))
        yield table, pool, short_lines(table, pool, calls)


def short_lines(table, pool, calls):
    """Leaves out a row that would print a long line."""

    def is_short(call):
        name, (start, *fields) = call
        if name != "write-row":
            return True
        _, _, _, cells = write_row(table, pool, start, fields[1:], MOST_ROOM)
        return len(cells) <= SHORT_CASE * MOST_ITEMS

    return [call for call in calls if is_short(call)]


# ---- lines that cannot be read ----

NO_CALLS = (
    "write-row",
    "write-row 5",
    "write-row 5 ",
    "write-row 5 70001",
    "write-row 5 18446744073709551615 0",
    "write-row 5 9 01",
    "write-row 5 9 0 ",
    "write-row  5 9 0",
    "write_row 5 9 0",
    "read-row",
    "read-row 5",
    "read-row 5 70001 0 0",
    "read-row 5 18446744073709551615 0 0",
    "read-row 5 1 0  0",
    "read-row 5 1 0 18446744073709551616",
    "read-row 5 1 0 0\r",
    "reader",
    "reader ",
    "reader 5 ",
    "reader 5 0 x",
    "reader\t5 0 0",
    "readers 5 0 0",
    "row 5 0 0",
)


def unreadable(vectors):
    vectors.table(LISTS)
    vectors.between(NO_CALLS, "reader", LISTS_START, 0, 0)
    too_long = [1] * (MOST_ROW_WORDS + 1)
    vectors.calls([write_call(1, MOST_ROOM, too_long), *read_calls(1, MOST_ROOM, too_long)])
    vectors.put(("table", "x", "", "write-row 0 0", "read-row 0 0", "reader 0"))


def groups(random):
    yield from whole_row_groups()
    yield from stopped_row_groups()
    yield from random_groups(random)
    yield from long_row_groups(random)


def make(seed):
    vectors = Vectors()
    for name in ("write-row", "read-row", "reader"):
        vectors.call(name, 0, 0)  # no table stands yet
    for table, pool, calls in groups(Random(seed)):
        vectors.group(table, pool, calls)
    unreadable(vectors)
    return vectors


if __name__ == "__main__":
    print_made(make, DEFAULT_SEED)
