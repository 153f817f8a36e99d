"""Asserts the worked cases of document 01, the settled readings of it, and laws that hold for every table.

Prints ok. Run: python3 self_test.py
"""

from random import Random

import reference
from answer import answers
from cells import zeros
from grammars import ANY, CHAIN, CHAIN_START, GUARDED, LISTS, LISTS_START, accepted, careless, words_of
from kinds import AGAIN, BELOW, CONS, DEP, EXCEPT, FIX, NATS, OR, POOL
from reference import ENDLESS, WORDS_PER_NODE, check, read, read_row, reader, sizes, survey, write, write_row
from shapes import doubled, shifted

ROOM = 70_000
ACCEPTED = (0, 0)
END = 2**62
UNIT = (BELOW, 1, 0)
TWO_NATS = (NATS, 0, 0, CONS, 0, 0)
SEED = 1


def cells_of(table, pool, start, number, room=ROOM):
    refusal, _, cells = write(table, pool, start, number, room)
    return refusal if refusal else cells


def number_of(table, pool, start, cells):
    """("number", N), or the refusal."""
    refusal, _, number = read(table, pool, start, cells)
    return refusal if refusal else ("number", number)


def shifts(count):
    return words_of(shifted(count))


# ---- document 01, "Cases on both sides" ----


def test_lists():
    for number, cells in (
        (0, [0, 0]),
        (1, [1, 0, 0, 0]),
        (2, [1, 0, 1, 0, 0, 0]),
        (3, [1, 1, 0, 0]),
        (4, [1, 1, 1, 0, 0, 0]),
        (43, [1, 6, 0, 0]),
    ):
        assert cells_of(LISTS, (), LISTS_START, number) == cells
        assert number_of(LISTS, (), LISTS_START, cells) == ("number", number)
    assert check(LISTS, ()) == ACCEPTED
    assert write_row(LISTS, (), LISTS_START, [1, 0, 3], ROOM) == (0, 0, 0, [1, 0, 0, 0, 0, 0, 1, 1, 0, 0])
    assert number_of(LISTS, (), LISTS_START, zeros(7)) == ("number", 210066388901)
    assert number_of(LISTS, (), LISTS_START, zeros(8)) == 16
    assert number_of(LISTS, (), LISTS_START, zeros(50)) == 13
    assert number_of(LISTS, (), LISTS_START, zeros(49)) == 16


def test_two_nats():
    for number, cells in ((8, [2, 2]), (9, [0, 3]), (42, [6, 0]), (END - 1, [2**31 - 1, 2**31 - 1])):
        assert cells_of(TWO_NATS, (), 1, number) == cells
        assert number_of(TWO_NATS, (), 1, cells) == ("number", number)
    assert number_of(TWO_NATS, (), 1, [0, 2**31]) == 16


def test_finite_parts():
    assert cells_of((BELOW, 2, 0, BELOW, 3, 0, CONS, 0, 1), (), 2, 1) == [1, 0]
    assert cells_of((BELOW, 2, 0, BELOW, 2, 0, CONS, 0, 1), (), 2, 1) == [0, 1]
    assert cells_of((BELOW, 2, 0, NATS, 0, 0, OR, 0, 1), (), 2, 4) == [1, 2]


def test_dep_and_except():
    dep, seconds = (BELOW, 2, 0, BELOW, 3, 0, DEP, 0, 0), (1, 0)
    assert sizes(dep, seconds)[2] == 5
    assert cells_of(dep, seconds, 2, 3) == [1, 0]
    assert cells_of(dep, seconds, 2, 5) == 12
    but13 = (NATS, 0, 0, EXCEPT, 0, 13)
    assert cells_of(but13, (), 1, 13) == [14]
    assert number_of(but13, (), 1, [13]) == 15


def test_cycle_and_chain():
    assert check((AGAIN, 1, 0, FIX, 0, 0), ()) == (9, 0)
    assert cells_of(CHAIN, (), CHAIN_START, 65) == [1] * 65 + [0, 0]
    assert cells_of(CHAIN, (), CHAIN_START, 66) == 13
    assert deepest(CHAIN, CHAIN_START, 65) == 198


def deepest(table, start, number):
    """The greatest depth of a visit, found by wrapping the walk."""
    depths, show = [], reference.show

    def watched(grammar, node, n, depth, cells, room):
        depths.append(depth)
        show(grammar, node, n, depth, cells, room)

    reference.show = watched
    try:
        write(table, (), start, number, ROOM)
    finally:
        reference.show = show
    return max(depths)


# ---- settled readings ----


def test_table_readings():
    for table, verdict in (
        ((BELOW, 0, 0, 99, 0, 0), (5, 0)),
        ((BELOW, 1, 0, AGAIN, 5, 0, EXCEPT, 1, 0, OR, 0, 2, AGAIN, 7, 0, FIX, 3, 0, CONS, 4, 4, FIX, 6, 0), (9, 4)),
        ((BELOW, 1, 0, AGAIN, 4, 0, EXCEPT, 1, 0, OR, 0, 2, FIX, 3, 0), (10, 2)),
        ((AGAIN, 2, 0, OR, 0, 0, FIX, 1, 0), (9, 0)),
        ((NATS, 0, 0, AGAIN, 2, 0, FIX, 0, 9), (3, 2)),
        ((AGAIN, 2, 0, AGAIN, 2, 0, FIX, 1, 0), (9, 1)),
        ((NATS, 0, 0, FIX, 0, 0), ACCEPTED),
        ((*LISTS, EXCEPT, LISTS_START, 0), ACCEPTED),
        ((*LISTS, BELOW, 0, 0), (5, 6)),
        ((BELOW, END, 0), ACCEPTED),
        ((BELOW, END + 1, 0), (5, 0)),
        ((BELOW, 1, 0, EXCEPT, 0, 0), (7, 1)),
        ((BELOW, 1, 0, EXCEPT, 0, 2**64 - 1), (7, 1)),
        ((), (1, 0)),
        ((NATS, 0), (1, 0)),
        ((NATS, 0, 0) * 256, ACCEPTED),
        ((NATS, 0, 0) * 257, (1, 0)),
        # the list grammar with its parts exchanged
        ((BELOW, 1, 0, NATS, 0, 0, AGAIN, 5, 0, CONS, 1, 2, OR, 3, 0, FIX, 4, 0), (9, 2)),
    ):
        assert check(table, ()) == verdict, (table, verdict)
    assert check((POOL, 0, 1), (5,)) == ACCEPTED
    assert check((BELOW, 2, 0, DEP, 0, 0), (0, 0)) == ACCEPTED
    assert check((BELOW, 2, 0, DEP, 0, 0, DEP, 0, 1, POOL, 1, 2), (0, 0, 1)) == ACCEPTED
    assert check((NATS, 0, 0), (0,) * 4_096) == ACCEPTED
    assert check((99, 0, 0), (0,) * 4_097) == (1, 0)


def test_writing_readings():
    assert cells_of(CHAIN, (), CHAIN_START, 66, 66) == 14
    assert cells_of(CHAIN, (), CHAIN_START, 66, 67) == 13
    for room in (0, 1, ROOM):
        assert cells_of(shifts(200), (), 200, 0, room) == 13
    assert cells_of(shifts(199), (), 199, 5) == [204]
    assert cells_of(LISTS, (), 2, 0) == [0, 0]
    assert cells_of((BELOW, 3, 0), (), 0, 3, 0) == 12
    assert cells_of((BELOW, 3, 0), (), 0, 2, 0) == 14
    assert cells_of((NATS, 0, 0, EXCEPT, 0, 0), (), 1, END - 1) == [END]
    assert cells_of((NATS, 0, 0), (), 0, END) == 12
    assert cells_of((NATS, 0, 0), (), 1, END) == 11
    # the second goes by the first part's number, not by its cell
    assert cells_of((POOL, 0, 2, BELOW, 2, 0, BELOW, 3, 0, DEP, 0, 2), (1, 0, 1, 2), 3, 4) == [0, 2]


def test_length_limits():
    cells = [0] * 65_536
    table = words_of([*doubled(UNIT, 16), (CONS, 16, 0)])
    assert cells_of(table, (), 16, 0) == cells
    assert cells_of(table, (), 16, 0, 65_535) == 14
    assert cells_of(table, (), 17, 0) == 14
    assert number_of(table, (), 16, cells) == ("number", 0)
    assert number_of(table, (), 16, cells[:-1]) == 15
    assert number_of(table, (), 17, cells) == 14
    assert number_of(table, (), 17, [*cells, 0]) == 14
    assert number_of((NATS, 0, 0), (), 0, [0] * ROOM) == 15
    # two cases of 40,000 cells make a row
    nodes = [*doubled(UNIT, 15), (CONS, 15, 12), (CONS, 16, 11), (CONS, 17, 10), (CONS, 18, 6)]
    row = write_row(words_of(nodes), (), 19, [0, 0], 80_000)
    assert row == (0, 0, 0, [0] * 80_000)
    assert read_row(words_of(nodes), (), 19, row[3], 2) == (0, 0, 0, [0, 0])


def test_reading_readings():
    assert number_of(shifts(200), (), 200, [0]) == 13
    assert number_of(shifts(199), (), 199, [198]) == 15
    assert number_of(shifts(199), (), 199, [199]) == ("number", 0)
    assert number_of(LISTS, (), LISTS_START, zeros(50)[:100]) == 13
    assert number_of(LISTS, (), LISTS_START, zeros(49)[:98]) == 15
    assert number_of((NATS, 0, 0), (), 0, [2**64 - 1]) == 16
    assert number_of((NATS, 0, 0), (), 0, [END, 0]) == 15
    assert number_of((NATS, 0, 0, EXCEPT, 0, 0), (), 1, [END]) == ("number", END - 1)
    # the removed case is met before the next part, which is too deep
    nodes = [*shifted(200), (EXCEPT, 0, 13), (CONS, 201, 200)]
    assert number_of(words_of(nodes), (), 202, [13]) == 15
    assert number_of(words_of(nodes), (), 202, [14]) == 13


def test_rows():
    assert read_row(LISTS, (), LISTS_START, [0, 0, 2], 1) == (15, 0, 1, [])
    assert read_row(LISTS, (), LISTS_START, [0, 0, 0, 0], 1) == (14, 0, 1, [])
    assert read_row(LISTS, (), LISTS_START, [0, 0, 0, 0], 2) == (0, 0, 0, [0, 0])
    assert read_row(LISTS, (), LISTS_START, [0, 0, *zeros(8)], 1) == (16, 0, 1, [])
    assert write_row(LISTS, (), LISTS_START, [], 0) == (0, 0, 0, [])
    assert read_row(LISTS, (), LISTS_START, [], 0) == (0, 0, 0, [])
    assert write_row(LISTS, (), 6, [], 0) == (11, 0, 0, [])
    assert read_row((99, 0, 0), (), 6, [], 0) == (2, 0, 0, [])
    assert write_row(LISTS, (), LISTS_START, [0, END], 2) == (12, 0, 1, [])
    assert write_row(LISTS, (), LISTS_START, [0, 0], 3) == (14, 0, 1, [])


def asked(table, start, cells, times):
    reading = reader(table, (), start, cells)
    return [next(reading) for _ in range(times)]


def test_reader():
    row = [1, 0, 0, 0, 0, 0, 1, 1, 0, 0]
    end = (0, 0, 0, 0, 0)
    items = [(0, 0, 1, 1, 4), (0, 0, 1, 0, 2), (0, 0, 1, 3, 4)]
    assert asked(LISTS, LISTS_START, row, 5) == [*items, end, end]
    assert asked(LISTS, LISTS_START, [0, 0, 2], 3) == [(0, 0, 1, 0, 2), (15, 0, 0, 0, 0), (15, 0, 0, 0, 0)]
    assert asked((NATS, 0, 0), 0, [END, 0], 2) == [(16, 0, 0, 0, 0), (16, 0, 0, 0, 0)]
    assert asked(LISTS, 6, [], 1) == [(11, 0, 0, 0, 0)]
    assert asked((NATS, 1, 0), 0, [], 1) == [(3, 0, 0, 0, 0)]


# ---- the lines of `calls` ----


def printed_for(data):
    return list(answers(data))


def test_lines():
    table = b"table\n1 0 0\n\n"
    for data, lines in (
        (b"", []),
        (b"check\n", ["unreadable"]),
        (table + b"check", ["unreadable"]),
        (table + b"check\n", ["accepted"]),
        (table + b"check \n", ["unreadable"]),
        (table + b"write 0 1 7\n", ["1 cells: 7"]),
        (table + b"write 0 0 7\n", ["refused 14 at 0"]),
        (table + b"write 0 70000 7\nwrite 0 70001 7\n", ["1 cells: 7", "unreadable"]),
        (table + b"read 0\nread 0 5\nread\n", ["refused 15 at 0", "number 5", "unreadable"]),
        (table + b"write-row 0 0\n", ["0 items, 0 cells:"]),
        (table + b"write-row 0 2 4 5\n", ["2 items, 2 cells: 4 5"]),
        (table + b"write-row 0 1 4 5\n", ["refused 14 at 0 item 1"]),
        (table + b"read-row 0 0\n", ["0 items, 0 cells:"]),
        (table + b"read-row 0 2 4 5\n", ["2 items, 2 cells: 4 5"]),
        (table + b"reader 0\n", ["end"]),
        (table + b"reader 0 4 5\n", ["number 4, 1 cells", "number 5, 1 cells", "end"]),
        (table + b"reader 1\n", ["refused 11 at 0"]),
        (b"table\n01 0 0\n\ncheck\n" + table + b"check\n", ["unreadable", "unreadable", "accepted"]),
        (b"table\n\n\ncheck\n", ["refused 1 at 0"]),
        (b"\n" * 4_194_305, ["unreadable"]),
    ):
        assert printed_for(data) == lines, data[:40]


# ---- laws ----


def test_every_number_of_small_tables():
    """Every number below the size is read back, no two numbers share their cells, none is the beginning of another."""
    random = Random(SEED)
    for _ in range(300):
        table, pool = accepted(random, random.randrange(1, 12))
        for start, size in enumerate(sizes(table, pool)):
            end = 60 if size == ENDLESS or size > 60 else size
            cases = [cells_of(table, pool, start, number) for number in range(end)]
            written = [case for case in cases if not isinstance(case, int)]
            for number, cells in enumerate(cases):
                if not isinstance(cells, int):
                    assert number_of(table, pool, start, cells) == ("number", number)
            assert not any(one == other[: len(one)] for one in written for other in written if one is not other)


def test_far_numbers():
    """Keeping a far number as a nearer one changes no answer."""
    random = Random(SEED)
    far = reference.FAR
    for _ in range(200):
        table, pool = accepted(random, random.randrange(3, 15))
        start = random.randrange(len(table) // WORDS_PER_NODE)
        grammar = survey(table, pool)[1]
        for bits in (61, 62, 63, 100):
            if grammar.sizes[start] != ENDLESS:
                continue
            try:
                cells = reference.case_cells(grammar, start, random.getrandbits(bits), ROOM)
            except reference.Refused:
                continue
            exact = number_of(table, pool, start, cells)
            reference.FAR = END + 200
            assert number_of(table, pool, start, cells) == exact
            reference.FAR = far


def every_path_back(ways, node):
    """Whether a path leads back, by following each path that meets no node twice."""

    def follow(here, met):
        return any(there == node or (there not in met and follow(there, met | {there})) for there in ways[here])

    return follow(node, {node})


def test_cycles():
    random = Random(SEED)
    for turn in range(600):
        table, pool = careless(random, random.randrange(3, 11), (ANY, GUARDED)[turn % 2])
        verdict, grammar = survey(table, pool)
        if grammar is None:
            continue
        nodes = range(len(grammar.nodes))
        unguarded = [reference.unguarded_steps(grammar, node) for node in nodes]
        every = [reference.steps(grammar, node) for node in nodes]
        loops = [node for node in nodes if every_path_back(unguarded, node)]
        excepts = [node for node in nodes if grammar.nodes[node][0] == EXCEPT and every_path_back(every, node)]
        assert verdict == ((9, loops[0]) if loops else (10, excepts[0]) if excepts else ACCEPTED)


def main():
    for name, test in list(globals().items()):
        if name.startswith("test_"):
            test()
    print("ok")


if __name__ == "__main__":
    main()
