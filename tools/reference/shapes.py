"""Accepted tables of chosen shapes, for the vectors of writing and reading.

A shape is (table, pool, start). Chains nest one kind to any depth; lengths makes cases of any number of cells.
"""

from grammars import CHAIN, CHAIN_START, LAST_WORD, LISTS, LISTS_START, words_of
from kinds import AGAIN, BELOW, CONS, DEP, EXCEPT, FIX, NATS, OR, POOL, SHIFT
from reference import LARGEST_SHIFT, LARGEST_SIZE, WORDS_PER_NODE

ROOT = 2**31  # the whole square root of 2^62

# ---- shapes from the documents, and others that try one rule ----

PRINTED = (
    (LISTS, (), LISTS_START),
    (LISTS, (), 2),
    (CHAIN, (), CHAIN_START),
    ((NATS, 0, 0, CONS, 0, 0), (), 1),
    ((BELOW, 2, 0, BELOW, 3, 0, CONS, 0, 1), (), 2),
    ((BELOW, 2, 0, BELOW, 2, 0, CONS, 0, 1), (), 2),
    ((BELOW, 2, 0, NATS, 0, 0, OR, 0, 1), (), 2),
    ((BELOW, 2, 0, BELOW, 3, 0, DEP, 0, 0), (1, 0), 2),
    ((NATS, 0, 0, EXCEPT, 0, 13), (), 1),
    ((NATS, 0, 0, EXCEPT, 0, 0), (), 1),
)

RULES = (
    # or: equal sizes, the first smaller, the second smaller, one and two endless
    ((BELOW, 5, 0, BELOW, 5, 0, OR, 0, 1), (), 2),
    ((BELOW, 2, 0, BELOW, 7, 0, OR, 0, 1), (), 2),
    ((BELOW, 7, 0, BELOW, 2, 0, OR, 0, 1), (), 2),
    ((NATS, 0, 0, BELOW, 3, 0, OR, 0, 1), (), 2),
    ((NATS, 0, 0, OR, 0, 0), (), 1),
    ((BELOW, LARGEST_SIZE // 2, 0, OR, 0, 0), (), 1),
    ((BELOW, LARGEST_SIZE - 1, 0, BELOW, 1, 0, OR, 0, 1), (), 2),
    ((BELOW, LARGEST_SIZE, 0, NATS, 0, 0, OR, 0, 1), (), 2),
    # cons: the smaller finite side fastest, equal sizes, one endless part
    ((BELOW, 7, 0, BELOW, 3, 0, CONS, 0, 1), (), 2),
    ((BELOW, 3, 0, BELOW, 7, 0, CONS, 0, 1), (), 2),
    ((BELOW, ROOT, 0, CONS, 0, 0), (), 1),
    ((BELOW, ROOT - 1, 0, BELOW, ROOT + 1, 0, CONS, 0, 1), (), 2),
    ((BELOW, LARGEST_SIZE, 0, BELOW, 1, 0, CONS, 0, 1), (), 2),
    ((BELOW, 10, 0, NATS, 0, 0, CONS, 0, 1), (), 2),
    ((NATS, 0, 0, BELOW, 10, 0, CONS, 0, 1), (), 2),
    ((BELOW, LARGEST_SIZE, 0, NATS, 0, 0, CONS, 0, 1), (), 2),
    ((NATS, 0, 0, CONS, 0, 0, CONS, 1, 1, CONS, 2, 2), (), 3),
    # dep: seconds finite, endless, repeated; a first part whose cells are not its numbers
    ((POOL, 0, 3, BELOW, 4, 0, BELOW, 1, 0, DEP, 0, 3), (9, 2, 0, 1, 2, 1), 3),
    ((BELOW, 3, 0, NATS, 0, 0, SHIFT, 1, 10, DEP, 0, 0), (1, 2, 1), 3),
    ((BELOW, 2, 0, SHIFT, 0, 5, NATS, 0, 0, CONS, 2, 2, DEP, 1, 0), (2, 3), 4),
    ((BELOW, 256, 0, BELOW, 3, 0, DEP, 0, 0), (1,) * 256, 2),
    ((BELOW, 4, 0, BELOW, LARGEST_SIZE // 4, 0, DEP, 0, 0), (1, 1, 1, 1), 2),
    # pool words at both ends of a word
    ((POOL, 0, 2), (LAST_WORD, 0), 0),
    ((POOL, 2, 3, POOL, 0, 3, OR, 0, 1), (5, 6, 7, 0, LAST_WORD), 2),
    # shifts
    ((BELOW, 3, 0, SHIFT, 0, LARGEST_SHIFT, SHIFT, 1, LARGEST_SHIFT), (), 2),
    ((BELOW, LARGEST_SIZE, 0, SHIFT, 0, LARGEST_SHIFT), (), 1),
    ((NATS, 0, 0, SHIFT, 0, 97, OR, 0, 1), (), 2),
    # excepts
    ((BELOW, 2, 0, EXCEPT, 0, 0), (), 1),
    ((BELOW, 2, 0, EXCEPT, 0, 1), (), 1),
    ((BELOW, LARGEST_SIZE, 0, EXCEPT, 0, LARGEST_SIZE - 1), (), 1),
    ((NATS, 0, 0, EXCEPT, 0, LARGEST_SIZE - 1), (), 1),
    ((NATS, 0, 0, EXCEPT, 0, 0, EXCEPT, 1, 0, EXCEPT, 2, LARGEST_SIZE - 1), (), 3),
    ((NATS, 0, 0, CONS, 0, 0, EXCEPT, 1, 42, OR, 2, 1), (), 3),
    ((*LISTS, EXCEPT, LISTS_START, 0, EXCEPT, 6, 3), (), 7),
    # recursion: trees, lists of lists, a list with an element of each sort, two fixes that name each other
    ((BELOW, 1, 0, AGAIN, 4, 0, CONS, 1, 1, OR, 0, 2, FIX, 3, 0), (), 4),
    ((NATS, 0, 0, AGAIN, 4, 0, CONS, 1, 1, OR, 0, 2, FIX, 3, 0), (), 4),
    ((*LISTS, AGAIN, 9, 0, CONS, LISTS_START, 6, OR, 0, 7, FIX, 8, 0), (), 9),
    ((BELOW, 2, 0, AGAIN, 5, 0, POOL, 0, 2, CONS, 2, 1, OR, 0, 3, FIX, 4, 0), (40, 41), 5),
    (
        (BELOW, 1, 0, AGAIN, 7, 0, AGAIN, 9, 0, CONS, 1, 2, OR, 0, 3)
        + (OR, 0, 1, OR, 5, 2, FIX, 4, 0, CONS, 7, 6, FIX, 8, 0),
        (),
        9,
    ),
    ((BELOW, 2, 0, NATS, 0, 0, AGAIN, 5, 0, DEP, 0, 0, OR, 0, 3, FIX, 4, 0), (1, 2), 5),
)


# ---- chains: node k stands k visits above node 0 ----


def chain(bottom, link, length):
    """A first node, and over it nodes that each name the one below; link(below) gives their words."""
    first = len(bottom)
    return words_of([*bottom, *(link(node - 1) for node in range(first, first + length))])


def shifted(count):
    """nats under so many shifts by one, as nodes: node k takes k + 1 visits."""
    return [(NATS, 0, 0), *((SHIFT, node, 1) for node in range(count))]


CHAIN_LENGTH = 202  # enough for a visit at depth 201


def chains():
    """(name, table, pool, offset): from node offset + k the walk goes k visits further down to a leaf."""
    nats, unit = [(NATS, 0, 0)], [(BELOW, 1, 0)]
    two = [(BELOW, 1, 0), (NATS, 0, 0)]
    return (
        ("fix", chain(nats, lambda below: (FIX, below, 0), CHAIN_LENGTH), (), 0),
        ("shift", chain(nats, lambda below: (SHIFT, below, 1), CHAIN_LENGTH), (), 0),
        ("far shift", chain([(BELOW, 9, 0)], lambda below: (SHIFT, below, LARGEST_SHIFT), CHAIN_LENGTH), (), 0),
        ("except", chain(nats, lambda below: (EXCEPT, below, 0), CHAIN_LENGTH), (), 0),
        ("last except", chain(nats, lambda below: (EXCEPT, below, LARGEST_SIZE - 1), CHAIN_LENGTH), (), 0),
        ("finite except", chain([(BELOW, 300, 0)], lambda below: (EXCEPT, below, 50), CHAIN_LENGTH), (), 0),
        ("second of or", chain(two, lambda below: (OR, 0, below), CHAIN_LENGTH), (), 1),
        ("first of or", chain(unit, lambda below: (OR, below, 0), CHAIN_LENGTH), (), 0),
        ("first of cons", chain(two, lambda below: (CONS, below, 0), CHAIN_LENGTH), (), 1),
        ("second of cons", chain(two, lambda below: (CONS, 0, below), CHAIN_LENGTH), (), 1),
        ("second of dep", chain(two, lambda below: (DEP, 0, below), CHAIN_LENGTH), tuple(range(CHAIN_LENGTH + 2)), 1),
    )


# Endless grammars to stand under many excepts.
UNDER_EXCEPTS = (
    [(NATS, 0, 0)],
    [(NATS, 0, 0), (CONS, 0, 0)],
    [(NATS, 0, 0), (OR, 0, 0)],
    [(BELOW, 3, 0), (NATS, 0, 0), (OR, 0, 1)],
    [(BELOW, 3, 0), (NATS, 0, 0), (CONS, 0, 1)],
    [(NATS, 0, 0), (BELOW, 3, 0), (CONS, 0, 1)],
    [(BELOW, 2, 0), (NATS, 0, 0), (DEP, 0, 0)],
)
UNDER_EXCEPTS_POOL = (1, 1)


def under_excepts(removed, counts):
    """(table, pool, start): so many excepts over each of the endless grammars."""
    for bottom in UNDER_EXCEPTS:
        for count in counts:
            table = chain(bottom, lambda below: (EXCEPT, below, removed), count)
            yield table, UNDER_EXCEPTS_POOL, last_node(table)


def with_fixes_above(table, start, count):
    """The table with more fixes over the start: start + k fixes stands k visits higher."""
    nodes = last_node(table) + 1
    above = [(FIX, start if place == 0 else nodes + place - 1, 0) for place in range(count)]
    return (*table, *words_of(above))


UNIT_LISTS = (BELOW, 1, 0, BELOW, 1, 0, AGAIN, 5, 0, CONS, 1, 2, OR, 0, 3, FIX, 4, 0)


def recursions():
    """(table, starts, numbers) by which lists and chains of ones reach depths 196 to 204."""
    fixes = 4
    lists = with_fixes_above(UNIT_LISTS, LISTS_START, fixes)
    ones = with_fixes_above(CHAIN, CHAIN_START, fixes)
    return (
        (lists, (LISTS_START, *range(6, 6 + fixes), 2), (48, 49, 50)),
        (ones, (CHAIN_START, *range(4, 4 + fixes), 1), (64, 65, 66, 67)),
    )


# ---- lengths ----


def doubled(leaf, times):
    """Node k has 2^k cells, each of the leaf."""
    return [leaf, *((CONS, node, node) for node in range(times))]


def of_length(leaf, cells):
    """A table whose last node has exactly so many cells: doubled nodes joined by the bits of the length."""
    bits = cells.bit_length()
    nodes = doubled(leaf, bits - 1)
    last = bits - 1
    for bit in reversed(range(bits - 1)):
        if cells >> bit & 1:
            nodes.append((CONS, last, bit))
            last = len(nodes) - 1
    return words_of(nodes)


def last_node(table):
    return len(table) // WORDS_PER_NODE - 1
