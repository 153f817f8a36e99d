"""Prints an input of the program `calls` that tries the check of tables: python3 make_check.py [SEED]

Each table is followed by `check`. The sections follow the rules: the tables that documents print, lengths, each kind's
row with words at its edges, sizes, several faults at once, cycles, random tables, lines that cannot be read.
"""

from random import Random

from answer import MOST_POOL_WORDS as MOST_POOL_WORDS_READ
from answer import MOST_TABLE_WORDS as MOST_TABLE_WORDS_READ
from grammars import (
    ANY,
    CHAIN,
    EDGE_WORDS,
    GUARDED,
    LAST_WORD,
    LISTS,
    SOUND,
    accepted,
    careless,
    mutated,
    words_of,
)
from kinds import AGAIN, BELOW, CONS, DEP, EXCEPT, FIX, NATS, OR, POOL, SHIFT
from reference import LARGEST_SHIFT, LARGEST_SIZE, MOST_FIRSTS_OF_DEP, MOST_NODES, MOST_POOL_WORDS, nodes_of
from shapes import ROOT
from vectors import Vectors, print_made

DEFAULT_SEED = 3
ACCEPTED_TABLES = 900
CARELESS_TABLES = 700
MUTATED_TABLES = 1_500
EDGE_TABLES = 2_200
SMALL_CYCLES = 800

# ---- tables that documents print ----


def printed(vectors):
    for table in (
        LISTS,
        CHAIN,
        (NATS, 0, 0, NATS, 0, 0, CONS, 0, 1),
        (NATS, 0, 0, CONS, 0, 0),
        (BELOW, 2, 0, BELOW, 3, 0, CONS, 0, 1),
        (BELOW, 2, 0, BELOW, 2, 0, CONS, 0, 1),
        (BELOW, 2, 0, NATS, 0, 0, OR, 0, 1),
        (NATS, 0, 0, EXCEPT, 0, 13),
        (AGAIN, 1, 0, FIX, 0, 0),
        (BELOW, 0, 0, 99, 0, 0),
        (BELOW, 1, 0, AGAIN, 5, 0, EXCEPT, 1, 0, OR, 0, 2, AGAIN, 7, 0, FIX, 3, 0, CONS, 4, 4, FIX, 6, 0),
        (BELOW, 1, 0, AGAIN, 5, 0, EXCEPT, 1, 0, OR, 0, 2, BELOW, 7, 0, FIX, 3, 0),
        (AGAIN, 2, 0, OR, 0, 0, FIX, 1, 0),
        (NATS, 0, 0, AGAIN, 2, 0, FIX, 0, 9),
        (AGAIN, 2, 0, AGAIN, 2, 0, FIX, 1, 0),
        (NATS, 0, 0, FIX, 0, 0),
        (NATS, 0, 0, EXCEPT, 0, 0),
        (BELOW, 1, 0, EXCEPT, 0, 0),
        (BELOW, 1, 0, EXCEPT, 0, 1),
        (BELOW, 1, 0, EXCEPT, 0, LAST_WORD),
        # an except that leads to a cycle without being on it
        (*LISTS, EXCEPT, 5, 0),
        # nodes that nothing reaches
        (*LISTS, BELOW, 0, 0),
        (*LISTS, AGAIN, 7, 0, FIX, 6, 0),
        # the list grammar with its parts exchanged: decoding would never stop
        (BELOW, 1, 0, NATS, 0, 0, AGAIN, 5, 0, CONS, 1, 2, OR, 3, 0, FIX, 4, 0),
    ):
        vectors.checked(table)
    vectors.checked((POOL, 0, 1), (5,))
    vectors.checked((BELOW, 2, 0, BELOW, 3, 0, DEP, 0, 0), (1, 0))
    vectors.checked((BELOW, 2, 0, BELOW, 3, 0, DEP, 0, 0), (1, 1))
    vectors.checked((BELOW, 2, 0, BELOW, 3, 0, DEP, 0, 0, DEP, 0, 1, POOL, 0, 2), (1, 0, 0))


# ---- lengths ----


def lengths(vectors):
    nats = (NATS, 0, 0)
    for count in (1, 2, 85, 128, 255, 256, 257, 258, 341):
        vectors.checked(nats * count)
    for count in (0, 1, 2, 4, 5, 7, 766, 767, 769, 770, MOST_TABLE_WORDS_READ - 1, MOST_TABLE_WORDS_READ):
        vectors.checked((nats * 342)[:count])
    # a length fault comes before a fault in any node
    vectors.checked((99, 0, 0, 1))
    vectors.checked((BELOW, 0, 0) * 257)
    vectors.checked((BELOW, 0, 0) * 256)
    vectors.checked((BELOW, 1, 0) * 255 + (BELOW, 0, 0))
    vectors.checked((), (1, 2, 3))
    whole = tuple(range(MOST_POOL_WORDS))
    vectors.checked((POOL, 0, MOST_POOL_WORDS), whole)
    vectors.checked((POOL, 1, MOST_POOL_WORDS), whole)
    vectors.checked((POOL, 0, MOST_POOL_WORDS), whole[:-1])
    vectors.checked((POOL, 0, MOST_POOL_WORDS), (*whole[:-1], 0))
    vectors.checked((POOL, 0, MOST_POOL_WORDS - 1, POOL, 1, MOST_POOL_WORDS - 1), (*whole[:-1], 0))
    vectors.checked((POOL, 0, MOST_POOL_WORDS), (*whole[:-1], whole[-2]))
    vectors.checked((POOL, 0, MOST_POOL_WORDS, POOL, MOST_POOL_WORDS - 1, 1, POOL, MOST_POOL_WORDS, 1), whole)
    vectors.checked((NATS, 0, 0), (0,) * MOST_POOL_WORDS)
    for count in (MOST_POOL_WORDS + 1, MOST_POOL_WORDS_READ):
        vectors.checked((NATS, 0, 0), (0,) * count)
        vectors.checked((POOL, 0, MOST_POOL_WORDS + 1), (0,) * count)
        vectors.checked((99, 0, 0), (0,) * count)
    vectors.checked((NATS, 0), (0,) * (MOST_POOL_WORDS + 1))


# ---- each kind's row ----

# A prefix with a part of every sort: node 8 is the one that is tried.
PARTS = (BELOW, 1, 0, BELOW, 3, 0, NATS, 0, 0, POOL, 2, 2, BELOW, LARGEST_SIZE, 0, SHIFT, 2, 7, CONS, 1, 1, OR, 0, 2)
PREFIX = nodes_of(PARTS)
TRIED = len(PREFIX)
SUFFIX = ((FIX, 2, 0), (NATS, 0, 0))
EDGE_POOL = (1, 3, 0, 2, 7, 7, 8, 5, 5, 1, 9, 6)
ALL_KINDS = (*range(10), *range(10), 10, 11, LAST_WORD)


def edges(vectors, random):
    """One node with words at the edges of every check, sometimes followed by another fault."""
    tried = sorted({(kind, a, b) for kind in ALL_KINDS for a in EDGE_WORDS for b in EDGE_WORDS if kind < 10 or a < 2})
    for node in random.sample(tried, EDGE_TABLES):
        suffix = SUFFIX if random.random() < 0.8 else ((FIX, 2, 1), (99, 0, 0))
        vectors.checked(words_of((*PREFIX, node, *suffix)), EDGE_POOL)


def pool_edges(vectors):
    """Ranges of the pool at its end, with sums that pass 2^64, and repeats near and far."""
    pool = (4, 5, 6, 4, LAST_WORD, 0, 0)
    for a in (*range(9), LAST_WORD - 1, LAST_WORD, 2**63, 2**32):
        for b in (*range(9), MOST_POOL_WORDS, MOST_POOL_WORDS + 1, 2**63, LAST_WORD):
            vectors.checked((POOL, a, b), pool)
    for words in ((), (0,), (LAST_WORD, LAST_WORD), (1, 2, 1), (1, 1, 2), (2, 1, 1), (1, 2, 3, 4, 5, 6, 7, 1)):
        vectors.checked((POOL, 0, len(words)), words)


def dep_edges(vectors):
    """A dep's first of 256 and 257, its seconds at the pool's end, not lower, and mixed."""
    base = (BELOW, 2, 0, BELOW, 3, 0, NATS, 0, 0, BELOW, 1, 0)
    for place in (*range(6), 2**32, LARGEST_SIZE, LAST_WORD - 2, LAST_WORD - 1, LAST_WORD):
        for first in range(6):
            vectors.checked((*base, DEP, first, place), (0, 1, 1, 3))
    own = 4
    seconds = (0, 2, 3, own, own + 1, LAST_WORD)
    for one in seconds:
        for other in seconds:
            vectors.checked((*base, DEP, 0, 1, NATS, 0, 0), (own, one, other, own))
            vectors.checked((*base, DEP, 1, 0, NATS, 0, 0), (one, 2, other))
    for count in (MOST_FIRSTS_OF_DEP - 1, MOST_FIRSTS_OF_DEP, MOST_FIRSTS_OF_DEP + 1):
        for pool in ((0,) * 255, (0,) * 256, (0,) * 257, (1,) * 256, (2,) + (1,) * 255, (1,) * 255 + (0,)):
            vectors.checked((BELOW, count, 0, NATS, 0, 0, DEP, 0, 0), pool)
    # finite seconds that pass 2^62 together beside an endless one: 7 comes before 8
    for seconds in ((1, 1, 2), (2, 1, 1), (1, 2, 1), (1, 1, 1), (1, 1, 3), (2, 2, 2)):
        vectors.checked((BELOW, 3, 0, BELOW, LARGEST_SIZE, 0, NATS, 0, 0, DEP, 0, 0), seconds)
    # the size of a first part that isn't a below
    vectors.checked((BELOW, 2, 0, BELOW, 3, 0, CONS, 0, 1, DEP, 2, 0), (0, 0, 1, 1, 2, 2))
    vectors.checked((BELOW, 2, 0, BELOW, 3, 0, OR, 0, 1, DEP, 2, 0), (0, 0, 1, 1, 2))
    vectors.checked((BELOW, 2, 0, EXCEPT, 0, 1, DEP, 1, 0), (0,))
    vectors.checked((BELOW, 16, 0, CONS, 0, 0, DEP, 1, 0), (0,) * 256)
    vectors.checked((BELOW, 16, 0, CONS, 0, 0, OR, 1, 0, DEP, 2, 0), (0,) * 272)


# ---- sizes ----

HALF = LARGEST_SIZE // 2


def sums(vectors):
    for s, t in (
        (HALF, HALF - 1),
        (HALF, HALF),
        (HALF, HALF + 1),
        (HALF + 1, HALF),
        (LARGEST_SIZE - 1, 1),
        (LARGEST_SIZE, 1),
        (1, LARGEST_SIZE - 1),
        (1, LARGEST_SIZE),
        (LARGEST_SIZE - 2, 1),
        (LARGEST_SIZE, LARGEST_SIZE),
    ):
        two = (BELOW, s, 0, BELOW, t, 0)
        vectors.checked((*two, OR, 0, 1))
        vectors.checked((*two, OR, 0, 1, OR, 2, 2))
        vectors.checked((*two, BELOW, 2, 0, DEP, 2, 0), (0, 1))
        vectors.checked((*two, BELOW, 2, 0, DEP, 2, 0, OR, 3, 0), (1, 0))
        vectors.checked((*two, BELOW, 2, 0, DEP, 2, 0, EXCEPT, 3, s + t - 1), (1, 0))
        vectors.checked((*two, NATS, 0, 0, OR, 0, 2, OR, 2, 1, OR, 3, 4, FIX, 5, 0))


def products(vectors):
    for i, j in (
        (ROOT, ROOT),
        (ROOT, ROOT - 1),
        (ROOT, ROOT + 1),
        (ROOT - 1, ROOT + 1),  # 2^62 - 1
        (3, LARGEST_SIZE // 3),  # 2^62 - 1
        (5, (LARGEST_SIZE + 1) // 5),  # 2^62 + 1
        (2, HALF),
        (2, HALF + 1),
        (1, LARGEST_SIZE),
        (LARGEST_SIZE, 1),
        (2, LARGEST_SIZE),
        (4, LARGEST_SIZE),  # 2^64
        (LARGEST_SIZE, 4),
        (5, LARGEST_SIZE),
        (2**32, 2**32),  # 2^64
        (2**32 + 1, 2**32),
        (2**33, 2**33),
        (LARGEST_SIZE, LARGEST_SIZE),  # 2^124
        (LARGEST_SIZE - 1, LARGEST_SIZE - 1),
        (6_700_417, 688_268_952_577),
        (2**62 - 57, 2),
    ):
        vectors.checked((BELOW, i, 0, BELOW, j, 0, CONS, 0, 1))
        vectors.checked((BELOW, i, 0, BELOW, j, 0, CONS, 1, 0, CONS, 2, 2))
        vectors.checked((BELOW, i, 0, NATS, 0, 0, CONS, 0, 1, CONS, 1, 0, CONS, 2, 3, FIX, 4, 0))


def dep_sums(vectors):
    """Sums of up to 256 seconds, which pass 2^64 and come back to 0 in a word."""
    for count in (1, 2, 3, 4, 5, 64, 255, 256):
        for size in (LARGEST_SIZE // count, LARGEST_SIZE // count + 1, LARGEST_SIZE // count - 1, LARGEST_SIZE):
            if 1 <= size <= LARGEST_SIZE:
                table = (BELOW, count, 0, BELOW, size, 0, DEP, 0, 0)
                vectors.checked(table, (1,) * count)
    # were the first part's size multiplied in, these would be too large, or would be refused lower down
    vectors.checked((BELOW, 2, 0, BELOW, HALF, 0, DEP, 0, 0, EXCEPT, 2, LARGEST_SIZE - 1), (1, 1))
    vectors.checked((BELOW, 2, 0, BELOW, 3, 0, DEP, 0, 0, EXCEPT, 2, 5), (1, 1))
    vectors.checked((BELOW, 2, 0, BELOW, 3, 0, DEP, 0, 0, EXCEPT, 2, 6), (1, 1))
    vectors.checked((BELOW, 2, 0, BELOW, 3, 0, DEP, 0, 0, EXCEPT, 2, 4), (1, 0))
    vectors.checked((BELOW, 2, 0, BELOW, 3, 0, DEP, 0, 0, EXCEPT, 2, 5), (1, 0))
    vectors.checked((BELOW, 2, 0, NATS, 0, 0, DEP, 0, 0, EXCEPT, 2, LARGEST_SIZE - 1, FIX, 3, 0), (1, 1))


def excepts(vectors):
    for size in (1, 2, 3, LARGEST_SIZE - 1, LARGEST_SIZE):
        for b in (0, 1, 2, 3, LARGEST_SIZE - 2, LARGEST_SIZE - 1, LARGEST_SIZE, LAST_WORD):
            vectors.checked((BELOW, size, 0, EXCEPT, 0, b))
            vectors.checked((BELOW, size, 0, EXCEPT, 0, b, EXCEPT, 1, 0))
            vectors.checked((BELOW, size, 0, EXCEPT, 0, b, EXCEPT, 1, size - 2 if size > 1 else 0))
    for b in (0, LARGEST_SIZE - 1, LARGEST_SIZE, LARGEST_SIZE + 1, LAST_WORD):
        vectors.checked((NATS, 0, 0, EXCEPT, 0, b, EXCEPT, 1, b, FIX, 2, 0))
    # one less each time, down to a size of 1
    for count in (2, 10, 200):
        vectors.checked((BELOW, count, 0) + words_of((EXCEPT, node, 0) for node in range(count - 1)))
        vectors.checked((BELOW, count, 0) + words_of((EXCEPT, node, 0) for node in range(count)))


# ---- several faults at once ----

# Faulty nodes over PREFIX and EDGE_POOL; OWN stands for the node's own number, ABOVE for the one after it.
OWN, ABOVE = "own", "above"
FAULTS = (
    (10, 0, 0),
    (LAST_WORD, LAST_WORD, LAST_WORD),
    (BELOW, 1, 1),
    (BELOW, 0, 1),
    (BELOW, 0, 0),
    (BELOW, LARGEST_SIZE + 1, 0),
    (NATS, 1, 0),
    (NATS, 0, 1),
    (POOL, 0, 0),
    (POOL, 11, 2),
    (POOL, LAST_WORD, 1),
    (POOL, 4, 2),
    (SHIFT, OWN, LARGEST_SHIFT + 1),
    (SHIFT, 3, LARGEST_SHIFT + 1),
    (SHIFT, 3, LARGEST_SHIFT),
    (SHIFT, 6, 1),
    (OR, OWN, 4),
    (OR, 4, OWN),
    (OR, 4, 0),
    (CONS, ABOVE, 4),
    (CONS, 4, LAST_WORD),
    (CONS, 4, 1),
    (CONS, 4, 4),
    (DEP, OWN, 99),
    (DEP, 2, 99),
    (DEP, 4, 0),
    (DEP, 1, 10),
    (DEP, 1, 8),
    (DEP, 1, 1),
    (EXCEPT, OWN, LAST_WORD),
    (EXCEPT, 0, LAST_WORD),
    (EXCEPT, 1, 3),
    (EXCEPT, 2, LARGEST_SIZE),
    (FIX, OWN, 1),
    (FIX, OWN, 0),
    (FIX, 1, 0),
    (AGAIN, OWN, 1),
    (AGAIN, OWN, 0),
    (AGAIN, ABOVE, 0),
    (AGAIN, 0, 0),
    (AGAIN, LAST_WORD, 0),
)
SOUND_NODE = (OR, 1, 2)


def placed(fault, node):
    return tuple({OWN: node, ABOVE: node + 1}.get(word, word) for word in fault)


def pairs_of_faults(vectors, random):
    """Two faults in one table: the lower node is named."""
    for one in FAULTS:
        for other in FAULTS:
            between = random.randrange(3)
            nodes = [*PREFIX, placed(one, TRIED), *[SOUND_NODE] * between]
            nodes.append(placed(other, len(nodes)))
            vectors.checked(words_of(nodes), EDGE_POOL)


def faults_at_ends(vectors):
    """Each fault right after the prefix, at the last node of a small table, and at node 255."""
    for fault in FAULTS:
        for count in (0, 3):
            nodes = [*PREFIX, *[SOUND_NODE] * count]
            vectors.checked(words_of([*nodes, placed(fault, len(nodes)), *SUFFIX]), EDGE_POOL)
            vectors.checked(words_of([*nodes, placed(fault, len(nodes))]), EDGE_POOL)
        # node 0, where nothing is lower
        vectors.checked(placed(fault, 0), EDGE_POOL)
        vectors.checked((*placed(fault, 0), FIX, 0, 0), EDGE_POOL)
    for fault in FAULTS[::2]:
        nodes = [*PREFIX, *[SOUND_NODE] * (MOST_NODES - 1 - len(PREFIX))]
        vectors.checked(words_of([*nodes, placed(fault, len(nodes))]), EDGE_POOL)


def faults_and_cycles(vectors):
    """A fault in a node comes before any cycle, wherever both stand."""
    unguarded = ((AGAIN, 1, 0), (FIX, 0, 0))
    for fault in FAULTS:
        vectors.checked(words_of([*unguarded, (NATS, 0, 0), placed(fault, 3)]), EDGE_POOL)


# ---- cycles ----


def chains(vectors):
    """Cycles through the whole of a long table, with and without an or's second part on the way."""
    last = MOST_NODES - 1
    for length in (3, 10, last):
        for middle in sorted({1, 2, length // 2, length - 1}):
            for node in ((OR, 0, middle - 1), (OR, middle - 1, 0), (EXCEPT, middle - 1, 0), (CONS, middle - 1, 0)):
                nodes = [(AGAIN, length, 0)]
                nodes += [(CONS, here - 1, here - 1) for here in range(1, length)]
                nodes[middle] = node
                vectors.checked(words_of([*nodes, (FIX, length - 1, 0)]))
    # every fix inside another, all agains at the bottom
    for count in (2, 5, 80):
        agains = [(AGAIN, 3 * count - 1 - 2 * place, 0) for place in range(count)]
        nodes = [(BELOW, 1, 0), *agains]
        agains_end = len(nodes)
        body = 0
        for place in range(count):
            nodes.append((OR, body, 1 + place))
            nodes.append((FIX, len(nodes) - 1, 0))
            body = len(nodes) - 1
        fixes = range(agains_end + 1, len(nodes), 2)
        for targets in (list(fixes), list(reversed(fixes)), [fixes[-1]] * count, [fixes[0]] * count):
            renamed = [(AGAIN, target, 0) for target in targets]
            vectors.checked(words_of([nodes[0], *renamed, *nodes[agains_end:]]))
            swapped = [(OR, b, a) if kind == OR else (kind, a, b) for kind, a, b in nodes[agains_end:]]
            vectors.checked(words_of([nodes[0], *renamed, *swapped]))


def dep_cycles(vectors):
    """Cycles through one of a dep's seconds, guarded or not, with an except above or below it."""
    for seconds in ((1, 2), (2, 1), (2, 2), (1, 1)):
        for body in ((OR, 0, 3), (OR, 3, 0), (FIX, 3, 0), (OR, 1, 3), (EXCEPT, 3, 0)):
            vectors.checked((BELOW, 2, 0, NATS, 0, 0, AGAIN, 5, 0, DEP, 0, 0, *body, FIX, 4, 0), seconds)
            vectors.checked((BELOW, 2, 0, NATS, 0, 0, AGAIN, 6, 0, DEP, 0, 0, *body, OR, 1, 4, FIX, 5, 0), seconds)
            vectors.checked((BELOW, 2, 0, NATS, 0, 0, AGAIN, 5, 0, DEP, 0, 0, *body, FIX, 3, 0), seconds)


def small_cycles(vectors, random):
    """Small tables of two fixes with everything above drawn at random: cycles inside and beside each other."""
    for turn in range(SMALL_CYCLES):
        count = random.randrange(6, 12)
        first = random.randrange(4, count - 1)
        second = random.randrange(first + 1, count)
        guarded = turn % 2 == 0
        nodes = [small_node(random, node, (first, second), guarded) for node in range(count)]
        vectors.checked(words_of(nodes))


def small_node(random, node, fixes, guarded):
    """A node that is endless, but for node 0, so that a fix may stand over any other.
    guarded: each fix stands over an or with node 0 first, so that no cycle goes unguarded."""
    # the node just below is likelier, so that cycles grow long
    lower = random.choice((node - 1, random.randrange(1, node))) if node > 1 else 0
    other = random.randrange(node) if node > 0 else 0
    agains = [fix for fix in fixes if fix > node]
    if node == 0:
        return (BELOW, 1, 0)
    if node in fixes:
        return (FIX, node - 1 if guarded else lower, 0)
    if guarded and node + 1 in fixes:
        return (OR, 0, lower)
    if agains and (node == 1 or random.random() < 0.3):
        return (AGAIN, random.choice(agains), 0)
    if node == 1:
        return (NATS, 0, 0)
    kind = random.choice((OR, CONS, EXCEPT) if guarded else (OR, OR, CONS, EXCEPT))
    if kind == EXCEPT:
        return (EXCEPT, lower, random.randrange(3))
    return (kind, other, lower) if random.random() < 0.7 else (kind, lower, other)


# ---- random tables ----


def random_count(random):
    return random.choice((random.randrange(1, 6), random.randrange(3, 14), random.randrange(6, 30)))


def random_tables(vectors, random):
    for _ in range(ACCEPTED_TABLES):
        vectors.checked(*accepted(random, random_count(random)))
    for _ in range(4):
        vectors.checked(*accepted(random, random.randrange(200, 250)))
    for care in (ANY, GUARDED, GUARDED):
        for _ in range(CARELESS_TABLES // 3):
            vectors.checked(*careless(random, random_count(random) + 2, care))
    for turn in range(MUTATED_TABLES):
        care = (SOUND, SOUND, GUARDED)[turn % 3]
        count = random_count(random)
        sound = accepted(random, count) if care == SOUND else careless(random, count + 2, care)
        vectors.checked(*mutated(random, *sound))


# ---- lines that cannot be read ----

NO_CALLS = (
    "",
    " ",
    "check ",
    " check",
    "check 0",
    "checks",
    "Check",
    "chec",
    "check\r",
    "check\t",
    "check check",
    "table ",
    "tables",
    "0",
    "0 1 0",
    "unreadable",
    "-",
)
UNREADABLE_WORDS = (
    "00 1 0",
    "0 01 0",
    "0  1 0",
    " 0 1 0",
    "0 1 0 ",
    "+0 1 0",
    "0 -1 0",
    "0 1 0\r",
    "0\t1 0",
    "0,1,0",
    "0 1 x",
    "0 0x1 0",
    "0 18446744073709551616 0",
    "0 100000000000000000000 0",
    "0 99999999999999999999999999999999999999999 0",
    "table",
    "check",
)


def raw_table(vectors, table_line, pool_line):
    vectors.put(("table", table_line, pool_line, "check", "check"))


def before_any_table(vectors):
    vectors.put(("check", "", "tabl", "0 1 0", "check"))


def unreadable(vectors):
    for line in NO_CALLS:
        vectors.checked(LISTS)
        vectors.line(line)
        vectors.call("check")  # the table still stands
    for line in UNREADABLE_WORDS:
        raw_table(vectors, line, "")
        raw_table(vectors, "0 1 0", line)
        raw_table(vectors, line, line)
        raw_table(vectors, "1 0 0", "18446744073709551615")
    too_many_words = " ".join(["1"] * (MOST_TABLE_WORDS_READ + 1))
    too_many_pool_words = " ".join(["1"] * (MOST_POOL_WORDS_READ + 1))
    raw_table(vectors, too_many_words, "")
    raw_table(vectors, "1 0 0", too_many_pool_words)
    raw_table(vectors, "1 0 0", "")
    # a table whose second line never comes
    vectors.put(("table", "1 0 0"))


def make(seed):
    random = Random(seed)
    vectors = Vectors()
    before_any_table(vectors)
    printed(vectors)
    lengths(vectors)
    edges(vectors, random)
    pool_edges(vectors)
    dep_edges(vectors)
    sums(vectors)
    products(vectors)
    dep_sums(vectors)
    excepts(vectors)
    pairs_of_faults(vectors, random)
    faults_at_ends(vectors)
    faults_and_cycles(vectors)
    chains(vectors)
    dep_cycles(vectors)
    small_cycles(vectors, random)
    random_tables(vectors, random)
    unreadable(vectors)
    return vectors


if __name__ == "__main__":
    print_made(make, DEFAULT_SEED)
