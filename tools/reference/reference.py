"""The rules of document 01 in Python, with whole numbers of any length and the plainest algorithms.

check(table, pool)                            the verdict: (refusal, node), (0, 0) for an accepted table
sizes(table, pool)                            the sizes of an accepted table's nodes
write(table, pool, start, number, room)       (refusal, node, cells)
read(table, pool, start, cells)               (refusal, node, number)
write_row(table, pool, start, numbers, room)  (refusal, node, item, cells)
read_row(table, pool, start, cells, room)     (refusal, node, item, numbers)
reader(table, pool, start, cells)             a generator of (refusal, node, items, number, cells used), one per ask

Sentences in quotation marks are document 01's. Every answer in the vectors comes from this file.
"""

import math
import sys
from functools import lru_cache
from typing import NamedTuple

from kinds import AGAIN, BELOW, CONS, DEP, EXCEPT, FIX, NATS, OR, POOL, SHIFT

sys.setrecursionlimit(10_000)  # a walk calls itself to depth 201; the rest is slack

# Refusals, by the numbers of "Limits and refusal numbers".
DONE = 0
LENGTH = 1
KIND = 2
SPARE_WORD = 3
REFERENCE = 4
RANGE = 5
REPEAT = 6
UNSUITED_PART = 7
SIZE = 8
UNGUARDED = 9
EXCEPT_ON_CYCLE = 10
NO_START = 11
NUMBER_TOO_LARGE = 12
TOO_DEEP = 13
NO_ROOM = 14
NOT_A_CASE = 15
CASE_NUMBER_TOO_LARGE = 16

WORDS_PER_NODE = 3
MOST_NODES = 256
MOST_POOL_WORDS = 4_096
MOST_FIRSTS_OF_DEP = 256
LARGEST_SHIFT = 2**32
LARGEST_SIZE = 2**62
NUMBERS_END = 2**62  # "Numbers asked for are below 2^62"
DEEPEST = 200
MOST_CELLS = 65_536

ENDLESS = "endless"

# "One constant table says which of a and b each kind uses; a word not used is zero."
USED = {
    BELOW: (True, False),
    NATS: (False, False),
    POOL: (True, True),
    SHIFT: (True, True),
    OR: (True, True),
    CONS: (True, True),
    DEP: (True, True),
    EXCEPT: (True, True),
    FIX: (True, False),
    AGAIN: (True, False),
}


# ---- sizes ----
# "Endless plus, or times, anything is endless; endless less one is endless."


def plus(s, t):
    return ENDLESS if ENDLESS in (s, t) else s + t


def times(s, t):
    return ENDLESS if ENDLESS in (s, t) else s * t


def less_one(s):
    return ENDLESS if s == ENDLESS else s - 1


def is_finite(s):
    return s != ENDLESS


def not_below(number, size):
    return is_finite(size) and number >= size


def fits(size):
    """"(8) is given when a finite size passes 2^62." """
    return not is_finite(size) or size <= LARGEST_SIZE


# ---- the rows of the table of kinds ----
# Each row gives (refusal, size); the size counts only where the refusal is 0.
# `known` holds the sizes of the lower nodes; "Lower" means a node number below the node's own.


def refuse(refusal):
    return refusal, None


def row_below(nodes, pool, known, node, a, b):
    if not 1 <= a <= LARGEST_SIZE:
        return refuse(RANGE)
    return DONE, a


def row_nats(nodes, pool, known, node, a, b):
    return DONE, ENDLESS


def row_pool(nodes, pool, known, node, a, b):
    # "1 <= b <= 4,096 and a+b within the pool (5); words all different (6)"
    if not (1 <= b <= MOST_POOL_WORDS and a + b <= len(pool)):
        return refuse(RANGE)
    words = pool[a : a + b]
    if len(set(words)) != len(words):
        return refuse(REPEAT)
    return DONE, b


def row_shift(nodes, pool, known, node, a, b):
    # "a lower (4); k <= 2^32 (5); node a of kind 0, 1 or 3 (7)"
    if not a < node:
        return refuse(REFERENCE)
    if not b <= LARGEST_SHIFT:
        return refuse(RANGE)
    if nodes[a][0] not in (BELOW, NATS, SHIFT):
        return refuse(UNSUITED_PART)
    return DONE, known[a]


def row_of_two_parts(known, node, a, b, join):
    # "both lower (4); size (8)"
    if not (a < node and b < node):
        return refuse(REFERENCE)
    size = join(known[a], known[b])
    return (DONE, size) if fits(size) else refuse(SIZE)


def row_or(nodes, pool, known, node, a, b):
    return row_of_two_parts(known, node, a, b, plus)


def row_cons(nodes, pool, known, node, a, b):
    return row_of_two_parts(known, node, a, b, times)


def row_dep(nodes, pool, known, node, a, b):
    # "a lower (4); its size m finite, at most 256 (7); b+m within the pool (5); each of those m words a lower
    # node (4); all finite or all endless (7); size (8)"
    if not a < node:
        return refuse(REFERENCE)
    m = known[a]
    if not (is_finite(m) and m <= MOST_FIRSTS_OF_DEP):
        return refuse(UNSUITED_PART)
    if not b + m <= len(pool):
        return refuse(RANGE)
    seconds = pool[b : b + m]
    if not all(second < node for second in seconds):
        return refuse(REFERENCE)
    finite = [is_finite(known[second]) for second in seconds]
    if any(finite) and not all(finite):
        return refuse(UNSUITED_PART)
    # "the sum alone is right"
    size = known[seconds[0]]
    for second in seconds[1:]:
        size = plus(size, known[second])
    return (DONE, size) if fits(size) else refuse(SIZE)


def row_except(nodes, pool, known, node, a, b):
    # "a lower (4); size of a not 1 (7); b below that size and below 2^62 (5)"
    if not a < node:
        return refuse(REFERENCE)
    if known[a] == 1:
        return refuse(UNSUITED_PART)
    if not_below(b, known[a]) or b >= NUMBERS_END:
        return refuse(RANGE)
    return DONE, less_one(known[a])


def row_fix(nodes, pool, known, node, a, b):
    # "a lower (4); body endless (7)"
    if not a < node:
        return refuse(REFERENCE)
    if is_finite(known[a]):
        return refuse(UNSUITED_PART)
    return DONE, ENDLESS


def row_again(nodes, pool, known, node, a, b):
    # "a above the own number, in the table, with kind word 8 (4)"
    if not (a > node and a < len(nodes) and nodes[a][0] == FIX):
        return refuse(REFERENCE)
    return DONE, ENDLESS


ROWS = {
    BELOW: row_below,
    NATS: row_nats,
    POOL: row_pool,
    SHIFT: row_shift,
    OR: row_or,
    CONS: row_cons,
    DEP: row_dep,
    EXCEPT: row_except,
    FIX: row_fix,
    AGAIN: row_again,
}


def check_node(nodes, pool, known, node):
    """"kind known (2) before the row above": gives (refusal, size)."""
    kind, a, b = nodes[node]
    if kind not in ROWS:
        return refuse(KIND)
    # The spare word stands first in every row that has one.
    uses_a, uses_b = USED[kind]
    if (not uses_a and a != 0) or (not uses_b and b != 0):
        return refuse(SPARE_WORD)
    return ROWS[kind](nodes, pool, known, node, a, b)


# ---- cycles ----
# "Steps of the graph go from a node to the nodes it names: to both parts, to a dep's first and each second, and
# from again to its fix."


def seconds_of(grammar, node):
    """A dep's seconds, one for each number of its first part."""
    _, first, place = grammar.nodes[node]
    return grammar.pool[place : place + grammar.sizes[first]]


def steps(grammar, node):
    kind, a, b = grammar.nodes[node]
    if kind in (BELOW, NATS, POOL):
        return []
    if kind in (OR, CONS):
        return [a, b]
    if kind == DEP:
        return [a, *seconds_of(grammar, node)]
    return [a]  # shift, except, fix and again name one node


def unguarded_steps(grammar, node):
    """The steps that are not to the second part of an or."""
    kind, a, _ = grammar.nodes[node]
    return [a] if kind == OR else steps(grammar, node)


def on_cycle(ways, node):
    """Whether one or more steps lead from the node back to it: all paths are followed."""
    met = set()
    ahead = list(ways[node])
    while ahead:
        there = ahead.pop()
        if there == node:
            return True
        if there not in met:
            met.add(there)
            ahead.extend(ways[there])
    return False


def check_cycles(grammar):
    everywhere = range(len(grammar.nodes))
    # "A cycle that never steps to the second part of an or is refused (9), naming the lowest node on such a cycle."
    ways = [unguarded_steps(grammar, node) for node in everywhere]
    for node in everywhere:
        if on_cycle(ways, node):
            return UNGUARDED, node
    # "An except on any cycle is refused (10), naming the lowest such except."
    ways = [steps(grammar, node) for node in everywhere]
    for node in everywhere:
        if grammar.nodes[node][0] == EXCEPT and on_cycle(ways, node):
            return EXCEPT_ON_CYCLE, node
    return DONE, 0


# ---- the whole check ----


class Grammar(NamedTuple):
    nodes: list  # (kind, a, b) by node
    pool: tuple
    sizes: list  # by node


def lengths_fit(table, pool):
    """"It has 1 to 256 nodes", "three to a node"; "a pool of 0 to 4,096 words"."""
    whole = len(table) % WORDS_PER_NODE == 0
    return whole and 1 <= len(table) // WORDS_PER_NODE <= MOST_NODES and len(pool) <= MOST_POOL_WORDS


def nodes_of(table):
    return [tuple(table[at : at + WORDS_PER_NODE]) for at in range(0, len(table), WORDS_PER_NODE)]


@lru_cache(maxsize=4)  # many calls in a row ask about one table
def survey(table, pool):
    """"The whole check: word and pool lengths (1, node 0); then nodes rising, kind known (2) before the row above;
    then cycles." Gives ((refusal, node), grammar)."""
    if not lengths_fit(table, pool):
        return (LENGTH, 0), None
    nodes = nodes_of(table)
    known = []
    for node in range(len(nodes)):
        refusal, size = check_node(nodes, pool, known, node)
        if refusal != DONE:
            return (refusal, node), None
        known.append(size)
    grammar = Grammar(nodes, pool, known)
    return check_cycles(grammar), grammar


def check(table, pool):
    verdict, _ = survey(tuple(table), tuple(pool))
    return verdict


def sizes(table, pool):
    """The sizes of an accepted table's nodes; none for a refused table."""
    verdict, grammar = survey(tuple(table), tuple(pool))
    return list(grammar.sizes) if verdict == (DONE, 0) else None


def check_start(table, pool, start):
    """"Each call checks the table first, then 11": gives ((refusal, node), grammar)."""
    verdict, grammar = survey(tuple(table), tuple(pool))
    if verdict != (DONE, 0):
        return verdict, None
    if start >= len(grammar.nodes):
        return (NO_START, 0), None
    return verdict, grammar


# ---- the published rules, from a whole's number to its parts' and back ----


def split_or(s, t, n):
    """Gives the tag and the chosen part's number."""
    alternate = (n % 2, n // 2)
    if not is_finite(s) and not is_finite(t):
        return alternate  # "Two endless parts always alternate."
    if not is_finite(t) or (is_finite(s) and s <= t):
        # "for n < 2s, even n is the first part at n/2, odd n the second at (n-1)/2; from 2s on, the second at n-s"
        return alternate if n < 2 * s else (1, n - s)
    # "If t < s: the same for n < 2t, then the first at n-t."
    return alternate if n < 2 * t else (0, n - t)


def join_or(s, t, tag, part):
    """The number whose split is this tag and part."""
    used_up = t if tag == 0 else s  # the size of the part that was not chosen
    if is_finite(used_up) and part >= used_up:
        return part + used_up
    return 2 * part + tag


def first_runs_fastest(i, j):
    """"Only i finite: (n mod i, n div i). .. Both finite: as only i finite if i < j"."""
    return is_finite(i) and (not is_finite(j) or i < j)


def split_cons(i, j, n):
    if not is_finite(i) and not is_finite(j):
        # "r the whole square root of n, d = n - r*r; if d < r the pair is (d, r), else (r, d-r)"
        r = math.isqrt(n)
        d = n - r * r
        return (d, r) if d < r else (r, d - r)
    if first_runs_fastest(i, j):
        return n % i, n // i
    return n // j, n % j


def join_cons(i, j, x, y):
    if not is_finite(i) and not is_finite(j):
        return y * y + x if x < y else x * x + x + y
    if first_runs_fastest(i, j):
        return y * i + x
    return x * j + y


def split_dep(second_sizes, n):
    if not is_finite(second_sizes[0]):
        # "Seconds endless: first n mod m, second n div m."
        return n % len(second_sizes), n // len(second_sizes)
    # "Seconds finite: all pairs of first 0, then of first 1, and so on."
    for first, size in enumerate(second_sizes):
        if n < size:
            return first, n
        n -= size
    raise ValueError("the number is not below the size")


def join_dep(second_sizes, first, second):
    if not is_finite(second_sizes[0]):
        return second * len(second_sizes) + first
    return sum(second_sizes[:first]) + second


def split_except(b, n):
    """"the part at n if n < b, otherwise at n+1"."""
    return n if n < b else n + 1


# ---- from a number to cells ----


class Refused(Exception):
    """The first refusal met in walk order."""

    def __init__(self, refusal):
        super().__init__(refusal)
        self.refusal = refusal


def put(cells, cell, room):
    if len(cells) >= room:
        raise Refused(NO_ROOM)
    cells.append(cell)


def show(grammar, node, n, depth, cells, room):
    """One visit; "A visit visits the node's parts at one depth more, left to right." """
    if depth > DEEPEST:
        raise Refused(TOO_DEEP)
    kind, a, b = grammar.nodes[node]
    deeper = depth + 1
    if kind in (BELOW, NATS):
        put(cells, n, room)
    elif kind == POOL:
        put(cells, grammar.pool[a + n], room)
    elif kind == SHIFT:
        show(grammar, a, n, deeper, cells, room)
        cells[-1] += b  # "the part's cell plus k": such a part has one cell
    elif kind == OR:
        tag, part = split_or(grammar.sizes[a], grammar.sizes[b], n)
        put(cells, tag, room)  # "A tag cell, 0 or 1, comes first."
        show(grammar, (a, b)[tag], part, deeper, cells, room)
    elif kind == CONS:
        x, y = split_cons(grammar.sizes[a], grammar.sizes[b], n)
        show(grammar, a, x, deeper, cells, room)
        show(grammar, b, y, deeper, cells, room)
    elif kind == DEP:
        seconds = seconds_of(grammar, node)
        first, second = split_dep([grammar.sizes[each] for each in seconds], n)
        show(grammar, a, first, deeper, cells, room)
        show(grammar, seconds[first], second, deeper, cells, room)
    elif kind == EXCEPT:
        show(grammar, a, split_except(b, n), deeper, cells, room)
    else:  # "fix: the body at n. again: its fix at n."
        show(grammar, a, n, deeper, cells, room)


def case_cells(grammar, start, number, room):
    """The cells of one case, or Refused. The number is not tested here."""
    cells = []
    # "A case has at most 65,536 cells; a longer buffer to write into counts as that long for one case."
    show(grammar, start, number, 1, cells, min(room, MOST_CELLS))
    return cells


def too_large(grammar, start, number):
    """"the number isn't below the size, or is 2^62 or more"."""
    return not_below(number, grammar.sizes[start]) or number >= NUMBERS_END


def write(table, pool, start, number, room):
    """Gives (refusal, node, cells); no cells with a refusal."""
    (refusal, node), grammar = check_start(table, pool, start)
    if refusal != DONE:
        return refusal, node, []
    if too_large(grammar, start, number):
        return NUMBER_TOO_LARGE, 0, []
    try:
        return DONE, 0, case_cells(grammar, start, number, room)
    except Refused as met:
        return met.refusal, 0, []


# ---- from cells to the number ----

# A list of forty-nine zeros has a number of about 2^48 bits, so a number this far past 2^62 is kept as this one.
# No answer can tell: joining never gives less than a part, and an except takes one off at most once a depth.
FAR = 2**1024


class Row(NamedTuple):
    cells: list
    first: int  # where the case begins, for "A case has at most 65,536 cells"


def take(row, place):
    # "Needing cell 65,537 is 14 even where the slice ends there."
    if place - row.first >= MOST_CELLS:
        raise Refused(NO_ROOM)
    if place >= len(row.cells):
        raise Refused(NOT_A_CASE)  # "the cells run out"
    return row.cells[place]


def find(grammar, node, depth, row, place, off):
    """One visit of the reading walk: gives the node's number and the place after its cells.
    off is what the shifts above take off the cell."""
    if depth > DEEPEST:
        raise Refused(TOO_DEEP)
    kind, a, b = grammar.nodes[node]
    deeper = depth + 1
    if kind in (BELOW, NATS):
        n = take(row, place) - off
        # "a number cell not below its count", "a cell less than k under a shift or unfit after taking k off"
        if n < 0 or (kind == BELOW and n >= a):
            raise Refused(NOT_A_CASE)
        return n, place + 1
    if kind == POOL:
        word = take(row, place)
        words = grammar.pool[a : a + b]
        if word not in words:
            raise Refused(NOT_A_CASE)  # "a pool word not listed"
        return words.index(word), place + 1
    if kind == SHIFT:
        return find(grammar, a, deeper, row, place, off + b)
    if kind == OR:
        tag = take(row, place)
        if tag > 1:
            raise Refused(NOT_A_CASE)  # "a tag above 1"
        part, place = find(grammar, (a, b)[tag], deeper, row, place + 1, 0)
        return min(FAR, join_or(grammar.sizes[a], grammar.sizes[b], tag, part)), place
    if kind == CONS:
        x, place = find(grammar, a, deeper, row, place, 0)
        y, place = find(grammar, b, deeper, row, place, 0)
        return min(FAR, join_cons(grammar.sizes[a], grammar.sizes[b], x, y)), place
    if kind == DEP:
        seconds = seconds_of(grammar, node)
        first, place = find(grammar, a, deeper, row, place, 0)
        second, place = find(grammar, seconds[first], deeper, row, place, 0)
        return min(FAR, join_dep([grammar.sizes[each] for each in seconds], first, second)), place
    if kind == EXCEPT:
        part, place = find(grammar, a, deeper, row, place, 0)
        if part == b:
            raise Refused(NOT_A_CASE)  # "the case an except removed (met after its last cell)"
        return (part if part < b else part - 1), place
    return find(grammar, a, deeper, row, place, 0)  # fix, again


def case_number(grammar, start, cells, first):
    """The number of the case that begins at the place first, without limit, and the place after it; or Refused."""
    return find(grammar, start, 1, Row(cells, first), first, 0)


def read(table, pool, start, cells):
    """Gives (refusal, node, number)."""
    (refusal, node), grammar = check_start(table, pool, start)
    if refusal != DONE:
        return refusal, node, 0
    try:
        number, place = case_number(grammar, start, cells, 0)
    except Refused as met:
        return met.refusal, 0, 0
    # "Then cells left over (15, whole-case reading only), then 16."
    if place < len(cells):
        return NOT_A_CASE, 0, 0
    if number >= NUMBERS_END:
        return CASE_NUMBER_TOO_LARGE, 0, 0
    return DONE, 0, number


# ---- rows ----
# "items in order; the first that is refused stops the call, which returns its refusal and its item number from 0
# (item 0 for refusals 1 to 11)"


def write_row(table, pool, start, numbers, room):
    """Gives (refusal, node, item, cells)."""
    (refusal, node), grammar = check_start(table, pool, start)
    if refusal != DONE:
        return refusal, node, 0, []
    cells = []
    for item, number in enumerate(numbers):
        # "Writing: 12, then the walk with the room left."
        if too_large(grammar, start, number):
            return NUMBER_TOO_LARGE, 0, item, []
        try:
            cells += case_cells(grammar, start, number, room - len(cells))
        except Refused as met:
            return met.refusal, 0, item, []
    return DONE, 0, 0, cells


def read_item(grammar, start, cells, place):
    """"the walk, then 16": gives (refusal, number, the place after the item)."""
    try:
        number, after = case_number(grammar, start, cells, place)
    except Refused as met:
        return met.refusal, 0, place
    if number >= NUMBERS_END:
        return CASE_NUMBER_TOO_LARGE, 0, place
    return DONE, number, after


def read_row(table, pool, start, cells, room):
    """Gives (refusal, node, item, numbers)."""
    (refusal, node), grammar = check_start(table, pool, start)
    if refusal != DONE:
        return refusal, node, 0, []
    numbers = []
    place = 0
    while place < len(cells):
        item = len(numbers)
        refusal, number, place = read_item(grammar, start, cells, place)
        if refusal != DONE:
            return refusal, 0, item, []
        if item >= room:  # "then 14 if the buffer of numbers is full"
            return NO_ROOM, 0, item, []
        numbers.append(number)
    return DONE, 0, 0, numbers


def ask(table, pool, start, cells, place):
    """One ask of the reader: gives (refusal, node, items, number, cells used)."""
    # "The reader checks table and start at each call, then, standing at or past the row's end, returns 0 with
    # 0 items and 0 cells and stays; else it answers as row reading does for one item and moves past it. After a
    # refusal it stays."
    (refusal, node), grammar = check_start(table, pool, start)
    if refusal != DONE:
        return refusal, node, 0, 0, 0
    if place >= len(cells):
        return DONE, 0, 0, 0, 0
    refusal, number, after = read_item(grammar, start, cells, place)
    if refusal != DONE:
        return refusal, 0, 0, 0, 0
    return DONE, 0, 1, number, after - place


def reader(table, pool, start, cells):
    """Asked again and again without end; the place moves by the cells used and stays where none are."""
    table, pool = tuple(table), tuple(pool)  # made once: the survey of a table is kept by its words
    place = 0
    while True:
        answer = ask(table, pool, start, cells, place)
        yield answer
        place += answer[-1]
