"""The listings of documents 000 and 001 that a table can express, with what the papers print.

Prints an input of the program `calls`; with the argument `answers`, what it must print. Nothing here asks the reference:
a listing's elements stand as the paper prints them, and an encoding says which cells stand for an element.
docs/LISTINGS.md has a line for each.
"""

import re
from collections.abc import Callable
from dataclasses import dataclass

from answer import refused
from grammars import LISTS, LISTS_START
from kinds import AGAIN, BELOW, CONS, DEP, EXCEPT, FIX, NATS, OR, POOL, SHIFT
from stated import Stated


@dataclass
class Listing:
    id: str
    place: str
    shows: str
    grammar: tuple  # table, pool, start
    cells: Callable  # from a printed element to its cells
    printed: str
    right: str = ""  # where the print is a slip, or the text has none, what stands there by the paper's own rules
    first: int = 0  # the number of the first element; the others follow
    size: int = 0  # of a finite grammar

    def elements(self):
        """(number, cells) of each element."""
        elements = ELEMENT.findall(self.right or self.printed)
        return [(self.first + place, self.cells(element)) for place, element in enumerate(elements)]


# an element is a number, a letter, part:number, or a list with lists in it
ELEMENT = re.compile(r"\((?:[^()]|\([^()]*\))*\)|[^\s()]+")


# ---- encodings ----


def numbers(element):
    """The numbers of pairs and tuples in their order: no node but leaves has a cell."""
    return [int(digits) for digits in re.findall(r"\d+", element)]


def list_cells(element):
    """1 and its number for each item of a list, then 0 0 for its end."""
    return [cell for number in numbers(element) for cell in (1, number)] + [0, 0]


def ended(element):
    """A tuple that ends in null: the cell 0 of below 1."""
    return [*numbers(element), 0]


def symbol(element):
    """A number stands for itself, a letter for its code point."""
    return int(element) if element.isdigit() else ord(element)


def one_symbol(element):
    return [symbol(element)]


def number_or_letter(element):
    return [0 if element.isdigit() else 1, symbol(element)]


def part_of_three(element):
    """I:N, the element N of part I, of or (part 0, or (part 1, part 2))."""
    part, number = numbers(element)
    return [*((0,), (1, 0), (1, 1))[part], number]


def second_above_first(element):
    """The second of an ordered pair by how far it is above the first."""
    first, second = numbers(element)
    return [first, second - first]


def bounded(element):
    """Which place has the first 2, then the two others; where they have one size 01 runs the second fastest and 001 the
    first, so they stand exchanged."""
    first, second, third = numbers(element)
    if first == 2:
        return [2, third, second]
    return [1, first, third] if second == 2 else [0, second, first]


# ---- grammars: table, pool, start ----

PAIRS = (NATS, 0, 0, CONS, 0, 0), (), 1
LON = LISTS, (), LISTS_START
NATS_OR_LETTERS = (NATS, 0, 0, SHIFT, 0, ord("a"), OR, 0, 1), (), 2
THREE_WAY = (NATS, 0, 0, OR, 0, 0, OR, 0, 1), (), 2
SIX = (POOL, 0, 6), (1, 2, 3, *map(ord, "abc")), 0
FROM_FIVE = (NATS, 0, 0, SHIFT, 0, 5), (), 1
BUT_4 = (NATS, 0, 0, EXCEPT, 0, 4), (), 1
BUT_13 = (NATS, 0, 0, EXCEPT, 0, 13), (), 1
NESTED = (NATS, 0, 0, BELOW, 1, 0, CONS, 0, 1, CONS, 0, 2, CONS, 0, 3, CONS, 0, 4), (), 5
BALANCED = (NATS, 0, 0, CONS, 0, 0, CONS, 1, 1), (), 2
TRIPLES = (NATS, 0, 0, CONS, 0, 0, CONS, 0, 1), (), 2
BITS = (BELOW, 2, 0, CONS, 0, 0, CONS, 1, 0), (), 2
BOUNDED = (BELOW, 2, 0, BELOW, 3, 0, CONS, 0, 0, CONS, 0, 1, CONS, 1, 1, DEP, 1, 0), (2, 3, 4), 5
EXCHANGED = (BELOW, 1, 0, NATS, 0, 0, AGAIN, 5, 0, CONS, 1, 2, OR, 3, 0, FIX, 4, 0), ()
EAGER = (AGAIN, 1, 0, FIX, 0, 0), ()


# ---- the listings, those of one table together ----

LISTINGS = (
    # the pairing
    Listing(
        "000-list2",
        "000, section 4",
        "(list/e (below/e +inf.0) (below/e +inf.0)): the first 9 elements",
        PAIRS,
        numbers,
        "(0 0) (0 1) (1 0) (1 1) (0 2) (1 2) (2 0) (2 1) (2 2)",
    ),
    Listing("000-list2-10", "000, section 4", "its 10th element: number 10", PAIRS, numbers, "(1 3)", first=10),
    Listing(
        "000-trace-256",
        "000, section 6",
        "cons/e up to 256 uses 0 to 15 of both parts: numbers 255 and 256",
        PAIRS,
        numbers,
        "",  # not printed; by the formula of section 3:
        "(15 . 15) (0 . 16)",
        first=255,
    ),
    Listing(
        "000-cons-de",
        "000, section 3",
        "cons/de, ordered pairs: the first 12 elements",
        PAIRS,
        second_above_first,
        """(0 . 0) (0 . 1) (1 . 1) (1 . 2)
           (0 . 2) (1 . 3) (2 . 2) (2 . 3)
           (2 . 4) (0 . 3) (1 . 4) (2 . 5)""",
    ),
    Listing(
        "001-cons",
        "001, section 2",
        "(cons/e nat/e nat/e): the first 15 elements",
        PAIRS,
        numbers,
        "",  # the text at hand has a gap here; by box_pair of section 3.2:
        """(0 . 0) (0 . 1) (1 . 0) (1 . 1) (0 . 2)
           (1 . 2) (2 . 0) (2 . 1) (2 . 2) (0 . 3)
           (1 . 3) (2 . 3) (3 . 0) (3 . 1) (3 . 2)""",
    ),
    Listing("001-42", "001, section 3.2", "42 with cons/e", PAIRS, numbers, "(6 . 0)", first=42),
    Listing(
        "001-dep",
        "001, section 2",
        "dep/e, ordered pairs: the first 15 elements",
        PAIRS,
        second_above_first,
        """(0 . 0) (0 . 1) (1 . 1) (0 . 2) (1 . 2)
           (2 . 2) (0 . 3) (1 . 3) (2 . 3) (3 . 3)
           (0 . 4) (1 . 4) (2 . 4) (3 . 4) (4 . 4)""",
        """(0 . 0) (0 . 1) (1 . 1) (1 . 2) (0 . 2)
           (1 . 3) (2 . 2) (2 . 3) (2 . 4) (0 . 3)
           (1 . 4) (2 . 5) (3 . 3) (3 . 4) (3 . 5)""",
    ),
    # lists of numbers
    Listing(
        "000-lon",
        "000, section 3",
        "lon/e: the first 12 elements",
        LON,
        list_cells,
        """() (0) (0 0) (1)
           (1 0) (0 0 0) (1 0 0) (2)
           (2 0) (2 0 0) (0 1) (1 1)""",
    ),
    Listing(
        "000-lon-far",
        "000, section 9.1",
        "lon/e: the 10,000,000,000th element",
        LON,
        list_cells,
        "(99999 142 17 2 0 0)",
        first=10_000_000_000,
    ),
    Listing(
        "001-lon",
        "001, section 2",
        "lists of numbers: the first 15 elements",
        LON,
        list_cells,
        """() (0) (0 0) (1) (1 0)
           (0 0 0) (1 0 0) (2) (2 0) (2 0 0)
           (0 1) (1 1) (2 1) (3) (3 0)""",
    ),
    # unions
    Listing(
        "000-or",
        "000, section 3",
        "or/e of naturals and strings: its beginning",
        NATS_OR_LETTERS,
        number_or_letter,
        "0 a 1 b 2 c 3 d",
    ),
    Listing(
        "001-disj-sum",
        "001, section 3.3",
        "disj-sum/e of naturals and symbols: the first ten elements",
        NATS_OR_LETTERS,
        number_or_letter,
        "0 a 1 b 2 c 3 d 4 e",
    ),
    Listing(
        "001-union-three",
        "001, section 3.3, figure 2, left",
        "union-three/e: the first 10 elements",
        THREE_WAY,
        part_of_three,
        "",  # the text at hand has a gap here; by args(i) of section 3.3:
        "0:0 1:0 0:1 2:0 0:2 1:1 0:3 2:1 0:4 1:2",
    ),
    # leaves, naturals from a number on, except
    Listing(
        "001-fin",
        "001, section 2",
        '(fin/e 1 2 3 "a" "b" "c"): its six elements in the order given',
        SIX,
        one_symbol,
        "1 2 3 a b c",
        size=6,
    ),
    Listing(
        "000-naturals-above",
        "000, section 3; 001, section 2",
        "naturals-above/e i (nats-above/e): x + i at x, here for i = 5",
        FROM_FIVE,
        numbers,
        "",  # defined, not listed
        "5 6 7 8 9 10 11 12 13",
    ),
    Listing(
        "000-except-4",
        "000, section 3",
        "(except/e (below/e +inf.0) 4): the first 9 elements",
        BUT_4,
        numbers,
        "0 1 2 3 5 6 7 8 9",
    ),
    Listing(
        "001-except-13",
        "001, section 2",
        "(except/e nat/e 13): the first 22 elements",
        BUT_13,
        numbers,
        "",  # the text at hand has a gap here; by the words before it:
        "0 1 2 3 4 5 6 7 8 9 10 11 12 14 15 16 17 18 19 20 21 22",
    ),
    # tuples
    Listing(
        "000-nested4",
        "000, section 4; 001, section 3",
        "nested pairs of four: the 1,000,000,000th element",
        NESTED,
        ended,
        "(31622 70 11 0)",
        first=1_000_000_000,
    ),
    Listing(
        "000-balanced4",
        "000, section 4",
        "balanced pairs of four: the element at 1,000,000,000",
        BALANCED,
        numbers,
        "(177 116 70 132)",
        first=1_000_000_000,
    ),
    Listing(
        "001-balanced4",
        "001, section 3",
        "balanced pairs of four: the 1,000,000,000 element",
        BALANCED,
        numbers,
        "(177 70 116 132)",
        "(177 116 70 132)",
        first=1_000_000_000,
    ),
    Listing(
        "001-balanced4-999",
        "001, section 3",
        "balanced pairs of four: at 999,999,999,999",
        BALANCED,
        numbers,
        "(999 999 999)",
        "(999 999 999 999)",
        first=999_999_999_999,
    ),
    Listing(
        "000-triple",
        "000, section 4",
        "triple/e, of nested pairs: the first 25 elements",
        TRIPLES,
        numbers,
        """(0 (0 0)) (0 (0 1)) (1 (0 0)) (1 (0 1))
           (0 (1 0)) (1 (1 0)) (2 (0 0)) (2 (0 1))
           (2 (1 0)) (0 (1 1)) (1 (1 1)) (2 (1 1))
           (3 (0 0)) (3 (0 1)) (3 (1 0)) (3 (1 1))
           (0 (0 2)) (1 (0 2)) (2 (0 2)) (3 (0 2))
           (4 (0 0)) (4 (0 1)) (4 (1 0)) (4 (1 1))""",
    ),
    Listing(
        "001-triple",
        "001, section 3",
        "triple/e, of nested pairs: the first 25 elements",
        TRIPLES,
        numbers,
        """(0 0 . 0) (0 0 . 1) (1 0 . 0) (1 0 . 1)
           (0 1 . 0) (1 1 . 0) (2 0 . 0) (2 0 . 1)
           (2 1 . 0) (0 1 . 1) (1 1 . 1) (2 1 . 1)
           (3 0 . 0) (3 0 . 1) (3 1 . 0) (3 1 . 1)
           (0 0 . 2) (1 0 . 2) (2 0 . 2) (3 0 . 2)
           (4 0 . 0) (4 0 . 1) (4 1 . 0) (4 1 . 1)""",
    ),
    Listing(
        "000-triple-24",
        "000, section 4; 001, section 3",
        "triple/e: the 25th element, number 24",
        TRIPLES,
        numbers,
        "",  # 25 are announced and 24 printed
        "(4 (0 2))",
        first=24,
    ),
    Listing(
        "000-list3",
        "000, section 4",
        "list/e of three naturals: the first 8 elements",
        BITS,
        numbers,
        """(0 0 0) (0 0 1) (0 1 0) (0 1 1)
           (1 0 0) (1 0 1) (1 1 0) (1 1 1)""",
    ),
    Listing(
        "001-bounded-list",
        "001, section 3.2",
        "(bounded-list/e 3 2): its values",
        BOUNDED,
        bounded,
        """(0 0 2) (1 0 2) (0 1 2) (1 1 2) (0 2 0)
           (1 2 0) (0 2 1) (1 2 1) (0 2 2) (1 2 2)
           (2 0 0) (2 1 0) (2 2 0) (2 0 1) (2 1 1)
           (2 2 1) (2 0 2) (2 1 2) (2 2 2)""",
        size=19,
    ),
)

# what fails to terminate in the papers: (place, what, table and pool, lowest node of the cycle)
ENDLESS_DECODING = (
    ("000, section 3; 001, section 2", "lists of numbers with the parts of the union exchanged", EXCHANGED, 2),
    ("000, section 3", "(define e (delay/e e)); 001, section 2: (fix/e (lambda (x) x))", EAGER, 0),
)


def stated_listings():
    stated = Stated()
    standing = None
    for listing in LISTINGS:
        table, pool, start = listing.grammar
        if listing.grammar != standing:
            stated.table(table, pool)
            standing = listing.grammar
        for number, cells in listing.elements():
            stated.both(start, number, cells)
        if listing.size:
            stated.size(start, listing.size)
    for _, _, (table, pool), node in ENDLESS_DECODING:
        stated.table(table, pool)
        stated.say("check", refused(9, node))
    return stated


if __name__ == "__main__":
    stated_listings().print()
