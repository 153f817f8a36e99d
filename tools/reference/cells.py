"""Rows of cells for the vectors of reading: whole by a rule, or altered.

zeros(count)             the case of a list of zeros
with_cell(..)            cells with another word at one place
off_by_one(cells)        each cell altered by one
altered(random, cells)   one change of any sort
"""

from grammars import LAST_WORD
from reference import NUMBERS_END

# Words whose squares, doubles and sums pass 2^64, and words about 2^62.
WRAPPING_WORDS = (
    2,
    2**31 - 1,
    2**31,
    2**31 + 1,
    2**32 - 1,
    2**32,
    2**32 + 1,
    2**56,
    2**61,
    NUMBERS_END - 1,
    NUMBERS_END,
    NUMBERS_END + 1,
    2**63 - 1,
    2**63,
    2**63 + 1,
    LAST_WORD - 1,
    LAST_WORD,
)


def zeros(count):
    """The cells of the list of count zeros, by LISTS: refused by 16 from eight on, by 13 from fifty on."""
    return [1, 0] * count + [0, 0]


def with_cell(cells, place, word):
    return [*cells[:place], word, *cells[place + 1 :]]


def off_by_one(cells, most):
    """The cells with one of the first most altered by one, each way."""
    for place, cell in enumerate(cells[:most]):
        for step in (-1, 1):
            if 0 <= cell + step <= LAST_WORD:
                yield with_cell(cells, place, cell + step)


def altered(random, cells):
    """The cells with one change."""
    cells = list(cells)
    place = random.randrange(len(cells))
    way = random.randrange(9)
    if way == 0:
        return cells[:-1]
    if way == 1:
        return cells[:place]
    if way == 2:
        return [*cells, random.choice((0, 1, cells[0], LAST_WORD))]
    if way == 3:
        return cells[:place] + cells[place + 1 :]
    if way == 4:
        return cells[:place] + [random.randrange(3)] + cells[place:]
    if way == 5:
        cells[place] = random.choice((2, *WRAPPING_WORDS))
        return cells
    if way == 6:
        other = random.randrange(len(cells))
        cells[place], cells[other] = cells[other], cells[place]
        return cells
    step = random.choice((1, -1))
    cells[place] = (cells[place] + step) % 2**64
    return cells
