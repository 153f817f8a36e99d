"""Writes the inputs of the program `printer_tests`: each way to be unreadable, each refusal, the limits, and random ones.

Each input is a line with a count of bytes, and then so many bytes. A seed may be given as the one argument.
"""

import random as randoms
import sys

from grammars import ANY, CHAIN, CHAIN_START, GUARDED, LAST_WORD, LISTS, LISTS_START, accepted, careless
from printing import MOST_INPUT_BYTES, MOST_POOL_WORDS, MOST_TABLE_WORDS, ROOM, printed
from reference import BELOW, NATS, POOL, SHIFT
from shapes import chain, last_node, of_length, words_of

SEED = 7
RANDOM_INPUTS = 120
SPOILT_INPUTS = 400


def line(words):
    return (" ".join(map(str, words)) + "\n").encode()


def text(table, pool, start, numbers):
    return line(table) + line(pool) + line([start]) + b"".join(line([n]) for n in numbers)


EXAMPLE = text(LISTS, (), LISTS_START, (0, 43))
NATURALS = (NATS, 0, 0)


def unreadable():
    """Every way to be unreadable, beside the nearest input that is readable."""
    yield from (b"", b"\n", b"\n\n", b"\n\n\n", b"\n\n0\n", b"\n\n0\n0\n")
    yield EXAMPLE[:-1]  # no final LF
    yield EXAMPLE + b"\n"  # an empty line at the end
    yield EXAMPLE + b"7"
    yield EXAMPLE + b"7 \n"
    yield EXAMPLE + b" 7\n"
    yield EXAMPLE + b"7 8\n"
    yield EXAMPLE + b"7\r\n"
    yield EXAMPLE + b"7\t\n"
    yield EXAMPLE + b"7\x00\n"
    yield EXAMPLE + b"\x00"
    yield EXAMPLE + b"\xff\n"
    yield EXAMPLE + b"\xb7\n"
    yield EXAMPLE + b"\n7\n"
    for field in (b"0", b"00", b"07", b"+7", b"-7", b"-0", b"7.", b"0x7", b"1e3", b"1,000", b"a", b"/", b":", b"1/", b"1:"):
        yield EXAMPLE + field + b"\n"
        yield b"1 0 " + field + b"\n\n0\n7\n"
        yield b"2 0 1\n" + field + b"\n0\n0\n"
        yield b"1 0 0\n\n" + field + b"\n7\n"
    for value in (2**62 - 1, 2**62, 2**63, 2**64 - 1, 2**64, 2**64 + 7, 10**20 - 1, 10**20, 10**40):
        yield text(NATURALS, (), 0, (value,))
        yield text((NATS, 0, value), (), 0, (0,))
        yield text((POOL, 0, 1), (value,), 0, (0,))
        yield text(NATURALS, (), value, (0,))
    for table in (b"1 0 0", b"1  0 0", b" 1 0 0", b"1 0 0 ", b"1\t0 0", b"1 0 0\r", b"1 0\x000", b"1 0 \x80"):
        yield table + b"\n\n0\n7\n"
    for pool in (b"", b" ", b"5", b"5 6", b"5  6", b" 5", b"5 ", b"\t", b"\r", b"\x00", b"5 x"):
        yield b"1 0 0\n" + pool + b"\n0\n7\n"
    for start in (b"", b" ", b"0", b"0 0", b"0 ", b" 0", b"\x00", b"x"):
        yield b"1 0 0\n\n" + start + b"\n7\n"
    # a missing line
    yield from (b"1 0 0", b"1 0 0\n", b"1 0 0\n\n", b"1 0 0\n\n0", b"1 0 0\n\n0\n", b"1 0 0\n0\n7\n", b"1 0 0\n0\n7\n8\n")
    # unreadable beats refused
    yield b"99 0 0\n\n0\n7\n"
    yield b"99 0 0\n\n0\n07\n"
    yield b"1 0 0\n\n9\n7\n"
    yield b"1 0 0\n\n9\n7\n\n"


def too_many():
    """The limits on words and bytes, and one more."""
    for count in (1, 2, 3, 4, MOST_TABLE_WORDS, MOST_TABLE_WORDS + 1):
        yield text((NATURALS * 257)[:count], (), 0, (7,))
    for count in (MOST_POOL_WORDS, MOST_POOL_WORDS + 1):
        yield text((POOL, MOST_POOL_WORDS - 2, 2), range(count), 0, (0, 1, 2))
    head = text(NATURALS, (), 0, ())
    for size in (MOST_INPUT_BYTES, MOST_INPUT_BYTES + 1):
        data = head
        while size - len(data) > 40:
            data += line([10**18])  # 20 bytes
        left = size - len(data)
        yield data + line([10 ** (left // 2 - 2)]) + line([10 ** (left - left // 2 - 2)])


def refused():
    """Each refusal of a table, of a start, and of a case."""
    for table, pool in (
        ((1, 0), ()), ((99, 0, 0), ()), ((1, 0, 1), ()), ((4, 0, 0), ()), ((0, 0, 0), ()), ((2, 0, 2), (5, 5)),
        ((0, 1, 0, 7, 0, 0), ()), ((0, 2**62, 0, 4, 0, 0), ()), ((9, 1, 0, 8, 0, 0), ()),
        ((0, 1, 0, 9, 4, 0, 7, 1, 0, 4, 0, 2, 8, 3, 0), ()), ((1, 0, 0, 5, 0, 0, 99, 0, 0), ()),
    ):
        for numbers in ((), (0,), (0, 1)):
            yield text(table, pool, 0, numbers)
    for start in (0, 1, 255, 256, LAST_WORD):
        for numbers in ((), (7,)):
            yield text(NATURALS, (), start, numbers)
    yield text((BELOW, 3, 0), (), 0, (0, 2, 3, 2**62 - 1, 2**62, LAST_WORD, 1, 1))  # 12; numbers may repeat and fall
    yield text(CHAIN, (), CHAIN_START, (65, 66))  # 13
    shifts = chain([(NATS, 0, 0)], lambda below: (SHIFT, below, 1), 202)
    yield text(shifts, (), 199, (0, 7))
    yield text(shifts, (), 200, (0, 7))


def long_cases():
    """As many cells as there is room for, and one more: 14. Cells of one digit, and of twenty."""
    for cells in (1, ROOM, ROOM + 1):
        table = of_length((BELOW, 1, 0), cells)
        yield text(table, (), last_node(table), (0, 1))
    for cells in (ROOM, ROOM + 1):
        table = of_length((POOL, 0, 1), cells)
        yield text(table, (LAST_WORD,), last_node(table), (0,))


def random_inputs(random):
    for _ in range(RANDOM_INPUTS):
        count = random.randrange(1, 12)
        table, pool = accepted(random, count) if random.randrange(3) else careless(random, count, random.choice((ANY, GUARDED)))
        start = random.randrange(len(table) // 3 + 1)
        numbers = [random.choice((random.randrange(8), random.randrange(2**random.randrange(1, 65)))) for _ in range(random.randrange(5))]
        yield text(table, pool, start, numbers)


def spoilt(random):
    """A byte of a readable input is changed, taken out or put in."""
    for _ in range(SPOILT_INPUTS):
        data = bytearray(random.choice((EXAMPLE, text((POOL, 0, 2), (10, 20), 0, (0, 1, 2)))))
        place = random.randrange(len(data))
        byte = random.choice((10, 32, 48, 49, 57, 47, 58, 43, 45, 9, 13, 0, 128, 255))
        kind = random.randrange(3)
        if kind == 0:
            data[place] = byte
        elif kind == 1:
            del data[place]
        else:
            data.insert(place, byte)
        yield bytes(data)


def main():
    random = randoms.Random(int(sys.argv[1]) if len(sys.argv) > 1 else SEED)
    inputs = [EXAMPLE, text(LISTS, (), LISTS_START, ()), *unreadable(), *too_many(), *refused(), *long_cases(), *random_inputs(random), *spoilt(random)]
    assert printed(EXAMPLE) == "case 0: 0 0\ncase 43: 1 6 0 0\n"
    for data in inputs:
        sys.stdout.buffer.write(b"%d\n" % len(data) + data)


if __name__ == "__main__":
    main()
