"""What the printing program prints, from document 01, with the answers of `reference.py`.

As a program it reads what the program `printer_tests` reads (each input is a line with a count of bytes, and then so
many bytes) and prints what it must print: each input's print, and then a line `--`.
"""

import sys

from reference import DONE, check_start, write

MOST_INPUT_BYTES = 65_536
MOST_TABLE_WORDS = 768
MOST_POOL_WORDS = 4_096
ROOM = 4_096
WORDS_END = 2**64
DIGITS = b"0123456789"

UNREADABLE = "unreadable\n"


class Unreadable(Exception):
    """The input is not what 01 says that it must be."""


def number(text):
    """Decimal below 2^64, no sign, no leading zeros except 0 itself."""
    if not text or any(byte not in DIGITS for byte in text):
        raise Unreadable
    if text != b"0" and text.startswith(b"0"):
        raise Unreadable
    value = int(text)
    if value >= WORDS_END:
        raise Unreadable
    return value


def numbers(line, least, most):
    """The numbers of a line, with single spaces."""
    found = [number(text) for text in line.split(b" ")] if line else []
    if not least <= len(found) <= most:
        raise Unreadable
    return found


def lines(text):
    """The lines of a text, each ended by LF."""
    parts = text.split(b"\n")
    if parts.pop():
        raise Unreadable  # bytes that no LF follows
    return parts


def asked(text):
    """The table, the pool, the start node and the numbers."""
    if len(text) > MOST_INPUT_BYTES:
        raise Unreadable
    every = lines(text)
    if len(every) < 3:
        raise Unreadable
    table = numbers(every[0], 1, MOST_TABLE_WORDS)
    pool = numbers(every[1], 0, MOST_POOL_WORDS)
    (start,) = numbers(every[2], 1, 1)
    return table, pool, start, [numbers(line, 1, 1)[0] for line in every[3:]]


def printed(text):
    try:
        table, pool, start, asks = asked(text)
    except Unreadable:
        return UNREADABLE
    (refusal, node), _ = check_start(table, pool, start)
    if refusal != DONE:
        return f"refused {refusal} at {node}\n"
    said = []
    for n in asks:
        refusal, _, cells = write(table, pool, start, n, ROOM)
        if refusal == DONE:
            said.append(f"case {n}: " + " ".join(map(str, cells)) + "\n")
        else:
            said.append(f"case {n} refused {refusal}\n")
    return "".join(said)


def frames(data):
    place = 0
    while place < len(data):
        end = data.index(b"\n", place)
        start = end + 1
        place = start + int(data[place:end])
        assert place <= len(data)
        yield data[start:place]


def main():
    for text in frames(sys.stdin.buffer.read()):
        sys.stdout.write(printed(text) + "--\n")


if __name__ == "__main__":
    main()
