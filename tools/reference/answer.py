"""Reads an input of the program `calls` on standard input and prints the lines that the program must print.

The lines are described in README.md. Words are decimal below 2^64 without sign and without leading zeros, parted by
single spaces; lines end in LF.
"""

import re
import sys

from reference import DONE, check, read, read_row, reader, write, write_row

MOST_INPUT_BYTES = 4_194_304
MOST_TABLE_WORDS = 1_024
MOST_POOL_WORDS = 5_000
MOST_ROOM = 70_000
MOST_ROW_WORDS = 70_000
WORDS_END = 2**64
WORD = re.compile(rb"0|[1-9][0-9]{0,19}")  # twenty digits hold every word; the value is tested too

UNREADABLE = "unreadable"


class Unreadable(Exception):
    """A line that is none of the calls, or passes a limit."""


def word(field):
    if not WORD.fullmatch(field) or int(field) >= WORDS_END:
        raise Unreadable
    return int(field)


def words(line, most):
    """A line of words alone, which may be empty."""
    fields = line.split(b" ") if line else []
    if len(fields) > most:
        raise Unreadable
    return tuple(word(field) for field in fields)


def room_of(field):
    room = word(field)
    if room > MOST_ROOM:
        raise Unreadable
    return room


def row_of(fields):
    if len(fields) > MOST_ROW_WORDS:
        raise Unreadable
    return [word(field) for field in fields]


# ---- one function for each call: from the fields after its name to the lines it prints ----


def refused(refusal, node):
    return f"refused {refusal} at {node}"


def listed(head, values):
    """`head:` and the values, with no space after the colon where there are none."""
    return " ".join([head + ":", *map(str, values)])


def answer_check(table, pool, fields):
    if fields:
        raise Unreadable
    refusal, node = check(table, pool)
    return ["accepted" if refusal == DONE else refused(refusal, node)]


def answer_write(table, pool, fields):
    start, room, number = with_fields(fields, 3)
    start, room, number = word(start), room_of(room), word(number)
    refusal, node, cells = write(table, pool, start, number, room)
    return [listed(f"{len(cells)} cells", cells) if refusal == DONE else refused(refusal, node)]


def answer_read(table, pool, fields):
    start, *cells = at_least(fields, 1)
    start, cells = word(start), row_of(cells)
    refusal, node, number = read(table, pool, start, cells)
    return [f"number {number}" if refusal == DONE else refused(refusal, node)]


def answer_row(call, counts, table, pool, fields):
    """A row call; counts(lent, given) are its items and its cells, by the row lent and the words given for it."""
    start, room, *row = at_least(fields, 2)
    start, room, row = word(start), room_of(room), row_of(row)
    refusal, node, item, given = call(table, pool, start, row, room)
    if refusal != DONE:
        return [refused(refusal, node) + f" item {item}"]
    items, cells = counts(row, given)
    return [listed(f"{items} items, {cells} cells", given)]


def answer_write_row(table, pool, fields):
    return answer_row(write_row, lambda numbers, cells: (len(numbers), len(cells)), table, pool, fields)


def answer_read_row(table, pool, fields):
    return answer_row(read_row, lambda cells, numbers: (len(numbers), len(cells)), table, pool, fields)


def answer_reader(table, pool, fields):
    start, *cells = at_least(fields, 1)
    start, cells = word(start), row_of(cells)
    lines = []
    for refusal, node, items, number, used in reader(table, pool, start, cells):
        if refusal != DONE:
            return [*lines, refused(refusal, node)]
        if items == 0:
            return [*lines, "end"]
        lines.append(f"number {number}, {used} cells")


def with_fields(fields, count):
    if len(fields) != count:
        raise Unreadable
    return fields


def at_least(fields, count):
    if len(fields) < count:
        raise Unreadable
    return fields


CALLS = {
    b"check": answer_check,
    b"write": answer_write,
    b"read": answer_read,
    b"write-row": answer_write_row,
    b"read-row": answer_read_row,
    b"reader": answer_reader,
}


# ---- the whole input ----


def read_table(lines):
    """The two lines after `table`: both are taken, whether or not they can be read."""
    table_line = next(lines, None)
    pool_line = next(lines, None)
    if table_line is None or pool_line is None:
        raise Unreadable
    return words(table_line, MOST_TABLE_WORDS), words(pool_line, MOST_POOL_WORDS)


def answer_call(current, line):
    """The lines for one call over the current table and pool; none has been read where current is None."""
    name, *fields = line.split(b" ")
    if current is None or name not in CALLS:
        raise Unreadable
    table, pool = current
    return CALLS[name](table, pool, fields)


def answers(data):
    """The printed lines for the bytes of an input."""
    if len(data) > MOST_INPUT_BYTES or (data and not data.endswith(b"\n")):
        yield UNREADABLE
        return
    lines = iter(data.split(b"\n")[:-1])  # what stands after the last LF is no line
    current = None
    for line in lines:
        try:
            if line == b"table":
                current = None  # a table that cannot be read leaves none to call
                current = read_table(lines)
            else:
                yield from answer_call(current, line)
        except Unreadable:
            yield UNREADABLE


def main():
    for line in answers(sys.stdin.buffer.read()):
        sys.stdout.write(line + "\n")


if __name__ == "__main__":
    main()
