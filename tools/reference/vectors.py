"""Collects the lines of an input for the program `calls`, and prints them."""

import sys

from answer import MOST_INPUT_BYTES


class Vectors:
    def __init__(self):
        self.lines = []
        self.bytes = 0

    def line(self, line):
        self.lines.append(line)
        self.bytes += len(line) + 1

    def put(self, lines):
        for line in lines:
            self.line(line)

    def call(self, name, *fields):
        self.line(" ".join([name, *map(str, fields)]))

    def table(self, table, pool=()):
        self.line("table")
        self.line(" ".join(map(str, table)))
        self.line(" ".join(map(str, pool)))

    def checked(self, table, pool=()):
        self.table(table, pool)
        self.call("check")

    def calls(self, calls):
        """Calls about the table that stands, each (name, fields)."""
        for name, fields in calls:
            self.call(name, *fields)

    def group(self, table, pool, calls):
        self.table(table, pool)
        self.calls(calls)

    def between(self, lines, name, *fields):
        """Lines that cannot be read, and after each a call that can: the table still stands."""
        for line in lines:
            self.line(line)
            self.call(name, *fields)

    def data(self):
        return "".join(line + "\n" for line in self.lines).encode()

    def print(self):
        assert self.bytes <= MOST_INPUT_BYTES, f"{self.bytes} bytes are too many for one input"
        sys.stdout.buffer.write(self.data())


def print_made(make, default_seed):
    """What every generator does as a program: its one argument, if there is one, is the seed."""
    make(int(sys.argv[1]) if len(sys.argv) > 1 else default_seed).print()
