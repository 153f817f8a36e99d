"""Calls whose answers a document states: the lines of an input, and with them the lines that the program must print.

Nothing here asks the reference. A maker prints its input, and with the argument `answers` its answers.
"""

import sys

from answer import listed, refused
from vectors import Vectors

ROOM = 100  # for one case; what stands after the case must keep its words


class Stated(Vectors):
    def __init__(self):
        super().__init__()
        self.answers = []

    def say(self, call, *answers):
        self.line(call)
        self.answers += answers

    def both(self, start, number, cells):
        """The case of a number, written and read."""
        self.call("write", start, ROOM, number)
        self.call("read", start, *cells)
        self.answers += [listed(f"{len(cells)} cells", cells), f"number {number}"]

    def size(self, start, size):
        """The size itself is the first number without a case."""
        self.say(f"write {start} {ROOM} {size}", refused(12, 0))

    def text(self, text):
        """Lines of a text: see the head of worked.py."""
        for line in filter(None, map(str.strip, text.splitlines())):
            if line.startswith("#"):
                continue
            if line.startswith("table "):
                nodes, _, pool = line.removeprefix("table ").partition("|")
                self.table(nodes.replace(",", " ").split(), pool.split())
            elif " is " in line:
                place, cells = line.split(" is ")
                start, number = place.split(" at ")
                self.both(start, number, cells.split())
            else:
                call, answers = line.split(" -> ")
                self.say(call, *answers.split("; "))

    def print(self):
        if sys.argv[1:] == ["answers"]:
            sys.stdout.write("".join(answer + "\n" for answer in self.answers))
        else:
            super().print()
