"""The worked cases of document 01 and the settled readings of it, with their answers as the documents give them.

Prints an input of the program `calls`; with the argument `answers`, what it must print. A line of the texts is

    table NODE, NODE, .. | POOL      a table; without a bar its pool is empty
    START at NUMBER is CELLS         the case of a number, written and read
    CALL -> ANSWER; ANSWER ..        one call, and the lines that it prints
"""

from cells import zeros
from grammars import LAST_WORD, words_of
from shapes import last_node, of_length, shifted
from stated import Stated

L = "0 1 0, 1 0 0, 9 5 0, 5 1 2, 4 0 3, 8 4 0"
D = "0 1 0, 9 3 0, 4 0 1, 8 2 0"
END = 2**62  # the first number that nobody may ask for


def words(values):
    return " ".join(map(str, values))


def nodes(table):
    return words(words_of(table))


# ---- document 01, "Cases on both sides"; P: also proved ----

BOTH_SIDES = f"""
table {L}
check -> accepted
# P
5 at 0 is 0 0
5 at 1 is 1 0 0 0
5 at 2 is 1 0 1 0 0 0
5 at 3 is 1 1 0 0
5 at 4 is 1 1 1 0 0 0
5 at 43 is 1 6 0 0
# the row of 1, 0, 3
write-row 5 100 1 0 3 -> 3 items, 10 cells: 1 0 0 0 0 0 1 1 0 0
read-row 5 100 1 0 0 0 0 0 1 1 0 0 -> 3 items, 10 cells: 1 0 3
reader 5 1 0 0 0 0 0 1 1 0 0 -> number 1, 4 cells; number 0, 2 cells; number 3, 4 cells; end
# lists of zeros: seven, eight, fifty, forty-nine
5 at 210066388901 is {words(zeros(7))}
read 5 {words(zeros(8))} -> refused 16 at 0
read 5 {words(zeros(50))} -> refused 13 at 0
read 5 {words(zeros(49))} -> refused 16 at 0

table 1 0 0, 5 0 0
# P
1 at 8 is 2 2
1 at 9 is 0 3
1 at 42 is 6 0
# and not P
1 at {END - 1} is {2**31 - 1} {2**31 - 1}
write 1 100 {END} -> refused 12 at 0
read 1 0 {2**31} -> refused 16 at 0

# P; the size is 6
table 0 2 0, 0 3 0, 5 0 1
2 at 1 is 1 0
2 at 5 is 1 2
write 2 100 6 -> refused 12 at 0
read 2 2 0 -> refused 15 at 0
read 2 0 3 -> refused 15 at 0

# P; the size is 4
table 0 2 0, 0 2 0, 5 0 1
2 at 1 is 0 1
2 at 3 is 1 1
write 2 100 4 -> refused 12 at 0

# P
table 0 2 0, 1 0 0, 4 0 1
2 at 4 is 1 2
read 2 2 2 -> refused 15 at 0

# dep: the size is 5
table 0 2 0, 0 3 0, 6 0 0 | 1 0
check -> accepted
2 at 3 is 1 0
2 at 4 is 1 1
write 2 100 5 -> refused 12 at 0
read 2 1 2 -> refused 15 at 0

# P
table 1 0 0, 7 0 13
1 at 13 is 14
read 1 13 -> refused 15 at 0
1 at 12 is 12

table 9 1 0, 8 0 0
check -> refused 9 at 0
write 1 100 0 -> refused 9 at 0
read 1 0 -> refused 9 at 0
write-row 1 100 0 -> refused 9 at 0 item 0
read-row 1 100 0 -> refused 9 at 0 item 0
reader 1 0 -> refused 9 at 0

table {D}
check -> accepted
3 at 65 is {words([1] * 65)} 0 0
write 3 100 66 -> refused 13 at 0
read 3 {words([1] * 66)} 0 0 -> refused 13 at 0
"""

# ---- document 01, sizes: the last number has a case, the size itself is refused ----

SIZES = f"""
table 0 {END} 0
0 at {END - 1} is {END - 1}
write 0 100 {END} -> refused 12 at 0
table 1 0 0
0 at {END - 1} is {END - 1}
write 0 100 {END} -> refused 12 at 0
write 0 100 {LAST_WORD} -> refused 12 at 0
table 2 1 2 | 7 8 9
0 at 1 is 9
write 0 100 2 -> refused 12 at 0
table 0 3 0, 3 0 10
1 at 2 is 12
write 1 100 3 -> refused 12 at 0
table 0 2 0, 0 3 0, 4 0 1
2 at 4 is 1 2
write 2 100 5 -> refused 12 at 0
table 0 3 0, 0 2 0, 4 0 1
2 at 4 is 0 2
write 2 100 5 -> refused 12 at 0
table 0 3 0, 7 0 0
1 at 1 is 2
write 1 100 2 -> refused 12 at 0
"""

# ---- document 01, "The table": refusals of a table that the settled readings below do not give ----

REFUSALS = f"""
table 99 0 0
check -> refused 2 at 0
table 5 0 0
check -> refused 4 at 0
table 2 0 2 | 5 5
check -> refused 6 at 0
table 0 {END} 0, 5 0 0
check -> refused 8 at 1
table 0 1 0, 9 4 0, 7 1 0, 4 0 2, 8 3 0
check -> refused 10 at 2
"""

# ---- document 01, "Where students slip": what has no case above ----

SLIPS = f"""
# a square that wraps: {2**32} squared is 0 in a word
table 1 0 0, 5 0 0
read 1 0 {2**32} -> refused 16 at 0
read 1 {2**32} 0 -> refused 16 at 0
# a buffer that is too short stays as it was
table {L}
write 5 5 2 -> refused 14 at 0
write 5 0 0 -> refused 14 at 0
write-row 5 9 1 0 3 -> refused 14 at 0 item 2
"""

# ---- settled readings: the table ----

TABLE = f"""
# kind and row together, node by node
table 0 0 0, 99 0 0
check -> refused 5 at 0
# any 9 before any 10
table 0 1 0, 9 5 0, 7 1 0, 4 0 2, 9 7 0, 8 3 0, 5 4 4, 8 6 0
check -> refused 9 at 4
# an or that names one node twice
table 9 2 0, 4 0 0, 8 1 0
check -> refused 9 at 0
# again asks only for the kind word 8
table 1 0 0, 9 2 0, 8 0 9
check -> refused 3 at 2
# a fix that no again names
table 1 0 0, 8 0 0
check -> accepted
# a node that nothing reaches
table {L}, 0 0 0
check -> refused 5 at 6
# an except that leads to a cycle
table {L}, 7 5 0
check -> accepted
# 9 names a node on the cycle
table 9 2 0, 9 2 0, 8 1 0
check -> refused 9 at 1
# within the pool
table 2 0 1 | 5
check -> accepted
# a size of exactly 2^62
table 0 {END} 0
check -> accepted
# seconds repeat, ranges overlap
table 0 2 0, 6 0 0 | 0 0
check -> accepted
table 2 0 2, 2 1 2 | 5 6 7
check -> accepted
# an except over size 1
table 0 1 0, 7 0 0
check -> refused 7 at 1
table 0 1 0, 7 0 {LAST_WORD}
check -> refused 7 at 1
# a pool too long, before anything else
table 99 0 0 | {words([0] * 4_097)}
check -> refused 1 at 0
# table words that are no multiple of 3
table 1 0
check -> refused 1 at 0
"""

# ---- settled readings: writing ----

WRITING = f"""
# the tag before the part
table {D}
write 3 66 66 -> refused 14 at 0
write 3 67 66 -> refused 13 at 0
# each shift is a visit
table {nodes(shifted(200))}
write 200 0 0 -> refused 13 at 0
write 200 100 0 -> refused 13 at 0
# an again as the start; a start that is not in the table
table {L}
2 at 0 is 0 0
write 6 100 0 -> refused 11 at 0
# 12 before 14
table 0 3 0
write 0 0 3 -> refused 12 at 0
write 0 0 2 -> refused 14 at 0
# a number inside that reaches 2^62
table 1 0 0, 7 0 0
1 at {END - 1} is {END}
# dep chooses by the first part's number
table 2 0 2, 0 2 0, 0 3 0, 6 0 2 | 1 0 1 2
3 at 4 is 0 2
"""

# ---- settled readings: reading ----

READING = f"""
# depth 201 before a cell is taken, and before the cells run out
table {nodes(shifted(200))}
read 200 0 -> refused 13 at 0
table {L}
read 5 {words(zeros(50)[:100])} -> refused 13 at 0
# nats takes any cell; leftovers before 16
table 1 0 0
read 0 {LAST_WORD} -> refused 16 at 0
read 0 {END} 0 -> refused 15 at 0
# the removed case before the next part, which is too deep
table {nodes(shifted(200))}, 7 0 13, 5 201 200
read 202 13 -> refused 15 at 0
read 202 14 -> refused 13 at 0
"""

# ---- settled readings: rows and the reader ----

ROWS = f"""
table {L}
# the walk before a full buffer of numbers
read-row 5 1 0 0 2 -> refused 15 at 0 item 1
read-row 5 1 0 0 0 0 -> refused 14 at 0 item 1
read-row 5 2 0 0 0 0 -> 2 items, 4 cells: 0 0
# no items: table and start are checked
write-row 5 0 -> 0 items, 0 cells:
read-row 5 0 -> 0 items, 0 cells:
reader 5 -> end
write-row 6 0 -> refused 11 at 0 item 0
read-row 6 0 -> refused 11 at 0 item 0
reader 6 -> refused 11 at 0
# after a refusal the reader stays
reader 5 0 0 2 -> number 0, 2 cells; refused 15 at 0
reader 5 0 0 {words(zeros(8))} 0 0 -> number 0, 2 cells; refused 16 at 0
table 99 0 0
write-row 6 0 -> refused 2 at 0 item 0
read-row 6 0 -> refused 2 at 0 item 0
reader 6 -> refused 2 at 0
"""


# ---- settled readings: limits. A row has at most 70,000 words here, so two cases of 35,000 make it ----

UNIT = (0, 1, 0)
MOST = 65_536
ROW = 70_000


def limits(stated):
    one = of_length(UNIT, MOST)
    start = last_node(one)
    stated.table(one)
    stated.say(f"write {start} {MOST} 0", f"{MOST} cells: {words([0] * MOST)}")
    stated.say(f"write {start} {MOST - 1} 0", "refused 14 at 0")
    stated.say(f"read {start} {words([0] * MOST)}", "number 0")
    more = of_length(UNIT, MOST + 1)
    start = last_node(more)
    stated.table(more)
    stated.say(f"write {start} {ROW} 0", "refused 14 at 0")
    stated.say(f"read {start} {words([0] * MOST)}", "refused 14 at 0")
    stated.say(f"read {start} {words([0] * (MOST + 1))}", "refused 14 at 0")
    stated.table((1, 0, 0))
    stated.say(f"read 0 {words([0] * ROW)}", "refused 15 at 0")
    half = of_length(UNIT, ROW // 2)
    start = last_node(half)
    row = words([0] * ROW)
    stated.table(half)
    stated.say(f"write-row {start} {ROW} 0 0", f"2 items, {ROW} cells: {row}")
    stated.say(f"read-row {start} 2 {row}", f"2 items, {ROW} cells: 0 0")
    stated.say(f"reader {start} {row}", *[f"number 0, {ROW // 2} cells"] * 2, "end")


def worked():
    stated = Stated()
    for text in (BOTH_SIDES, SIZES, REFUSALS, SLIPS, TABLE, WRITING, READING, ROWS):
        stated.text(text)
    limits(stated)
    return stated


if __name__ == "__main__":
    worked().print()
