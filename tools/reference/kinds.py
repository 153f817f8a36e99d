"""The kinds of node, by the numbers of document 01's "The table"."""

BELOW, NATS, POOL, SHIFT, OR, CONS, DEP, EXCEPT, FIX, AGAIN = range(10)
