"""Random grammar tables for the vectors, and the tables that documents print.

Grower            grows a table node by node; every node passes its own row of checks
accepted(..)      a random accepted table
careless(..)      a random table whose nodes pass their rows, with cycles that may be refused
mutated(..)       a table with a word or two changed
LISTS, CHAIN      the tables L of document 01 and D (sixty-five ones)
"""

from kinds import AGAIN, BELOW, CONS, DEP, EXCEPT, FIX, NATS, OR, POOL, SHIFT
from reference import (
    DONE,
    ENDLESS,
    LARGEST_SHIFT,
    LARGEST_SIZE,
    MOST_FIRSTS_OF_DEP,
    MOST_NODES,
    NUMBERS_END,
    WORDS_PER_NODE,
    check,
    check_node,
    is_finite,
)

LAST_WORD = 2**64 - 1
LISTS = (BELOW, 1, 0, NATS, 0, 0, AGAIN, 5, 0, CONS, 1, 2, OR, 0, 3, FIX, 4, 0)
LISTS_START = 5
CHAIN = (BELOW, 1, 0, AGAIN, 3, 0, OR, 0, 1, FIX, 2, 0)
CHAIN_START = 3

# How much care a fix takes in choosing its body.
ANY, GUARDED, SOUND = range(3)

# Words at which a check could be off by one.
EDGE_WORDS = (
    *range(13),
    255,
    256,
    257,
    4_095,
    4_096,
    4_097,
    LARGEST_SHIFT - 1,
    LARGEST_SHIFT,
    LARGEST_SHIFT + 1,
    LARGEST_SIZE - 1,
    LARGEST_SIZE,
    LARGEST_SIZE + 1,
    2**63,
    LAST_WORD - 1,
    LAST_WORD,
)


def words_of(nodes):
    return tuple(word for node in nodes for word in node)


def random_word(random):
    """A word of any bit length, each length as likely as another."""
    return random.getrandbits(random.randrange(1, 65))


class Grower:
    """Grows a table. An again is written before its fix has a number, so agains wait in groups:
    an open group is a fix to come, and closing it writes the fix and fills in the agains."""

    def __init__(self, random):
        self.random = random
        self.nodes = []
        self.pool = []
        self.sizes = []
        self.waiting = {}  # open group -> its agains' numbers
        self.group_of = {}  # again -> group
        self.bodies = {}  # closed group -> its fix's body
        self.groups = 0

    # -- adding nodes --

    def add(self, kind, a=0, b=0):
        """Adds the node if its row of checks lets it, and says whether it did."""
        node = len(self.nodes)
        refusal, size = check_node([*self.nodes, (kind, a, b)], tuple(self.pool), self.sizes, node)
        if refusal != DONE:
            return False
        self.nodes.append((kind, a, b))
        self.sizes.append(size)
        return True

    def put_pool(self, words):
        """Puts words at the pool's end, or finds them in it where they stand already."""
        words = list(words)
        if len(words) <= len(self.pool) and self.random.random() < 0.3:
            for place in range(len(self.pool) - len(words) + 1):
                if self.pool[place : place + len(words)] == words:
                    return place
        place = len(self.pool)
        self.pool += words
        return place

    def any_node(self, suits=lambda node: True):
        """A lower node that suits, the last ones being likelier."""
        suited = [node for node in range(len(self.nodes)) if suits(node)]
        if not suited:
            return None
        late = suited[-4:]
        return self.random.choice(late if self.random.random() < 0.6 else suited)

    # -- what a node leads to --

    def parts(self, node):
        kind, a, b = self.nodes[node]
        if kind in (BELOW, NATS, POOL, AGAIN):
            return []
        if kind in (OR, CONS):
            return [a, b]
        if kind == DEP:
            return [a, *self.pool[b : b + self.sizes[a]]]
        return [a]

    def reached_groups(self, node, guarded, under_except=False):
        """The open groups that the node leads to; guarded: also by the second part of an or;
        under_except: only those below an except."""
        found, met, ahead = set(), set(), [(node, not under_except)]
        while ahead:
            here, counts = ahead.pop()
            if (here, counts) in met:
                continue
            met.add((here, counts))
            kind, a, _ = self.nodes[here]
            if kind == AGAIN:
                group = self.group_of[here]
                if group in self.waiting:
                    found |= {group} if counts else set()
                else:
                    ahead.append((self.bodies[group], counts))
                continue
            parts = [a] if kind == OR and not guarded else self.parts(here)
            ahead += [(part, counts or kind == EXCEPT) for part in parts]
        return found

    # -- groups --

    def open_again(self):
        """An again of a new group, or of an open one."""
        if self.waiting and self.random.random() < 0.4:
            group = self.random.choice(sorted(self.waiting))
        else:
            group = self.groups
            self.groups += 1
            self.waiting[group] = []
        node = len(self.nodes)
        self.nodes.append((AGAIN, 0, 0))
        self.sizes.append(ENDLESS)
        self.waiting[group].append(node)
        self.group_of[node] = group
        return True

    def suits_as_body(self, node, group, care):
        """Any endless node; with care GUARDED no unguarded cycle, with SOUND no except on a cycle either."""
        return (
            not is_finite(self.sizes[node])
            and (care < GUARDED or group not in self.reached_groups(node, guarded=False))
            and (care < SOUND or group not in self.reached_groups(node, guarded=True, under_except=True))
        )

    def close(self, group, care=SOUND):
        """Writes the group's fix over a body that suits."""
        body = self.any_node(lambda node: self.suits_as_body(node, group, care))
        if body is None:
            return False
        fix = len(self.nodes)
        self.nodes.append((FIX, body, 0))
        self.sizes.append(ENDLESS)
        for again in self.waiting.pop(group):
            self.nodes[again] = (AGAIN, fix, 0)
        self.bodies[group] = body
        return True

    def force_close(self, group):
        """Closes the group over a new or whose first part doesn't come back: there is one for every group."""
        again = self.waiting[group][0]
        first = self.any_node(lambda node: not self.reached_groups(node, guarded=True))
        if first is None:
            self.nodes.append((BELOW, 1, 0))
            self.sizes.append(1)
            first = len(self.nodes) - 1
        second = self.any_node(
            lambda node: group in self.reached_groups(node, guarded=True)
            and not self.reached_groups(node, guarded=True, under_except=True)
        )
        second = again if second is None else second
        return self.add(OR, first, second) and self.close(group)

    # -- random nodes --

    def grow_below(self):
        random = self.random
        few = random.randrange(1, 7)
        count = random.choice((1, few, few, few, random.randrange(1, 300), 256, 2**31, random_word(random)))
        count = random.choice((count, count, count, LARGEST_SIZE, LARGEST_SIZE - 1)) if random.random() < 0.1 else count
        return self.add(BELOW, count)

    def grow_nats(self):
        return self.add(NATS)

    def grow_pool(self):
        random = self.random
        count = random.choice((1, 2, 3, 3, 4, 5, 9))
        base = random.choice((0, 1, 32, 97, 1_000, random_word(random)))
        words = random.sample(range(base, base + 3 * count), count)
        words = [min(word, LAST_WORD - place) for place, word in enumerate(words)]
        return self.add(POOL, self.put_pool(words), count)

    def grow_shift(self):
        random = self.random
        part = self.any_node(lambda node: self.nodes[node][0] in (BELOW, NATS, SHIFT))
        k = random.choice((0, 1, 2, 97, random.randrange(1_000), LARGEST_SHIFT, random.randrange(LARGEST_SHIFT)))
        return part is not None and self.add(SHIFT, part, k)

    def grow_two_parts(self, kind):
        first, second = self.any_node(), self.any_node()
        return first is not None and self.add(kind, first, second)

    def grow_dep(self):
        random = self.random
        first = self.any_node(lambda node: is_finite(self.sizes[node]) and self.sizes[node] <= MOST_FIRSTS_OF_DEP)
        if first is None or (self.sizes[first] > 12 and random.random() < 0.9):
            return False
        finite = random.random() < 0.5
        suited = [node for node, size in enumerate(self.sizes) if is_finite(size) == finite]
        if not suited:
            return False
        seconds = [random.choice(suited) for _ in range(self.sizes[first])]
        return self.add(DEP, first, self.put_pool(seconds))

    def grow_except(self):
        random = self.random
        part = self.any_node(lambda node: self.sizes[node] != 1)
        if part is None:
            return False
        end = min(self.sizes[part], NUMBERS_END) if is_finite(self.sizes[part]) else NUMBERS_END
        few = random.randrange(min(end, 20))
        return self.add(EXCEPT, part, random.choice((0, few, few, end - 1, random.randrange(end))))

    def grow_fix(self):
        """A fix that no again names."""
        body = self.any_node(lambda node: not is_finite(self.sizes[node]))
        return body is not None and self.add(FIX, body)

    def grow_group(self, care):
        if not self.waiting:
            return False
        return self.close(self.random.choice(sorted(self.waiting)), care)

    def grow_one(self, care=SOUND):
        random = self.random
        ways = {
            self.grow_below: 3,
            self.grow_nats: 2,
            self.grow_pool: 2,
            self.grow_shift: 2,
            lambda: self.grow_two_parts(OR): 5,
            lambda: self.grow_two_parts(CONS): 5,
            self.grow_dep: 3,
            self.grow_except: 2,
            self.grow_fix: 1,
            self.open_again: 2 if len(self.waiting) < 3 else 0,
            lambda: self.grow_group(care): 3,
        }
        way = random.choices(list(ways), weights=list(ways.values()))[0]
        return way()

    def finish(self):
        """Closes every open group."""
        for group in sorted(self.waiting):
            if not self.close(group) and not self.force_close(group):
                return None
        return words_of(self.nodes), tuple(self.pool)


def accepted(random, count):
    """A random accepted table of about count nodes, with its pool."""
    while True:
        grower = Grower(random)
        while len(grower.nodes) < count:
            grower.grow_one()
        grown = grower.finish()
        if grown is not None and len(grower.nodes) <= MOST_NODES and check(*grown) == (DONE, 0):
            return grown


def careless(random, count, care):
    """A random table in which a fix takes a body with less care, so that unguarded cycles (care ANY) and excepts on
    cycles (care GUARDED) arise."""
    grower = Grower(random)
    grower.add(BELOW, 1)
    while len(grower.nodes) < count:
        grower.grow_one(care)
        if random.random() < 0.2:
            grower.open_again()
        if random.random() < 0.2:
            grower.grow_two_parts(random.choice((OR, OR, CONS)))
        if random.random() < 0.2:
            grower.grow_except()
    for group in sorted(grower.waiting):
        grower.close(group, care) or grower.close(group, ANY)
    return words_of(grower.nodes), tuple(grower.pool)


def changed_word(random, word, nodes):
    """Another word near by, or one at an edge."""
    near = ((word + 1) % 2**64, (word - 1) % 2**64)
    return random.choice((*near, *near, 0, random.randrange(nodes + 2), random.choice(EDGE_WORDS), random_word(random)))


def mutated(random, table, pool):
    """The table with a word changed, and sometimes a second one, two nodes exchanged, or a word of the pool changed."""
    table, pool = list(table), list(pool)
    nodes = len(table) // WORDS_PER_NODE
    for _ in range(random.choice((1, 1, 1, 2))):
        way = random.random()
        if pool and way < 0.2:
            place = random.randrange(len(pool))
            pool[place] = changed_word(random, pool[place], nodes)
        elif pool and way < 0.25:
            pool.pop()
        elif way < 0.32:
            one, other = random.randrange(nodes), random.randrange(nodes)
            for word in range(WORDS_PER_NODE):
                here, there = one * WORDS_PER_NODE + word, other * WORDS_PER_NODE + word
                table[here], table[there] = table[there], table[here]
        else:
            place = random.randrange(len(table))
            table[place] = changed_word(random, table[place], nodes)
    return tuple(table), tuple(pool)
