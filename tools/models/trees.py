"""Which nodes trees have: how many a sound one of so many pairs has at the least and at the most, and just which one has that was made by insertions and
removals of one key each, by the rules of docs/DESIGN.md. It shares no code with the library. Needed where the shape of a node or of a tree changes.

How many requests a copy makes tells the nodes from outside: tools/refusals.py counts by it. What append, split_off and retain leave is free
within those rules, so no call here does as they do."""
import bisect
import functools

CAPACITY = 15  # the most pairs of a node: with as many, a map may need a node for a new key
LEAST = 7  # the fewest pairs of a node that is not the root


@functools.cache
def nodes_of(n):
    """How many leaves and how many nodes above them a sound tree of n pairs has, at the least and at the most, and on how many levels then.

    Between two neighbouring leaves stands one pair of a node above. So where there are several leaves, each with its 7 to 15 pairs takes 8 to 16 of n + 1.
    A node above has a child more than pairs, so 8 to 16 of the level below, but the root 2 at least. A level has the fewest nodes, or the most, where the one
    below it has: as few as hold all, or as many as find 8 each, or one, the root."""
    if n == 0:
        return (0, 0, 0), (0, 0, 0)
    trees = []
    for above in (lambda places: -(-places // (CAPACITY + 1)), lambda places: max(1, places // (LEAST + 1))):
        levels = [above(n + 1)]
        while levels[-1] > 1:
            levels.append(above(levels[-1]))
        trees.append((levels[0], sum(levels[1:]), len(levels)))
    return tuple(trees)


def requests_of_copy(n):
    """How many requests the copy of a sound tree of n pairs makes, at the least and at the most: it has the same nodes, of which a leaf asks once and one above
    twice."""
    return [leaves + 2 * above for leaves, above, _ in nodes_of(n)]


class Node:
    """A node: its keys in order, and in an inner node one child more."""

    def __init__(self, keys, children=None):
        self.keys, self.children = keys, children

    def place(self, key):
        """Where the key is or belongs, and whether it is there."""
        at = bisect.bisect_left(self.keys, key)
        return at, self.keys[at : at + 1] == [key]

    def has(self, key):
        at, there = self.place(key)
        return there or self.children is not None and self.children[at].has(key)

    def requests(self):
        """How many requests a copy makes: one for a leaf, and two for a node above."""
        return 1 if self.children is None else 2 + sum(child.requests() for child in self.children)

    def put(self, key):
        """Puts a new key in at or below the node. A full node is split, and hands out the key in the middle and the node on its right."""
        at, _ = self.place(key)
        handed = (key, None) if self.children is None else self.children[at].put(key)
        if handed is None:
            return None
        self.keys.insert(at, handed[0])
        if handed[1] is not None:
            self.children.insert(at + 1, handed[1])
        return self.split(left_of(at)) if len(self.keys) > CAPACITY else None

    def split(self, left):
        """Keeps so many keys, and hands out the next one and a node of those after it."""
        right = Node(self.keys[left + 1 :], None if self.children is None else self.children[left + 1 :])
        up = self.keys[left]
        self.keys = self.keys[:left]
        self.children = None if self.children is None else self.children[: left + 1]
        return up, right

    def take(self, key):
        """Takes a key out at or below the node. That of an inner node gives its place to the first one on its right."""
        at, there = self.place(key)
        if self.children is None:
            del self.keys[at]
            return
        if there:
            self.keys[at] = self.children[at + 1].take_first()
        else:
            self.children[at].take(key)
        self.mend(at + there)

    def take_first(self):
        """Takes the first key out at or below the node."""
        if self.children is None:
            return self.keys.pop(0)
        key = self.children[0].take_first()
        self.mend(0)
        return key

    def mend(self, at):
        """Gives a child with too few keys one of the sibling on its left, or on its right where it is the first. Where both and the key between them fit
        in one node, they are merged."""
        if len(self.children[at].keys) >= LEAST:
            return
        first = max(0, at - 1)
        left, right = self.children[first : first + 2]
        keys = [*left.keys, self.keys[first], *right.keys]
        children = None if left.children is None else left.children + right.children
        whole = Node(keys, children)
        if len(keys) <= CAPACITY:
            del self.keys[first]
            self.children[first : first + 2] = [whole]
            return
        self.keys[first], right = whole.split(len(left.keys) + (1 if at == 0 else -1))
        self.children[first : first + 2] = [whole, right]


def left_of(place):
    """How many keys stay in a full node that is split for a new one at this place. The new one never goes up, and each half has the least or one more."""
    return LEAST + 1 if place == LEAST or place > LEAST + 1 else LEAST


class Tree:
    """A tree that takes one key after another."""

    def __init__(self):
        self.root = None

    def has(self, key):
        return self.root is not None and self.root.has(key)

    def requests(self):
        """How many requests a copy makes."""
        return 0 if self.root is None else self.root.requests()

    def put(self, key):
        """Puts a key in, if it is new."""
        if self.has(key):
            return
        handed = self.root.put(key) if self.root else (key, None)
        if handed:
            self.root = Node([handed[0]], [self.root, handed[1]] if self.root else None)

    def take(self, key):
        """Takes a key out, if it is there. A root without keys gives way to its only child."""
        if not self.has(key):
            return
        self.root.take(key)
        if not self.root.keys:
            self.root = self.root.children[0] if self.root.children else None
