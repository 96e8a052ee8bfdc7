"""What maps and sets take of a budget, by how many pairs they have: each is a sound tree. Needed where a node takes other bytes, or a command other nodes.

A budget refuses only where the most that stands and the most that the command takes pass it, so none of them where it has room for these; and where the least
that a command would leave passes it, the command is refused."""
from models.replies import OPERATIONS, Pairs, answered, command_of, refused
from models.trees import CAPACITY, nodes_of

ITEM, PAIR, NODE = 8, 16, 56  # the bytes of an item of a set, of a pair of a map, and of a node in a list, with the two handles on the budget that it keeps


def bytes_of(name, leaves, above):
    """What so many leaves, and so many nodes above leaves, of the map or set of that place in the world take: each has a list of its pairs, and those above
    have one of their children."""
    pairs = CAPACITY * (ITEM if name > 1 else PAIR)
    return leaves * pairs + above * (pairs + (CAPACITY + 1) * NODE)


def least_of(name, n):
    leaves, above, _ = nodes_of(n)[0]
    return bytes_of(name, leaves, above)


def most_of(name, n):
    leaves, above, _ = nodes_of(n)[1]
    return bytes_of(name, leaves, above)


def way_of(name, n):
    """The most that a pair at a new key takes, in a map or set of n pairs: a node on each level, and a root."""
    return bytes_of(name, 1, nodes_of(n)[1][2])


def one_more(name, n):
    """The most that one node more on each level takes, beside a tree of n pairs that may have one more there already, with the list in which the nodes lie
    first."""
    return 2 * way_of(name, n) + (nodes_of(n)[1][2] + 1) * NODE


def made_of(name, n):
    """The most that nodes for n pairs take where they are made at once: they may be one more on each level, and lie in a list until they are needed."""
    leaves, above, levels = nodes_of(n)[1]
    return most_of(name, n) + way_of(name, n) + (leaves + above + levels + 1) * NODE


def least_held(world):
    return sum(least_of(name, len(pairs)) for name, pairs in enumerate(world))


def most_held(world):
    return sum(most_of(name, len(pairs)) for name, pairs in enumerate(world))


# The most that a command takes beside what stands before it, by the place of what it names and how many pairs that and the other have. All others take no
# memory of maps and sets: lines and replies have theirs elsewhere.
TAKES = {
    "insert": lambda name, m, o, k, v: way_of(name, m),
    "entry": lambda name, m, o, k, v, w: way_of(name, m),
    "both": lambda name, m, o, k, v, j, w: way_of(name, m) + way_of(name, o),
    "add": lambda name, m, o, k: way_of(name, m),
    "replace": lambda name, m, o, k: way_of(name, m),
    "extend": lambda name, m, o, more: most_of(name, m + len(more)) - most_of(name, m) + way_of(name, m + len(more)),
    "append": lambda name, m, o: made_of(name, m + o),
    "split": lambda name, m, o, k: one_more(name, m),
    "copy": lambda name, m, o: made_of(name, m),
    **{"keep " + word: lambda name, m, o: made_of(name, m + o) for word in OPERATIONS},
}


def most_taken(world, command):
    """What stands before the command and what it takes, together at the most."""
    lengths = [len(world[i]) for i in command.names]
    return most_held(world) + (TAKES[command.word](command.names[0], *lengths, *command.said) if command.word in TAKES else 0)


def room_for(lines):
    """The bytes of a budget in which none of the lines is refused."""
    world, room = [Pairs()] * 4, 0
    for command in map(command_of, lines):
        if command is None:
            break
        room = max(room, most_taken(world, command))
        _, world = answered(world, command)
    return room


def refused_within(world, command, budget):
    """The same, where only a budget of so many bytes refuses: it does where what stands and what the command takes may pass it. An extension is refused at a
    pair, so by what stands then and the nodes for that pair, as an insertion."""
    if command.word != "extend":
        return refused(world, command) if most_taken(world, command) > budget else []
    name = command.names[0]
    return [left for left in refused(world, command) if most_held(left) + way_of(name, len(left[name])) > budget]


def fits(world, budget):
    """Whether so much can stand in the budget."""
    return budget is None or least_held(world) <= budget
