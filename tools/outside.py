"""Trees as they look from outside, the part of tools/refusals.py that counts the requests of their copies and fills their leaves. Needed where a call on
whole maps or sets is new, or leaves other nodes.

A command on a whole map or set is done where no request is refused, and after it, and after `retain` and `extract_if` in the probe of the map, a copy makes no
fewer and no more requests than that of a sound tree of so many pairs can. With all memory refused, keys then go into each gap of those of up to 255 pairs: a
leaf that takes more of them than a sound one has room for had too few. Where keys went in and out one by one, copies make just as many requests as those of
the trees that models/trees.py gives."""
import itertools
import random
import re

import judge
from judge import Case, refused_at
from models.lines import ORDERS, THIN, extension
from models.replies import NAMES, Pairs, answered, command_of
from models.trees import CAPACITY, LEAST, Tree

SIZES = (1, 15, 16, 30, 127, 255, 600, 1400)


def extended(name, keys):
    """Lines that extend by these keys, each no longer than a line may be."""
    each = 300
    return [extension(name, keys[i : i + each]) for i in range(0, len(keys), each)]


def shapes():
    """What makes a tree: a word for it, and the lines."""
    for n in SIZES:
        keys = range(2, 2 + 2 * n, 2)
        for order in keys, keys[::-1], [*keys[::2], *keys[1::2]], [*keys[::2], *keys[-1::-2]]:
            yield "extend", extended("a", order)
        for m in SIZES:
            beyond, between, same = range(2 * n + 5, 2 * n + 5 + m), range(3, 3 + 2 * m, 2), range(2, 2 + 2 * m, 2)
            yield "extend", [*extended("s", keys), *extended("s", beyond)]
            for more in beyond, between, same:
                yield "append", [*extended("a", keys), *extended("b", more), "append a"]
                yield "keep union", [*extended("s", more), *extended("t", keys), "keep union s"]
            yield "append", [*extended("a", beyond), *extended("b", keys), "append a"]
        for place in sorted({0, 1, 7, 8, n // 3, n // 2, n - 8, n - 1} & set(range(n))):
            for order in keys, keys[::-1]:
                yield "split", [*extended("a", order), f"split a {keys[place]}"]


def kept():
    """The rows of the probe of the map by which some pairs stay, or are taken out: so many of ten, so many in a row alike."""
    for n in SIZES[:-2] + (170, 500):
        for tenths in 0, 1, 3, 5, 7, 9:
            for in_a_row in 1, 6, 60:
                for word in "retain", "extract":
                    yield word, [f"{word} 0 {n} 1 {tenths} {in_a_row} {tenths + n}"]


APART = 16  # so far apart are keys where new ones go between them
PROBED = 255  # the most pairs of a tree whose leaves are filled


def spread(lines):
    """The lines with numbers that lie apart, and what stands after them."""
    lines, world = [re.sub("[0-9]+", lambda number: str(APART * int(number[0])), line).encode() for line in lines], [Pairs()] * 4
    for line in lines:
        _, world = answered(world, command_of(line))
    return lines, world


def short_leaves(program, name, lines, keys):
    """The keys after which a leaf takes more new ones than it may have room for, where no memory is to be had from the end of the lines on."""
    room, word = CAPACITY - LEAST, {"a": "insert a {} 7", "b": "insert b {} 7", "s": "add s {}", "t": "add t {}"}[name]
    gaps = [0, *keys]
    tried = [word.format(key + more).encode() for key in gaps for more in range(1, room + 2)]
    ran = program.run(Case(lines + tried, onward=program.run(Case(lines)).requests + 1))
    if len(ran.replies) != len(lines) + len(tried):
        return [judge.ending(ran.status, ran.error)]
    taken = [not reply.startswith("refused") for reply in ran.replies[len(lines) :]]
    return [key for i, key in enumerate(gaps) if all(taken[i * (room + 1) : (i + 1) * (room + 1)])]


def wrong_leaves(lines):
    """A function that tells what is wrong with the leaves of a tree after the lines, by its program and its name; of a lone leaf, nothing is."""
    lines, world = spread(lines)

    def told(program, name):
        keys = world[NAMES[name.encode()]].keys
        return short_leaves(program, name, lines, keys) if CAPACITY < len(keys) <= PROBED else []

    return told


def wrong_shapes(work):
    """What makes a tree, and what is wrong with those that stand then."""
    program, (word, lines) = work
    names = [""] if word in ("retain", "extract") else [" s", " t"] if lines[0].split(" ")[1] in "st" else [" a", " b"]
    made, leaves = f"  {lines[-1][:60]} after {len(lines) - 1} lines", wrong_leaves(lines) if names[0] else None
    lines = [line.encode() for line in lines + [f"len{name}" for name in names]]
    ran = program.run(Case(lines))
    if ran.status != 0:
        return word, [f"{made}: {judge.ending(ran.status, ran.error)}"]
    wrong = [f"{made}: line {at + 1} was refused, and no request was" for at in refused_at(ran)]
    for name, reply in zip(names, ran.replies[-len(names) :]):
        copied = program.run(Case([*lines, f"copy{name}".encode()]))
        fault = judge.fault_of_copy(len(lines), int(reply.split(" ")[-1]), copied.requests - ran.requests)
        wrong += [f"{made}: wanted {fault.wanted}, told {fault.told}"] if fault else []
        short = leaves(program, name[1:]) if leaves else []
        wrong += [f"{made}, each number {APART}-fold: too few pairs in leaves of{name}, at {short[:5]}"] if short else []
    return word, wrong


# Trees that lines of one key make and wear.

WORN = THIN[4]  # so many keys go in, which stand on four levels where they come in descending order
COPIED = 50  # a copy comes at each line of so many
SINGLY = {
    ("a", "put"): ("insert a {} 7", "entry a {} 7 8"),
    ("a", "take"): ("remove a {}", "evict a {}"),
    ("s", "put"): ("add s {}", "replace s {}"),
    ("s", "take"): ("take s {}", "drop s {}"),
}


def orders():
    """What is done with keys, in several orders: most go in and out, then half of them again, and at last all go out."""
    draw, keys = random.Random(1), list(range(1, WORN + 1))
    for coming, going in itertools.product(("ascending", "descending", "at random"), ORDERS):
        into, out = (ORDERS[order](draw, keys) for order in (coming, going))
        yield [("put", into), ("take", out[: WORN * 5 // 6]), ("put", draw.sample(keys, WORN // 2)), ("take", out)]


def worn():
    """Lines of one key each on a map or a set, with copies between them, and the requests that each copy is to make."""
    for steps, name in zip(orders(), itertools.cycle("as")):
        tree, lines, wanted = Tree(), [], []
        for at, (call, key) in enumerate((call, key) for call, keys in steps for key in keys):
            getattr(tree, call)(key)
            lines.append(SINGLY[name, call][at % 2].format(key))
            if at % COPIED == 0:
                lines.append(f"copy {name}")
                wanted.append(tree.requests())
        yield lines, wanted


def is_copy(line):
    return line.startswith("copy")


def front(lines, copies):
    """The lines up to the last of so many copies."""
    return lines[: [at for at, line in enumerate(lines) if is_copy(line)][copies - 1] + 1]


def asked_by_copies(program, lines):
    """How many requests the copies among the lines make together, or None where a run doesn't end well."""
    runs = [program.run(Case([line.encode() for line in some])) for some in (lines, [line for line in lines if not is_copy(line)])]
    return None if any(ran.status for ran in runs) else runs[0].requests - runs[1].requests


def wrong_worn(work):
    """What is wrong with the copies among lines of one key each: the first that makes other requests, as the requests of all up to it tell."""
    program, (lines, wanted) = work
    if asked_by_copies(program, lines) == sum(wanted):
        return "one key", []
    least, most = 0, len(wanted)
    while most - least > 1:
        middle = (least + most) // 2
        is_well = asked_by_copies(program, front(lines, middle)) == sum(wanted[:middle])
        least, most = (middle, most) if is_well else (least, middle)
    shown = front(lines, most)
    told = asked_by_copies(program, shown)
    return "one key", [f"  {shown[-2]} after {len(shown) - 2} lines from {shown[0]} on: wanted {sum(wanted[:most])} requests of {most} copies, told {told}"]
