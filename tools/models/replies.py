"""What each line is to be replied, by sorted lists: what it makes of two maps and two sets, and what may be refused. It follows docs/COMMANDS.md, and shares
no code with the program. Needed where a command is new or replies another thing.

A refused extension alone leaves the pairs before one of those at which it may be refused; any other command that is refused changes nothing."""
import bisect
from typing import NamedTuple

from models.trees import CAPACITY

GREATEST = 2**64 - 1  # the greatest number
LONGEST = 4096  # the most bytes of a line


class Pairs:
    """Pairs in ascending order of their keys. They stay as they were made. An item of a set is a pair of it with itself."""

    def __init__(self, keys=(), values=()):
        self.keys = list(keys)
        self.values = list(values)

    def __len__(self):
        return len(self.keys)

    def place(self, key):
        """Where the key is or belongs, and whether it is there."""
        i = bisect.bisect_left(self.keys, key)
        return i, i < len(self.keys) and self.keys[i] == key

    def has(self, key):
        return self.place(key)[1]

    def at(self, key):
        """The value at the key, or None."""
        i, there = self.place(key)
        return self.values[i] if there else None

    def put(self, *pairs):
        """With each pair put in, in turn."""
        new = Pairs(self.keys, self.values)
        for key, value in pairs:
            new.lay(key, value)
        return new

    def lay(self, key, value):
        """Puts a pair in; only while these pairs are made."""
        i, there = self.place(key)
        self.keys[i : i + there] = [key]
        self.values[i : i + there] = [value]

    def cut(self, key):
        """Without the key."""
        i, there = self.place(key)
        return Pairs(self.keys[:i] + self.keys[i + there :], self.values[:i] + self.values[i + there :])

    def below(self, key):
        i, _ = self.place(key)
        return Pairs(self.keys[:i], self.values[:i])

    def not_below(self, key):
        i, _ = self.place(key)
        return Pairs(self.keys[i:], self.values[i:])

    def steps(self, low, high, ends):
        """The place that each step of a walk between the two bounds gives, or None."""
        first = 0 if low[0] == "*" else (bisect.bisect_left if low[0] == "=" else bisect.bisect_right)(self.keys, low[1])
        behind = len(self) if high[0] == "*" else (bisect.bisect_right if high[0] == "=" else bisect.bisect_left)(self.keys, high[1])
        steps = []
        for end in ends:
            if first == behind:
                steps.append(None)
            elif end == "f":
                steps.append(first)
                first += 1
            else:
                behind -= 1
                steps.append(behind)
        return steps

    def may_refuse(self, key):
        """Whether a pair at the key may be refused: at a new key, where there is no pair yet or as many as fill a leaf."""
        return (len(self) == 0 or len(self) >= CAPACITY) and not self.has(key)


class Stopped(Pairs):
    """What pairs are with the first of some others put in. The lists are made where they are looked at: of the many places where an extension may stop, its
    length mostly tells the one."""

    def __init__(self, before, more, length):
        self.before, self.more, self.length = before, more, length

    def __len__(self):
        return self.length

    def __getattr__(self, name):
        if name not in ("keys", "values"):
            raise AttributeError(name)
        made = self.before.put(*self.more)
        self.keys, self.values = made.keys, made.values
        return getattr(made, name)


# Lines as commands.


class NotACommand(Exception):
    pass


def number(word):
    if not (len(word) <= 20 and word.isdigit() and int(word) <= GREATEST):
        raise NotACommand
    return int(word)


def bound(word):
    """How the bound holds, and its key."""
    if word == b"*":
        return "*", 0
    if word[:1] not in (b"=", b"!"):
        raise NotACommand
    return chr(word[0]), number(word[1:])


def ends(word):
    if not word or word.strip(b"fb"):
        raise NotACommand
    return word.decode()


def write(word):
    """The end and the value that is written there."""
    if word[:2] not in (b"f=", b"b="):
        raise NotACommand
    return chr(word[0]), number(word[2:])


def items(words):
    return [(number(word), number(word)) for word in words]


def pairs(words):
    if len(words) % 2:
        raise NotACommand
    return [(number(key), number(value)) for key, value in zip(words[::2], words[1::2])]


def writes(words):
    return [write(word) for word in words]


LISTS = (items, pairs, writes)  # these read all words that are left, of which there has to be one


def read(readers, words):
    """What the words say, each by its reader."""
    said = []
    for reader in readers:
        if not words:
            raise NotACommand
        taken = len(words) if reader in LISTS else 1
        said.append(reader(words if reader in LISTS else words[0]))
        words = words[taken:]
    if words:
        raise NotACommand
    return said


class Command(NamedTuple):
    word: str
    names: tuple  # the places in the world of the map or set that is named, and of the other
    said: list

    def table(self):
        return ON_SETS if self.names[0] > 1 else ON_MAPS


def command_of(line):
    """The command that a line is, or None."""
    words = line.split(b" ")
    try:
        if len(line) > LONGEST:
            return None
        if words[0] == b"both":
            return Command("both", (0, 1), read(ON_MAPS["both"][0], words[1:]))
        at = 2 if words[0] == b"keep" else 1  # where the name stands
        if len(words) <= at or words[at] not in NAMES:
            return None
        word, name = b" ".join(words[:at]).decode(), NAMES[words[at]]
        table = ON_SETS if name > 1 else ON_MAPS
        return Command(word, (name, name ^ 1), read(table[word][0], words[at + 1 :])) if word in table else None
    except (NotACommand, UnicodeDecodeError):
        return None


# What a command makes of the pairs m that it names and of the others o, and its reply. The table is that of docs/COMMANDS.md.

NAMES = {b"a": 0, b"b": 1, b"s": 2, b"t": 3}
OPERATIONS = {"diff": set.difference, "sym": set.symmetric_difference, "inter": set.intersection, "union": set.union}


def some(*found):
    return "none" if None in found else "some " + " ".join(map(str, found))


def flag(truth):
    return "true" if truth else "false"


def or_dash(found):
    return "-" if found is None else str(found)


def listed(steps):
    return " ".join(["list", *map(or_dash, steps)])


def is_range(low, high):
    return "*" in (low[0], high[0]) or low[1] < high[1] or low[1] == high[1] and (low[0], high[0]) != ("!", "!")


def walk_of(m, low, high, letters, text):
    if not is_range(low, high):
        return "bad range"
    return listed(step if step is None else text.format(m.keys[step], m.values[step]) for step in m.steps(low, high, letters))


def written(m, o, low, high, writing):
    if not is_range(low, high):
        return "bad range", m, o
    new = Pairs(m.keys, m.values)
    steps = m.steps(low, high, [end for end, _ in writing])
    for step, (_, value) in zip(steps, writing):
        if step is not None:
            new.values[step] = value
    return str(len(steps) - steps.count(None)), new, o


def combined(operation, m, o):
    """The items that the operation on two sets gives."""
    keys = sorted(OPERATIONS[operation](set(m.keys), set(o.keys)))
    return Pairs(keys, keys)


def told_of(operation):
    """The rows of an operation that is listed, and of one that is kept."""
    return {
        operation: ([], lambda m, o: (listed(combined(operation, m, o).keys), m, o)),
        "keep " + operation: ([], lambda m, o: ("done", combined(operation, m, o), o)),
    }


def order(m, o):
    return "less" if m.keys < o.keys else "equal" if m.keys == o.keys else "greater"


SHARED = {
    "len": ([], lambda m, o: (str(len(m)), m, o)),
    "clear": ([], lambda m, o: ("done", Pairs(), o)),
    "append": ([], lambda m, o: ("done", m.put(*zip(o.keys, o.values)), Pairs())),
    "split": ([number], lambda m, o, k: ("done", m.below(k), m.not_below(k))),
    "copy": ([], lambda m, o: ("done", m, m)),
}
ON_MAPS = {
    **SHARED,
    "insert": ([number] * 2, lambda m, o, k, v: (some(m.at(k)), m.put((k, v)), o)),
    "get": ([number], lambda m, o, k: (some(m.at(k)), m, o)),
    "pair": ([number], lambda m, o, k: (some(k, m.at(k)), m, o)),
    "has": ([number], lambda m, o, k: (flag(m.has(k)), m, o)),
    "remove": ([number], lambda m, o, k: (some(m.at(k)), m.cut(k), o)),
    "set": ([number] * 2, lambda m, o, k, v: (some(m.at(k)), m.put((k, v)) if m.has(k) else m, o)),
    "entry": ([number] * 3, lambda m, o, k, v, w: (flag(m.has(k)), m.put((k, v if m.has(k) else w)), o)),
    "evict": ([number], lambda m, o, k: (some(k, m.at(k)), m.cut(k), o)),
    "walk": ([bound, bound, ends], lambda m, o, low, high, letters: (walk_of(m, low, high, letters, "{}:{}"), m, o)),
    "write": ([bound, bound, writes], written),
    "extend": ([pairs], lambda m, o, more: ("done", m.put(*more), o)),
    "both": ([number] * 4, lambda a, b, k, v, j, w: (f"both {or_dash(a.at(k))} {or_dash(b.at(j))}", a.put((k, v)), b.put((j, w)))),
}
ON_SETS = {
    **SHARED,
    "add": ([number], lambda m, o, k: (flag(not m.has(k)), m.put((k, k)), o)),
    "replace": ([number], lambda m, o, k: (some(m.at(k)), m.put((k, k)), o)),
    "take": ([number], lambda m, o, k: (some(m.at(k)), m.cut(k), o)),
    "drop": ([number], lambda m, o, k: (flag(m.has(k)), m.cut(k), o)),
    "in": ([number], lambda m, o, k: (flag(m.has(k)), m, o)),
    "find": ([number], lambda m, o, k: (some(m.at(k)), m, o)),
    "extend": ([items], lambda m, o, more: ("done", m.put(*more), o)),
    "walk": ([bound, bound, ends], lambda m, o, low, high, letters: (walk_of(m, low, high, letters, "{}"), m, o)),
    **{word: row for operation in OPERATIONS for word, row in told_of(operation).items()},
    "disjoint": ([], lambda m, o: (flag(not set(m.keys) & set(o.keys)), m, o)),
    "subset": ([], lambda m, o: (flag(set(m.keys) <= set(o.keys)), m, o)),
    "superset": ([], lambda m, o: (flag(set(m.keys) >= set(o.keys)), m, o)),
    "cmp": ([], lambda m, o: (order(m, o), m, o)),
}

# Whether a command may be refused and change nothing, and which of its numbers come back.
MAY_REFUSE = {
    "insert": lambda m, o, k, v: m.may_refuse(k),
    "entry": lambda m, o, k, v, w: m.may_refuse(k),
    "both": lambda a, b, k, v, j, w: a.may_refuse(k) or b.may_refuse(j),
    "add": lambda m, o, k: m.may_refuse(k),
    "replace": lambda m, o, k: m.may_refuse(k),
    "walk": lambda m, o, low, high, letters: is_range(low, high),
    "append": lambda m, o: len(m) > 0 and len(o) > 0,
    "split": lambda m, o, k: len(m) > 0,
    "copy": lambda m, o: len(m) > 0,
    **{kept + word: lambda m, o, word=word: len(combined(word, m, o)) > 0 for word in OPERATIONS for kept in ("", "keep ")},
}
COMES_BACK = {"insert": (0, 1), "entry": (0, 2), "both": (0, 1, 2, 3), "add": (0,), "replace": (0,)}


def refusal(command):
    """The reply where the command is refused."""
    back = [str(command.said[i]) for i in COMES_BACK.get(command.word, ())]
    return " ".join(["refused alloc", *back])


def stops(m, more):
    """What an extension may leave where it is refused: the pairs before one that may be."""
    new = Pairs(m.keys, m.values)
    for i, (key, value) in enumerate(more):
        if new.may_refuse(key):
            yield Stopped(m, more[:i], len(new))
        new.lay(key, value)


def after(world, command, m, o):
    """The world with these in the place of what the command names."""
    named, other = command.names
    return [m if i == named else o if i == other else held for i, held in enumerate(world)]


def answered(world, command):
    """The reply where the command isn't refused, and the world after it."""
    reply, m, o = command.table()[command.word][1](*(world[i] for i in command.names), *command.said)
    return reply, after(world, command, m, o)


def refused(world, command):
    """The worlds in which the command may leave this one where it is refused."""
    m, o = (world[i] for i in command.names)
    if command.word == "extend":
        return [after(world, command, left, o) for left in stops(m, *command.said)]
    return [world] if command.word in MAY_REFUSE and MAY_REFUSE[command.word](m, o, *command.said) else []
