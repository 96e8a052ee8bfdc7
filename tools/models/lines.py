"""Draws random lines for the program: which commands, in which order, on which keys. tools/fuzz.py runs them. Needed where a command is new."""
from models.replies import GREATEST, LISTS, LONGEST, ON_MAPS, ON_SETS, OPERATIONS, bound, ends, items, number, pairs, writes

DEEP = 1 / 5  # how many of the runs have trees of four levels
# The words of commands on maps and on sets: those that put in, those that take out or move many at once, and the others.
GROWING = {"insert", "entry", "both", "extend", "add", "replace"}
SWEEPING = {"clear", "append", "split", "copy", "keep diff", "keep sym", "keep inter", "keep union"}
# Keys that come in descending order leave 8 pairs in each node that is not before. So of the keys from the 16th on each ninth splits the first leaf, and of
# these splits from the 16th on each ninth the first node above, and so on: from 16 + 9 * 15 keys on there are three levels, and from 16 + 9 * (15 + 9 * 15)
# on four. The same is so, the other way round, where keys come in ascending order below one that stays the greatest.
THIN = {3: 16 + 9 * 15, 4: 16 + 9 * (15 + 9 * 15)}
ORDERS = {
    "ascending": lambda draw, keys: keys,
    "descending": lambda draw, keys: keys[::-1],
    "from the middle": lambda draw, keys: sorted(keys, key=lambda key: abs(key - keys[len(keys) // 2])),
    "at random": lambda draw, keys: draw.sample(keys, len(keys)),
    "every other": lambda draw, keys: [*keys[::2], *keys[1::4], *keys[3::4]],
}
THINNINGS = [(levels, order) for order in ORDERS for levels in THIN]


def extension(name, keys, value=lambda key: key % 10):
    """A line that extends the map or the set by these keys, in a map each with a value."""
    return f"extend {name} " + " ".join(str(key) if name in "st" else f"{key} {value(key)}" for key in keys)


class Talk:
    """Draws the lines of a run. How the keys lie and how often each word comes is drawn anew from time to time."""

    def __init__(self, draw, refusing, thinning):
        self.draw, self.refusing, self.thinning = draw, refusing, thinning
        self.deep = draw.random() < DEEP  # whether there are trees of four levels, and each word comes as often
        self.last, self.drawn = 0, [0]
        self.thinned = 0  # how many lines there are up to the end of a thinning
        self.turn()

    def turn(self):
        """Draws how the lines are from here on."""
        draw = self.draw
        self.spread = draw.choice([3, 20, 80, 400, 400, 3000, GREATEST + 1])
        self.base = draw.choice([0, 0, 0, GREATEST + 1 - self.spread])
        self.step = draw.choice([0, 0, 1, GREATEST])
        self.again = draw.choice([0, 0.2, 0.6])
        self.names = draw.choice(["ab", "st", "abst"] if self.deep else ["a", "s", "ab", "st", "aab", "sst", "abst", "abst"])
        growing, listing = draw.choice([1, 3, 12]), draw.choice([0.05, 0.3, 1])
        sweeping = draw.choice([0.2, 0.6, 1.5] if self.refusing else [0.05, 0.2, 0.6])
        self.words = {}
        for table in (ON_MAPS, ON_SETS):
            weights = []
            for word in table:
                weight = draw.choice([0, 1, 1, 3]) * (growing if word in GROWING else sweeping if word in SWEEPING else 1)
                weight = (0.2 if word in SWEEPING else 1) if self.deep else weight
                weight *= 4 if self.refusing and word in OPERATIONS else 1
                weights.append(weight * (listing if word in ("extend", "walk", "write") and self.refusing else 1) + 0.001)
            self.words[table is ON_SETS] = list(table), weights

    def fill(self, name):
        """Lines that extend a map or a set by many keys in some order, with gaps between them. Keys that are drawn then lie among them."""
        draw = self.draw
        keys = self.keys(draw.choice([4200, 5000] if self.deep else [16, 40, 160, 300, 300, 700]))
        order = draw.choice(["up", "down", "any", "any"])
        if order != "up":
            keys.reverse() if order == "down" else draw.shuffle(keys)
        return self.extend(name, keys, draw.choice([50, 400, 1000]))

    def keys(self, size):
        """So many keys in ascending order, with gaps between them."""
        gap, first = self.draw.choice([1, 2, 3]), self.draw.choice([0, 1, 7, size])
        self.spread, self.base, self.step = first + gap * size, 0, 0
        return [first + gap * i for i in range(size)]

    def thin(self, name, levels, order):
        """Lines by which a map or a set gets many keys, which stand in underfull nodes on so many levels, and loses most of them in this order."""
        draw = self.draw
        keys = self.keys(THIN[levels] + draw.choice([0, 100, 300, 500]))
        out = ORDERS[order](draw, keys)
        coming = keys[::-1] if draw.random() < 0.5 else [keys[-1], *keys[:-1]]
        words, look_up = (("take", "drop"), "find") if name in "st" else (("remove", "evict"), "pair")
        lines = [f"clear {name}", *self.extend(name, coming, 1000)]
        for i, key in enumerate(out[: len(out) - draw.choice([0, 3, len(out) // 20, len(out) // 6])]):
            lines.append(f"{draw.choice(words)} {name} {key}")
            if i % 16 == 0:
                lines.append(f"{look_up} {name} {draw.choice(out)}")
            if i % (len(out) // 4) == 0:
                lines.append(f"walk {name} * * {draw.choice('fb') * len(out)}")
        return [*lines, f"walk {name} * * {draw.choice('fb') * len(out)}", f"len {name}"]

    def extend(self, name, keys, most):
        """Lines that extend a map or a set by these keys, so many by a line at the most, and tell how many it then has."""
        keys, lines = keys[::-1], []
        while keys:
            line = f"extend {name}"
            while keys and len(line) < LONGEST - 30 and line.count(" ") < 2 * most:
                key = keys.pop()
                line += f" {key}" if name in "st" else f" {key} {key % 10}"
            lines += [line, f"len {name}"]
        return lines

    def key(self):
        """A key that was drawn before, the one beside the last, or any in the range of this turn."""
        chance = self.draw.random()
        if chance < self.again:
            return self.draw.choice(self.drawn)
        if self.step and chance < 0.95:
            self.last = (self.last + self.step) % (GREATEST + 1)
        else:
            self.last = self.base + self.draw.randrange(self.spread)
        self.drawn = [*self.drawn[-200:], self.last]
        return self.last

    def number(self, value=None):
        """A key, or this number, as it may be written."""
        text = str(self.key() if value is None else value)
        return text.zfill(self.draw.randint(1, 20)) if self.draw.random() < 0.03 else text

    def value(self):
        return self.number(self.draw.randrange(10) if self.draw.random() < 0.9 else self.draw.randint(0, GREATEST))

    def bounds(self):
        """Two bounds, of which many meet."""
        low = self.key()
        high = min(GREATEST, low + self.draw.choice([0, 0, 1, 2, self.draw.randrange(self.spread)]))
        if self.draw.random() < 0.05:
            low, high = high, low
        kinds = self.draw.choices("*=!", k=2)
        return " ".join("*" if kind == "*" else kind + self.number(key) for key, kind in zip((low, high), kinds))

    def ends(self, most):
        """The letters of a walk."""
        letters = self.draw.choice(["f", "b", "fb", "fb", "ffb", "fbb"])
        return "".join(self.draw.choices(letters, k=self.draw.randint(1, most)))

    def list_of(self, item):
        """One item or more, as many as a line takes."""
        words = [item() for _ in range(self.draw.choice([1, 2, 5, 16, 40, 150, 800]))]
        while len(" ".join(words)) > LONGEST - 20:
            words = words[: len(words) // 2]
        return " ".join(words)

    def line(self, name, of=()):
        """A command on this map or set, of these words where some are given."""
        words, weights = self.words[name in "st"]
        word = self.draw.choice([word for word in words if word in of]) if of else self.draw.choices(words, weights)[0]
        if word == "both":
            return " ".join([word, self.number(), self.value(), self.number(), self.value()])
        readers = (ON_SETS if name in "st" else ON_MAPS)[word][0]
        said = [self.bounds()] if bound in readers else []
        for at, reader in enumerate(readers):
            if reader is number:
                said.append(self.value() if at else self.number())
            elif reader is ends:
                said.append(self.ends(self.draw.choice([1, 8, 8, 60, 600])))
            elif reader in LISTS:
                said.append(self.list_of(self.items()[reader]))
        return " ".join([word, name, *said])

    def items(self):
        """How an item of each kind of list is drawn."""
        return {items: self.number, pairs: lambda: f"{self.number()} {self.value()}", writes: lambda: f"{self.draw.choice('fb')}={self.value()}"}

    def lines(self):
        """The lines of a run, of which the last show all that is there."""
        draw = self.draw
        # The reply to so long a walk makes room for the text of those after it.
        lines = ["walk a * * " + "f" * 4000] if self.refusing and draw.random() < 0.7 else []
        lines += self.thin(draw.choice("abst"), *self.thinning) if self.thinning else []
        self.thinned = len(lines)
        most = 200 if self.deep else draw.choice([3, 30, 300, 300, 1000])
        if self.deep or draw.random() < 0.5:
            lines += [line for name in sorted({*self.names}) if draw.random() < 0.7 for line in self.fill(name)]
        most += len(lines)
        while len(lines) < most:
            if draw.random() < 0.01:
                self.turn()
            line = self.line(draw.choice(self.names))
            if self.refusing and line.startswith("both") and draw.random() < 0.5:
                lines.append(f"insert a {line.split(' ')[1]} 0" if draw.random() < 0.5 else f"insert b {line.split(' ')[3]} 0")
            lines.append(line)
            if self.refusing and (line.startswith("extend") or draw.random() < 0.3):
                lines.append("len " + (line.split(" ")[1] if line.startswith("extend") else draw.choice(self.names)))
        for _ in range(2 if self.deep else 0):
            name = draw.choice(self.names)
            lines += [*self.fill(name), self.line(name, SWEEPING)]
        last = draw.choice([60, 500, 4000])
        lines += [f"walk {name} * * {draw.choice('fb') * last}" for name in "abst"]
        return lines + [f"copy {name}" for name in draw.sample("abst", 2)]

    def spoiled(self, line):
        """The line with something put in, left out or changed, which makes most lines no command; or one that is just too long, or as long as can be."""
        draw = self.draw
        at, byte = draw.randint(0, len(line)), bytes([draw.choice(b" \t\r\0-+.*=!09afbst~\xff")])
        kinds = [line[:at] + byte + line[at:], line[:at] + byte + line[at + 1 :], line[:at] + line[at + 1 :], line.upper(), line + b" ", b" " + line]
        kinds += [b"", line + b" 1", line.rsplit(b" ", 1)[0], line.replace(b" ", b"  ", 1), b"get a %d" % (GREATEST + draw.randrange(3)), b"in s " + b"1" * 21]
        return draw.choice(kinds + [b"walk a * * " + b"f" * (LONGEST - 11 + draw.randrange(2))])
