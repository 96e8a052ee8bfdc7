"""Rows by an id and two keys: a plain model of the program, and what draws its lines."""
from models.replies import GREATEST
from models.talk import TOLD, Answer, Model, Talk, many

LISTED = {"no range", "none", "one", "more", "equal keys"}


class Parts(Model):
    """Each part's shelf, price and count by its id."""

    KINDS = {
        "add": (4, {"new", "of equal keys", "of another shelf", "of another price", "of other keys", "refused", "refused over another"}),
        "set": (2, {"none", "there"}),
        "part": (1, {"none", "there"}),
        "remove": (1, {"none", "there"}),
        "shelf": (2, LISTED),
        "price": (2, LISTED),
        "list": (0, TOLD),
    }

    def __init__(self):
        self.held = {}

    def add(self, part, *row):
        lay = lambda: self.held.update({part: row})
        if part not in self.held:
            return Answer(["added"], "new", lay, "refused")
        shelf, price, count = self.held[part]
        keys = {(True, True): "equal keys", (False, True): "another shelf", (True, False): "another price", (False, False): "other keys"}
        return Answer([f"replaced {shelf} {price} {count}"], f"of {keys[shelf == row[0], price == row[1]]}", lay, "refused over another")

    def of_part(self, part, reply, change=lambda: None):
        """The answer of a line that names a part which is to be there."""
        return Answer([reply.format(*self.held[part])], "there", change) if part in self.held else Answer([f"no part {part}"], "none")

    def set(self, part, count):
        return self.of_part(part, "was {2}", lambda: self.held.update({part: (*self.held[part][:2], count)}))

    def part(self, part):
        return self.of_part(part, "{} {} {}")

    def remove(self, part):
        return self.of_part(part, "removed {} {} {}", lambda: self.held.pop(part))

    def within(self, at, start, end):
        """The parts with a key within a range, by that key and then by their ids."""
        found = sorted((row[at], part) for part, row in self.held.items() if start <= row[at] < end)
        is_equal = len({key for key, _ in found}) < len(found)
        met = "no range" if end <= start else "equal keys" if is_equal else many(found)
        return Answer([*(f"{key} {part}" for key, part in found), f"{len(found)} parts"], met)

    def shelf(self, start, end):
        return self.within(0, start, end)

    def price(self, start, end):
        return self.within(1, start, end)

    def list(self):
        found = [f"{part} {shelf} {price} {count}" for part, (shelf, price, count) in sorted(self.held.items())]
        return Answer([*found, f"{len(found)} parts"], "told")


class TalkOfParts(Talk):
    MODEL = Parts

    def __init__(self, draw):
        super().__init__(draw)
        spreads = [draw.choice([self.size // 20 + 1, self.size, GREATEST]) for _ in range(2)]
        self.spreads = [(draw.choice([0, GREATEST - it]), it) for it in spreads]  # where shelves and prices start, and how far they go
        self.keys = {}  # the shelf and the price that each part was given last

    def drawn(self, at):
        """A shelf, or a price."""
        first, spread = self.spreads[at]
        return first + self.draw.randint(0, spread)

    def range(self, at):
        """Two shelves or prices, between which mostly few lie. One time in ten they are the wrong way round."""
        start, width = self.drawn(at), self.draw.choice([1, 2, self.spreads[at][1] // 16 + 1])
        end = GREATEST if self.draw.random() < 0.02 else min(GREATEST, start + width)
        return [end, start] if self.draw.random() < 0.1 else [start, end]

    def numbers(self, word, key):
        if word in ("shelf", "price"):
            return self.range(word == "price")
        if word == "add":
            self.keys[key] = self.keys[key] if key in self.keys and self.draw.random() < 0.1 else (self.drawn(0), self.drawn(1))
            return [key, *self.keys[key], self.value()]
        return [key, self.value()][: Parts.KINDS[word][0]]

    def shown(self):
        return ["list", f"shelf 0 {GREATEST}", f"price 0 {GREATEST}"]
