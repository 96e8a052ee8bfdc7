"""A cache: a plain model of the program, and what draws its lines."""
import re

from models.replies import GREATEST
from models.talk import TOLD, Answer, Model, Talk

BUDGET = 100  # the most that all entries of the cache cost together
FOUND = {"none", "the oldest", "the latest", "another"}


class Cache(Model):
    """Entries, each a key, a value and a cost, from the least to the most lately used."""

    KINDS = {
        "put": (3, {"too large", "refused", *(f"{key}, {gone}" for key in ("new", "there") for gone in ("none goes", "one goes", "more go", "all others go"))}),
        "get": (1, FOUND),
        "peek": (1, FOUND),
        "remove": (1, FOUND),
        "oldest": (0, {"none", "there"}),
        "used": (0, TOLD),
    }

    def __init__(self):
        self.held = []

    def put(self, key, value, cost):
        if cost > BUDGET:
            return Answer(["too large"], "too large")
        others = [it for it in self.held if it[0] != key]
        used, gone = sum(it[2] for it in others), 0
        while used + cost > BUDGET:
            used, gone = used - others[gone][2], gone + 1
        is_new = len(others) == len(self.held)
        met = "none goes" if not gone else "all others go" if gone == len(others) else "one goes" if gone == 1 else "more go"
        lay = lambda: self.become([*others[gone:], (key, value, cost)])
        return Answer(["put"], f"{'new' if is_new else 'there'}, {met}", lay, "refused" if is_new else None)

    def become(self, entries):
        self.held = entries

    def of_key(self, key, reply, change=lambda at: None):
        """The answer of a line that names a key."""
        at = next((at for at, it in enumerate(self.held) if it[0] == key), None)
        if at is None:
            return Answer(["none"], "none")
        met = "the latest" if at == len(self.held) - 1 else "the oldest" if at == 0 else "another"
        return Answer([reply.format(self.held[at][1])], met, lambda: change(at))

    def get(self, key):
        return self.of_key(key, "{}", lambda at: self.held.append(self.held.pop(at)))

    def peek(self, key):
        return self.of_key(key, "{}")

    def remove(self, key):
        return self.of_key(key, "removed {}", self.held.pop)

    def oldest(self):
        return Answer(["removed {} {}".format(*self.held[0])], "there", lambda: self.held.pop(0)) if self.held else Answer(["none"], "none")

    def used(self):
        return Answer([f"{sum(it[2] for it in self.held)} of {BUDGET} in {len(self.held)} entries"], "told")


class TalkOfCache(Talk):
    MODEL, ENTRY, LIST = Cache, "put", "used"
    REFUSED = (0, 1, 2, 2, 3, 4), (1, 1, 2), (1, 3, 10, 40)

    def __init__(self, draw):
        super().__init__(draw)
        self.most = draw.choice([0, 1, 10, 30, BUDGET + 20])  # what an entry costs

    def numbers(self, word, key):
        cost = self.draw.choice([0, BUDGET, BUDGET + 1, GREATEST]) if self.draw.random() < 0.03 else self.draw.randint(0, self.most)
        return [key, self.value(), cost][: Cache.KINDS[word][0]]

    def filled(self):
        """These cost nothing, so that many have room."""
        return [re.sub("^(put .*) .*", r"\1 0", it) for it in super().filled()]

    def shown(self):
        return ["used", *["oldest"] * (self.size + 1), "used"]
