"""Timers: a plain model of the program, and what draws its lines."""
from models.replies import GREATEST
from models.talk import TOLD, Answer, Model, Talk, many


class Timers(Model):
    """Each timer's time by its id, in the order of their turns: of being added, or moved."""

    KINDS = {
        "add": (2, {"alone at its time", "behind others", "there", "refused"}),
        "move": (2, {"none", "to an earlier time", "to its own time", "to a later time"}),
        "cancel": (1, {"none", "the next", "another"}),
        "next": (0, {"none", "there"}),
        "due": (1, {"none is set", "none", "one", "more", "more of one time", "all"}),
        "count": (0, TOLD),
    }

    def __init__(self):
        self.held = {}

    def lay(self, timer, due):
        """Sets a timer after all others."""
        self.held.pop(timer, None)
        self.held[timer] = due

    def add(self, timer, due):
        if timer in self.held:
            return Answer([f"timer {timer} is set already"], "there")
        met = "behind others" if due in self.held.values() else "alone at its time"
        return Answer(["added"], met, lambda: self.lay(timer, due), "refused")

    def move(self, timer, due):
        if timer not in self.held:
            return Answer([f"no timer {timer}"], "none")
        old = self.held[timer]
        met = "to its own time" if due == old else "to an earlier time" if due < old else "to a later time"
        return Answer([f"moved, was due at {old}"], met, lambda: self.lay(timer, due))

    def cancel(self, timer):
        if timer not in self.held:
            return Answer([f"no timer {timer}"], "none")
        met = "the next" if timer == min(self.held, key=self.held.get) else "another"
        return Answer([f"cancelled, was due at {self.held[timer]}"], met, lambda: self.held.pop(timer))

    def next(self):
        return Answer([f"next at {min(self.held.values())}"], "there") if self.held else Answer(["none is set"], "none")

    def due(self, now):
        # This order is stable: timers of one time stay in that of their turns.
        out = sorted((it for it, due in self.held.items() if due <= now), key=self.held.get)
        shares = len({self.held[it] for it in out}) < len(out)
        met = "none is set" if not self.held else "more of one time" if shares else "all" if len(out) == len(self.held) else many(out)
        return Answer([*(f"{it} was due at {self.held[it]}" for it in out), f"{len(out)} due"], met, lambda: [self.held.pop(it) for it in out])

    def count(self):
        return Answer([f"{len(self.held)} set"], "told")


class TalkOfTimers(Talk):
    MODEL, LIST = Timers, "count"
    REFUSED = (0, 1, 4, 20, 60), (1, 4, 20, 60)

    def __init__(self, draw):
        super().__init__(draw)
        self.ahead = draw.choice([1, 4, self.size, 10**9])  # how far before the clock times are
        self.pace = draw.choice([0, 1, self.ahead // 10 + 1])  # how far the clock goes on between two lines that say what is due
        self.clock = draw.choice([0, 0, 10**6, GREATEST - self.ahead])

    def now(self):
        self.clock = min(GREATEST, self.clock + self.draw.randint(0, self.pace))
        return self.draw.choice([0, GREATEST]) if self.draw.random() < 0.03 else self.clock

    def time(self):
        return self.draw.choice([0, GREATEST]) if self.draw.random() < 0.03 else min(GREATEST, self.clock + self.draw.randint(0, self.ahead))

    def numbers(self, word, key):
        return [self.now()] if word == "due" else [key, self.time()][: Timers.KINDS[word][0]]

    def shown(self):
        return ["count", "next", f"due {GREATEST}", "count"]
