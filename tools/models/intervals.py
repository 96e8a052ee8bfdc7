"""Intervals: a plain model of the program, and what draws its lines."""
from models.replies import GREATEST
from models.talk import MANY, TOLD, Answer, Model, Talk, many
from models.trees import CAPACITY

MET = {"no end", "the start", "the end", "both ends", "one within it"}
ENDS = {"empty", "refused", *MET}


class Intervals(Model):
    """Points one after another. Each has nothing, or the number of an interval and its value: one interval is a number at points in a row."""

    KINDS = {
        "put": (3, ENDS | {f"refused among many, {met}" for met in MET}),
        "cut": (2, ENDS),
        "split": (1, {"none", "in two", "refused"}),
        "join": (1, {"none", "other values", "joined"}),
        "at": (1, {"none", "there"}),
        "over": (2, MANY),
        "gaps": (2, MANY),
        "list": (0, TOLD),
    }

    def __init__(self, first, size):
        self.first, self.points, self.made, self.many = first, [None] * size, 0, 0

    def length(self):
        return self.many

    def knows(self, numbers):
        return all(self.first <= it <= self.first + len(self.points) for it in numbers[:2])

    def place(self, point):
        """Where a point stands, or the nearest end of the row."""
        return min(max(point - self.first, 0), len(self.points))

    def write(self, start, end, value):
        """Gives the points of a range this value, or none."""
        self.made += 1
        self.many -= self.starts(start, end)
        held = None if value is None else (self.made, value)
        self.points[start:end] = [held] * (end - start)
        self.many += self.starts(start, end)

    def starts(self, start, end):
        """How many intervals start in a range of places or just after it."""
        points = [None, *self.points][start : end + 2]
        return sum(held is not None and held != before for before, held in zip(points, points[1:]))

    def begin(self, at):
        """Begins another interval at a place where one goes on."""
        self.made, self.many = self.made + 1, self.many + 1
        held = self.points[at]
        while at < len(self.points) and self.points[at] == held:
            self.points[at] = (self.made, held[1])
            at += 1

    def go_on(self, at):
        """Has the interval before a place go on over the one that begins there. It is another then than what goes on behind both."""
        self.made, self.many = self.made + 1, self.many - 1
        start, end = (next(run for run in self.runs(0, len(self.points)) if run[side] == at)[1 - side] for side in (1, 0))
        self.points[start:end] = [(self.made, self.points[at][1])] * (end - start)

    def goes_on(self, at):
        """Whether an interval goes on across a place."""
        return 0 < at < len(self.points) and self.points[at] is not None and self.points[at - 1] == self.points[at]

    def runs(self, start, end):
        """The runs of equal points in a range of places: where each starts and ends, and what its points have."""
        found, at = [], start
        while at < end:
            behind = at
            while behind < end and self.points[behind] == self.points[at]:
                behind += 1
            found.append((at, behind, self.points[at]))
            at = behind
        return found

    def intervals(self, start, end):
        """The intervals that have a point of a range of places, each whole."""
        while start < end and self.goes_on(start):
            start -= 1
        while start < end and self.goes_on(end):
            end += 1
        return [f"{a + self.first} {b + self.first} {held[1]}" for a, b, held in self.runs(start, end) if held]

    def ends_met(self, start, end):
        """What a change of a range of places meets at its ends."""
        both = {(False, False): "no end", (True, False): "the start", (False, True): "the end", (True, True): "both ends"}
        is_one = self.goes_on(start) and self.goes_on(end) and self.points[start - 1] == self.points[end] and len(self.runs(start, end)) == 1
        return "one within it" if is_one else both[self.goes_on(start), self.goes_on(end)]

    def put(self, start, end, value):
        if end <= start:
            return Answer(["empty interval"], "empty")
        at = self.place(start), self.place(end)
        met = self.ends_met(*at)
        # So many stand in several leaves: what was put in at one end has to go out again where the other is refused.
        refused = f"refused among many, {met}" if self.many > CAPACITY else "refused"
        return Answer(["ok"], met, lambda: self.write(*at, value), refused)

    def cut(self, start, end):
        if end <= start:
            return Answer(["ok"], "empty")
        at = self.place(start), self.place(end)
        return Answer(["ok"], self.ends_met(*at), lambda: self.write(*at, None), "refused" if self.goes_on(at[1]) else None)

    def split(self, point):
        at = self.place(point)
        return Answer(["ok"], "in two", lambda: self.begin(at), "refused") if self.goes_on(at) else Answer(["ok"], "none")

    def join(self, point):
        at = self.place(point)
        before, held = [None, *self.points, None][at : at + 2]
        if before is None or held is None or before == held:
            return Answer(["apart"], "none")
        return Answer(["joined"], "joined", lambda: self.go_on(at)) if before[1] == held[1] else Answer(["apart"], "other values")

    def at(self, point):
        held = (self.points[self.place(point) :] or [None])[0] if point >= self.first else None
        return Answer([str(held[1])], "there") if held else Answer(["none"], "none")

    def over(self, start, end):
        found = self.intervals(self.place(start), self.place(end)) if start < end else []
        return Answer([*found, f"over: {len(found)}"], many(found))

    def gaps(self, start, end):
        runs = self.runs(self.place(start), self.place(end)) if start < end else []
        found = [f"{a + self.first} {b + self.first}" for a, b, held in runs if held is None]
        return Answer([*found, f"gaps: {len(found)}"], many(found))

    def list(self):
        found = self.intervals(0, len(self.points))
        return Answer([f"intervals: {len(found)}", *found], "told")


PARTED = 1 / 3  # in how many of the runs many intervals are parted


class TalkOfIntervals(Talk):
    MODEL = Intervals
    REFUSED = (0, 1, 3, 8, 20), (1, 1, 2, 4), (1, 3, 10, 40)  # only what goes into a full leaf makes requests

    def __init__(self, draw):
        super().__init__(draw)
        self.longest = draw.choice([1, 3, self.size // 3 + 1, self.size])
        self.parts = draw.random() < PARTED  # whether most lines put a short interval into one of many that are longer
        if self.parts:
            self.size, self.filling = draw.choice([100, 300, 900]), 1
            self.first = draw.choice([0, GREATEST - self.size])
            self.words = draw.choices(["put", "cut", "split", "join", "at"], [12, 2, 2, 1, 1], k=300)

    def model(self):
        return Intervals(self.first, self.size)

    def length(self):
        """How many points an interval has at the most, and one time in eight many where most are short."""
        return self.longest if not self.parts else self.draw.choice([1, 1, 1, 2, 2, 2, 2, 30])

    def numbers(self, word, key):
        """One time in ten a range is empty or the wrong way round."""
        end = min(self.first + self.size, key + self.draw.randint(1, self.length()))
        start, end = (end, key) if self.draw.random() < 0.1 else (key, end)
        return {0: [], 1: [key], 2: [start, end], 3: [start, end, self.draw.randrange(4)]}[Intervals.KINDS[word][0]]

    def filled(self):
        each = 4 if self.parts else 1
        points = [self.first + at for at in self.draw.sample(range(0, self.size, each), self.size // each * 2 // 3)]
        return [*(f"put {it} {min(it + each, self.first + self.size)} {it % 3}" for it in points), "list"]

    def shown(self):
        whole = f"{self.first} {self.first + self.size}"
        return ["list", f"over {whole}", f"gaps {whole}"]
