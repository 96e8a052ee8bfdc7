"""What the models of programs share: how a line is answered, and how the lines of a run are drawn. Needed where a program gets a model: it is a Model and a
Talk, and has a row in models/programs.py."""
import re
from typing import NamedTuple

from models.replies import GREATEST

ROOM = 1024  # the most bytes of a line
SIZES = (6, 24, 24, 100, 900)  # how many points, ids or keys there are in a run


class Answer(NamedTuple):
    """What a line is answered: the lines of its reply, what it met, what it makes of the model, and, where it may be refused, what a refusal meets."""

    reply: list
    met: str
    change: object = lambda: None
    refused: object = None


MANY, TOLD = ("none", "one", "more"), ("told",)


def many(found):
    return MANY[min(len(found), 2)]


class Model:
    """What a program holds. Each word of KINDS is a method, which answers a line of that word by its numbers."""

    KINDS = {}  # each word, with how many numbers it has after it, and what it may meet
    held = ()  # all entries

    def length(self):
        """How many entries there are."""
        return len(self.held)

    def knows(self, numbers):
        """Whether the model can follow a line of these numbers."""
        return True

    def answered(self, line):
        """The word of a line, and its answer."""
        if len(line) > ROOM:
            return "bad", Answer(["line too long"], "length")
        word, *numbers = line.split(b" ")
        word = word.decode("latin-1")
        is_well = word in self.KINDS and len(numbers) == self.KINDS[word][0] and all(it.isdigit() and int(it) <= GREATEST for it in numbers)
        return (word, getattr(self, word)(*map(int, numbers))) if is_well else ("bad", Answer(["bad line"], "line"))


class Talk:
    """Draws the lines of a run."""

    MODEL = Model
    ENTRY = "add"  # the word that puts an entry in
    LIST = "list"  # the word that tells how many there are
    REFUSED = (0, 1, 20, 60, 200, 500), (2, 8, 30, 100, 400)  # from which request on some are refused, how many are not between them, and how many in a row are

    def __init__(self, draw):
        self.draw, self.size, self.filling = draw, draw.choice(SIZES), 1 / 2
        self.first = draw.choice([0, 0, GREATEST - self.size])
        words = [it for it in self.MODEL.KINDS if it != self.LIST]
        self.words = draw.choices(words, [draw.choice([1, 3, 9]) for _ in words], k=draw.choice([30, 300, 1000]))
        self.places = [0]  # of the keys that were drawn

    def model(self):
        """The model before the first line."""
        return self.MODEL()

    def numbers(self, word, key):
        """The numbers after a word. Where it names a key, that is this one."""
        raise NotImplementedError

    def shown(self):
        """Lines that show all that is there at the end."""
        raise NotImplementedError

    def value(self):
        return self.draw.choice([0, GREATEST]) if self.draw.random() < 0.05 else self.draw.randrange(10)

    def place(self):
        """The place of any key, or of one that was drawn lately."""
        self.places.append(self.draw.choice(self.places[-9:]) if self.draw.random() < 0.4 else self.draw.randrange(self.size + 1))
        return self.places[-1]

    def line(self, word, at):
        """A line of the word, whose key has this place."""
        return " ".join([word, *map(str, self.numbers(word, self.first + at))])

    def filled(self):
        """Lines that put in many entries, some of them twice."""
        places = self.draw.sample(range(self.size), self.size * 2 // 3)
        places += self.draw.choices(places, k=self.size // 6)
        self.draw.shuffle(places)
        return [*(self.line(self.ENTRY, at) for at in places), self.LIST]

    def spoiled(self, line):
        """A line with a byte more, less or another, or as long as one may be, or longer."""
        at, byte = self.draw.randrange(len(line)), self.draw.choice(" x-+.\0\t\r9\xff")
        head, _, last = line.rpartition(" ")
        long = f"{head} {last.zfill(ROOM - len(head) - 1 + self.draw.randrange(2))}"
        other = self.draw.choice([line[:at] + byte + line[at:], line[:at] + line[at + 1 :], line + " 1", "", line.upper(), long])
        return other if self.model().knows([int(it) for it in re.findall("[0-9]+", other)]) else line

    def lines(self):
        lines = self.filled() if self.draw.random() < self.filling else []
        lines += [self.LIST if self.draw.random() < 0.02 else self.line(word, self.place()) for word in self.words]
        lines = [self.spoiled(it) if self.draw.random() < 0.02 else it for it in lines]
        return [it.encode("latin-1") for it in [self.LIST, *lines, *self.shown()]]
