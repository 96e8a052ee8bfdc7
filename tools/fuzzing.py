"""What tools/fuzz.py and tools/fuzz_uses.py share: their words, the seeds of their runs, the requests that are refused, what occurred, what is dropped where a run
fails, and what is printed."""
import argparse
import collections
import time

SHRINKING = 60  # the most seconds of making a failure shorter


def words_of(says):
    """The words that each of both commands takes."""
    words = argparse.ArgumentParser(description=says, formatter_class=argparse.RawDescriptionHelpFormatter)
    words.add_argument("seconds", type=int)
    words.add_argument("seed", type=int, nargs="?", default=int(time.time()))
    words.add_argument("--runs", type=int, default=1)
    words.add_argument("--program")
    words.add_argument("--tally", action="store_true")
    return words


def seeds(words, at_once=1):
    """One seed after another, or so many at once, for as long as it goes on."""
    until, seed = time.monotonic() + words.seconds, words.seed
    while time.monotonic() < until or seed < words.seed + words.runs:
        yield range(seed, seed + at_once)
        seed += at_once


def requests_of(draw, starts, gaps, rows=(1, 1, 1, 3, 10)):
    """The numbers of the requests that are refused, one by one or several in a row, from one of the starts on and with such gaps between them."""
    gap, row = draw.choice(gaps), draw.choice(rows)
    at, requests = draw.choice(starts), []
    for _ in range(100):
        at += draw.randint(1, 2 * gap)
        for _ in range(draw.randint(1, row)):
            requests.append(at)
            at += 1
    return requests


class Tally:
    """How often each kind of line occurred, with each of its effects, and on trees of so many levels."""

    def __init__(self, kinds, passed):
        self.kinds, self.passed = kinds, passed  # the effects of each kind, and how many pairs a tree passes at each of its levels, at the least
        self.effects, self.levels = collections.Counter(), collections.Counter()

    def add(self, other):
        self.effects += other.effects
        self.levels += other.levels

    def see(self, kind, effect, length):
        self.effects[kind, effect] += 1
        # So many levels at the least; a tree whose nodes are not full has one more at the most.
        self.levels[kind, sum(length > most for most in self.passed)] += 1

    def missing(self):
        """The kinds of line that did not occur with each of their effects, or on trees of some number of levels."""
        lacking = [f"{kind}: {it}" for kind, effects in self.kinds.items() for it in sorted(effects) if not self.effects[kind, it]]
        return lacking + [f"{kind}: {n} levels" for kind in self.kinds for n in range(len(self.passed) + 1) if not self.levels[kind, n]]

    def print(self):
        for kind in sorted({kind for kind, _ in self.effects}):
            met = ", ".join(f"{it} {n}" for (of, it), n in sorted(self.effects.items()) if of == kind)
            print(f"  {kind}: {met}; by levels {' '.join(str(self.levels[kind, n]) for n in range(len(self.passed) + 1))}")


def dropped(parts, fails):
    """Drops parts for as long as the rest fails: halves, then quarters, and so on to single ones."""
    size = len(parts) // 2
    while size > 0:
        at = 0
        while at < len(parts):
            rest = parts[:at] + parts[at + size :]
            if rest and fails(rest):
                parts = rest
            else:
                at += size
        size //= 2


def shown(line):
    """The line, with each byte that isn't printed as \\0ooo."""
    return "".join(chr(byte) if 32 <= byte < 127 and byte != 92 else f"\\0{byte:03o}" for byte in line)


def print_fault(text, lines, wanted, told):
    """Prints what is wrong, the lines that show it, what was wanted and what was told; of long texts the front."""
    lines = [shown(line) for line in lines]
    text += ", with bytes as printf %b reads them" if any("\\" in line for line in lines) else ""
    shortened = [line if len(line) <= 500 else f"{line[:500]}.. ({len(line)} bytes)" for line in lines]
    if len(lines) > 40:
        shortened[20:-20] = [f".. ({len(lines) - 40} lines)"]
    print(text[:1000] + ":", *shortened, f"wanted: {wanted[:1000]}", f"told:   {told[:1000]}", sep="\n")


def print_end(words, last, passed, lacking, done):
    """Prints what came of all seeds up to the last, where all passed, and what did not occur in them though it was asked for. Answers the status."""
    lacking = lacking if words.runs > 1 else []
    if lacking:
        print(f"in these runs did not occur: {', '.join(lacking)}")
    print(f"seeds {words.seed} to {last}: {done}")
    print(f"{passed} passed, {len(lacking)} failed")
    return 1 if lacking else 0
