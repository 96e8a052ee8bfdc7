#!/usr/bin/env python3
"""Runs built programs on maps and sets of 100,000 and of 1,000,000 items, and others on 100,000 entries, beside sorted lists: none is refused. Needed where a
call that takes memory is new.

  tools/large.py [SIZE..]

No clause says that a call with ample memory is done: one that refuses where there are more than 65,536 pairs is proved. So each call that takes memory is made
at these sizes, by keys in ascending order and in one that jumps: what it replies, how many there are after it, and all that is there are as reasoning says. The
texts of operations that are listed have up to ten million bytes. Interval maps and tables have 100,000 entries.

Trees of which each node is full are split too. The program with a budget puts about 100,000 keys into a map and a set in just so many bytes as their nodes
take, and in one byte less, where the last key alone is refused. A load of 70,000 keys in an order that jumps makes no more requests and comparisons than one
that sorts them, as insertions one by one do. It prints a line for each program and size, and last 'N passed, M failed'. It needs a C compiler."""
import pathlib
import subprocess
import sys
import tempfile
import time

sys.dont_write_bytecode = True
import judge
from models.budgets import bytes_of, least_of, most_of
from models.lines import extension
from models.trees import CAPACITY, LEAST, requests_of_copy

TOP = pathlib.Path(__file__).resolve().parent.parent
SIZES = (100_000, 1_000_000)
A_LINE = 150  # how many pairs an extension has, so that its line has at most 4,096 bytes
STEPS = 4_000  # how many steps a walk has, for the same reason
JUMP = 611_953  # a prime that divides no size, so that its multiples come to each place once
PLACES = 12_007  # for so many insertions at once are nodes taken ahead
FULL = (15, 255, 4_095)  # so many pairs fill each node of a tree of one, two and three levels
OTHERS = 100_000  # so many stretches or rows are put in, and about so many keys in a budget
LOADED = 70_000  # so many keys come in a load whose requests and comparisons are counted


def jumping(keys):
    """The keys in an order that jumps over most of them each time."""
    keys = list(keys)
    return [keys[place * JUMP % len(keys)] for place in range(len(keys))]


class Lines:
    """Lines for the program, each with its reply, and what they make of its maps and sets."""

    def __init__(self):
        self.lines, self.replies = [], []
        self.held = {name: {} for name in "abst"}

    def says(self, line, reply):
        self.lines.append(line)
        self.replies.append(str(reply))

    def counts(self, *names):
        for name in names:
            self.says(f"len {name}", len(self.held[name]))

    def extends(self, name, keys, value, a_line=A_LINE):
        """Extends by these keys, a few in a line; in a map each with this value times the key."""
        for first in range(0, len(keys), a_line):
            self.says(extension(name, keys[first : first + a_line], lambda key: key * value), "done")
        self.held[name].update((key, key * value) for key in keys)

    def clears(self, *names):
        for name in names:
            self.says(f"clear {name}", "done")
            self.held[name] = {}

    def copies(self, name, other):
        self.says(f"copy {name}", "done")
        self.held[other] = dict(self.held[name])

    def appends(self, name, other):
        self.says(f"append {name}", "done")
        self.held[name].update(self.held[other])
        self.held[other] = {}
        self.counts(name, other)

    def splits(self, name, other, at):
        self.says(f"split {name} {at}", "done")
        all_of, self.held[name], self.held[other] = self.held[name], {}, {}
        for key, value in all_of.items():
            self.held[name if key < at else other][key] = value
        self.counts(name, other)

    def keeps(self, operation, keys):
        self.says(f"keep {operation} s", "done")
        self.held["s"] = dict.fromkeys(keys)
        self.counts("s")

    def lists(self, operation, keys):
        self.says(f"{operation} s", " ".join(["list", *map(str, sorted(keys))]))

    def shows(self, name):
        """Walks over all that is there, so many steps a line."""
        keys = sorted(self.held[name])
        for first in range(0, len(keys), STEPS):
            part = keys[first : first + STEPS]
            told = (f"{key}:{self.held[name][key]}" for key in part) if name in "ab" else map(str, part)
            self.says(f"walk {name} ={part[0]} * " + "f" * len(part), " ".join(["list", *told]))

    def given(self):
        """The text of the lines, and the replies."""
        return "".join(line + "\n" for line in self.lines), self.replies


def maps(lines, n):
    """The even keys below 2 n in one map, in order, and the odd ones in the other, in an order that jumps; and more, by each call."""
    lines.extends("a", range(0, 2 * n, 2), 1)
    lines.copies("a", "b")
    lines.shows("b")
    lines.clears("b")
    lines.extends("b", jumping(range(1, 2 * n, 2)), 3)
    for place in range(0, n, n // 50):
        odd, even = 2 * place + 1, 2 * place
        lines.says(f"insert a {odd} 5", "none")
        lines.says(f"entry b {even} 6 7", "false")
        lines.says(f"both {odd + 2} 8 {even + 2} 9", "both - -")
        lines.held["a"].update({odd: 5, odd + 2: 8})
        lines.held["b"].update({even: 7, even + 2: 9})
    lines.counts("a", "b")
    lines.appends("a", "b")
    lines.shows("a")
    lines.splits("a", "b", n)
    lines.appends("a", "b")
    lines.splits("a", "b", n // 2)
    lines.appends("b", "a")
    lines.extends("b", range(2 * n, 2 * n + 300), 1)
    lines.shows("b")


def sets(lines, n):
    """The even items below 2 n, and the multiples of three below 3 n, by each operation, listed and kept."""
    evens, threes = range(0, 2 * n, 2), range(0, 3 * n, 3)
    lines.extends("s", evens, 1)
    lines.extends("t", jumping(threes), 1)
    ours, theirs = set(evens), set(threes)
    lines.lists("diff", ours - theirs)
    lines.lists("sym", ours ^ theirs)
    lines.lists("inter", ours & theirs)
    lines.lists("union", ours | theirs)
    lines.keeps("union", ours | theirs)
    lines.keeps("diff", ours - theirs)
    lines.keeps("sym", ours | theirs)
    lines.copies("s", "t")
    lines.extends("s", range(1, 601, 2), 1)
    lines.splits("s", "t", n)
    lines.appends("t", "s")
    lines.copies("t", "s")
    lines.keeps("inter", set(lines.held["t"]))
    for place in range(0, n, n // 50):
        new = 3 * n + 2 * place
        lines.says(f"add s {new}", "true")
        lines.says(f"replace t {new + 1}", "none")
        lines.held["s"][new] = lines.held["t"][new + 1] = None
    lines.appends("s", "t")
    lines.shows("s")


def through_lines(n):
    lines = Lines()
    maps(lines, n)
    sets(lines, n)
    return lines.given()


def splits_of_full_trees(n):
    """Each line extends by a full leaf and what goes up after it, sixteen times, so that each node is full; and the tree is split at its ends and within."""
    lines = Lines()
    for name, other in "ab", "st":
        for at in 0, 1, n // 2, n - 1, n:
            lines.clears(name, other)
            lines.extends(name, range(min(n, 255)), 1, 255)
            lines.extends(name, range(255, n), 1, 256)
            lines.splits(name, other, at)
        lines.shows(name)
    return lines.given()


def rows_of_maps(n):
    """Rows for the program of the map, and their answers: each is repeated before its own."""
    whole = [("len", n), (f"holds 0 {n} 1", "right")]
    rows = [
        (f"fill 0 {n} 1", "done"), *whole, ("copy", "right"), ("compare", "equal"), (f"insert {n} 7 1", "none"), (f"tally {n + 1}", 1), (f"or_with {n + 2} 9", 9),
        ("len", n + 3), ("drop", "done"), (f"make {n} {JUMP}", "done"), *whole, ("extend_map", "done"), *whole, ("drop", "done"),
        (f"extend {n} 1", "done"), *whole, ("swap", "done"), (f"extend {n} {JUMP}", "done"), *whole, ("compare", "equal"), ("drop", "done"), ("swap", "done"), ("drop", "done"),
        (f"room 0 {n} 2 {PLACES} 101", "right"), ("len", n + PLACES), ("drop", "done"),
    ]  # fmt: skip
    return "".join(row + "\n" for row, _ in rows), [f"{row}: {answer}" for row, answer in rows]


def rows_of_sets(n):
    """Rows for the program of the set."""
    rows = [
        (f"fill 0..{2 * n}/2", n), ("swap", ""), (f"fill 1..{2 * n}/2", n), ("append", "done"), (f"is_just 0..{2 * n}", "yes"), ("copy", "done"), (f"split {n}", "done"),
        (f"is_just 0..{n}", "yes"), ("swap", ""), ("append", "done"), (f"is_just 0..{2 * n}", "yes"), (f"extend {n}..{3 * n}", "done"), (f"is_just 0..{3 * n}", "yes"),
        (f"insert {3 * n}", "yes"), (f"replace {3 * n + 1}", "none"), (f"made 0..{n}", "done"), ("swap", ""), (f"is_just 0..{n}", "yes"), (f"room 0..{PLACES}", PLACES),
        (f"made 0..{n}/{JUMP}", "done"), ("swap", ""), (f"is_just 0..{n}", "yes"), ("clear", ""), ("swap", ""), ("clear", ""), ("let_go", ""), ("living", 0),
    ]  # fmt: skip
    return "".join(row + "\n" for row, _ in rows), [f"{row} -> {answer}".rstrip() for row, answer in rows]


def texts_of(rows):
    """The text of the rows, and the lines of their replies."""
    return "".join(row + "\n" for row, _ in rows), [line for _, reply in rows for line in str(reply).split("\n")]


def stretches(n, rows_within):
    """Stretches are put in, in an order that jumps, each of eight points after two that have none. Then so many rows change some of them. All are listed."""
    held = {start: (start + 8, start % 7) for start in range(0, 10 * n, 10)}
    rows = [(f"put {start} {held[start][0]} {held[start][1]}", "ok") for start in jumping(held)]
    for start in range(0, 10 * n, n // 5 // 10 * 10):
        rows += rows_within(held, start)
    listed = [f"{start} {end} {value}" for start, (end, value) in sorted(held.items())]
    return texts_of([*rows, ("list", "\n".join([f"intervals: {len(held)}", *listed]))])


def put_within(held, start):
    """A stretch is written over within, which makes three."""
    end, value = held[start]
    held.update({start: (start + 2, value), start + 2: (start + 4, 9), start + 4: (end, value)})
    return [(f"put {start + 2} {start + 4} 9", "ok")]


def cut_within(held, start):
    """A stretch is split twice, and joined again at one place; of the next one the middle is cut out."""
    after = start + 10
    (end, value), (far, other) = held[start], held[after]
    held.update({start: (start + 6, value), start + 6: (end, value), after: (after + 2, other), after + 6: (far, other)})
    return [(f"split {start + 4}", "ok"), (f"split {start + 6}", "ok"), (f"join {start + 4}", "joined"), (f"cut {after + 2} {after + 6}", "ok")]


def table(n):
    """Parts are added in an order that jumps, some are moved, and some removed and added again: all by their ids, and some by shelf and by price."""
    parts = {key: (key % 100, key % 1000, 1) for key in range(n)}
    said = lambda key: " ".join(map(str, parts[key]))
    rows = [(f"add {key} {said(key)}", "added") for key in jumping(range(n))]
    for key in range(0, n, n // 50):
        was, gone, parts[key] = said(key), said(key + 1), (7, 8, 9)
        rows += [(f"add {key} {said(key)}", f"replaced {was}"), (f"remove {key + 1}", f"removed {gone}"), (f"add {key + 1} {gone}", "added")]
    for word, at, key in ("shelf", 0, 7), ("price", 1, 8):
        held = [f"{key} {it}" for it in range(n) if parts[it][at] == key]
        rows.append((f"{word} {key} {key + 1}", "\n".join([*held, f"{len(held)} parts"])))
    rows.append(("list", "\n".join([*(f"{key} {said(key)}" for key in range(n)), f"{n} parts"])))
    return texts_of(rows)


def nodes_of_insertions(n):
    """How many leaves and how many nodes above them there are after n insertions of ascending keys. With its sixteenth pair the last node of a level keeps
    eight and hands one up, and a new one has seven: with nine more that one does so too."""
    levels, come = [], n
    while come:
        splits = max(0, (come - CAPACITY - 1) // (LEAST + 2) + 1)
        levels.append(splits + 1)
        come = splits
    return levels[0], sum(levels[1:])


def in_a_budget(lacks):
    """Ascending keys go one by one into a map, and then into a set, whose last one splits a leaf: in a budget of the bytes that all nodes then take, or of so
    many less, where that one is refused, all others stay, and it goes in once the map is cleared."""
    n = OTHERS - (OTHERS - CAPACITY - 1) % (LEAST + 2)
    last, enough = n - 1, sum(bytes_of(place, *nodes_of_insertions(n)) for place in (0, 2))
    assert sum(least_of(place, n) for place in (0, 2)) <= enough <= sum(most_of(place, n) for place in (0, 2))
    lines = Lines()
    lines.held.update({"a": {key: key + 5 for key in range(n)}, "s": dict.fromkeys(range(last if lacks else n))})
    for line, reply in [(f"insert a {key} {key + 5}", "none") for key in range(n)] + [(f"add s {key}", "true") for key in range(last)]:
        lines.says(line, reply)
    lines.says(f"add s {last}", f"refused alloc {last}" if lacks else "true")
    lines.shows("a")
    lines.shows("s")
    lines.counts("a", "s")
    lines.clears("a")
    lines.says(f"add s {last}", "true" if lacks else "false")
    lines.held["s"][last] = None
    lines.shows("s")
    lines.counts("a", "s")
    return *lines.given(), str(enough - lacks)


def compare(program, n, given, wanted, *words):
    """Runs the program, with these words, on what it is given; whether it tells what is wanted."""
    began = time.time()
    ran = subprocess.run([TOP / f"crates/{program}/out/{program}", *words], input=given.encode(), capture_output=True, check=False)
    told = ran.stdout.decode("latin-1").splitlines()
    is_right = (told, ran.returncode, ran.stderr) == (wanted, 0, b"")
    print(f"large {' '.join([program, *words])}, {n}: {len(wanted)} answers, {time.time() - began:.1f} seconds: {'ok' if is_right else 'FAILED'}", flush=True)
    if not is_right:
        at, told_there, wanted_there = next((it for it in zip(range(len(told)), told, wanted) if it[1] != it[2]), (-1, len(told), len(wanted)))
        line = given.splitlines()[at:][:1] or ["the last lines"]
        print(f"  status {ran.returncode}, {ran.stderr[:200]}; at {line[0][:80]}: {str(told_there)[:80]}, and not {str(wanted_there)[:80]}")
    return is_right


# The loads, of an iterator's items and of a vector's: a program, its row, what stands before an answer, and a key's comparisons beside its halvings.
LOADS = (
    ("probe_map", f"make {LOADED} {JUMP}", ": ", 2),
    ("probe_map", f"extend_vec {LOADED} {JUMP}", ": ", 3),
    ("probe_set", f"made 0..{LOADED}/{JUMP}", " -> ", 2),
    ("probe_set", f"extend_vec 0..{LOADED}/{JUMP}", " -> ", 3),
)


def counted(folder, program, load, sign, beside):
    """Whether a load makes no more requests and comparisons than one that sorts its keys.

    A merge sort compares a key once for each time that their number can be halved; then it may be compared with the one before it, and with one of a smaller
    tree. std's sort takes about one more a key for its short runs, which shows where one sort has all keys. A tree of full nodes makes the fewest requests; two
    fifths more serve the lists of keys, and such smaller trees."""
    ran = judge.Program(TOP / f"crates/{program}/out/{program}", folder).run(judge.Case([load.encode(), b"comparisons"]))
    compared = ran.replies[-1].split(sign)[-1] if ran.replies else ""
    requests, comparisons = requests_of_copy(LOADED)[0] * 7 // 5, LOADED * (LOADED.bit_length() + beside)
    is_done = (ran.replies, ran.status, ran.kept) == ([f"{load}{sign}done", f"comparisons{sign}{compared}"], 0, "0")
    is_right = is_done and ran.requests <= requests and int(compared) <= comparisons
    said = f"{ran.requests} requests of {requests}, {compared} comparisons of {comparisons}"
    print(f"large {program}, {load}: {said}: {'ok' if is_right else 'FAILED'}", flush=True)
    return is_right


def main():
    results = []
    for n in [int(word) for word in sys.argv[1:]] or SIZES:
        for program, made in ("fcrun", through_lines), ("probe_map", rows_of_maps), ("probe_set", rows_of_sets):
            results.append(compare(program, n, *made(n)))
    results.append(compare("example_intervals", OTHERS, *stretches(OTHERS, cut_within)))
    results.append(compare("example_intervals", OTHERS, *stretches(OTHERS, put_within)))
    results.append(compare("example_index", OTHERS, *table(OTHERS)))
    results += [compare("fcrun", n, *splits_of_full_trees(n)) for n in FULL]
    results += [compare("fcrun_memory", OTHERS, *in_a_budget(lacks)) for lacks in (0, 1)]
    with tempfile.TemporaryDirectory() as folder:
        results += [counted(folder, *load) for load in LOADS]
    print(f"{results.count(True)} passed, {results.count(False)} failed")
    return 0 if all(results) else 1


sys.exit(main())
