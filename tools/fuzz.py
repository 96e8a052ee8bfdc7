#!/usr/bin/env python3
"""Sends random lines of each kind through the built program and through sorted lists (tools/models/replies.py), and compares each reply. Needed where it told
a seed, which is run again by its number, or where a command changed.

  tools/fuzz.py SECONDS [SEED] [--memory] [--runs N] [--jobs N] [--program PATH] [--tally]

Each run draws its lines from a seed of its own: SEED (else the time), SEED + 1, and so on, so that a run is had again by its seed. At an even seed memory is
ample, and each reply has to be the one that the lists give. At an odd seed requests for memory are refused, of which the run draws the numbers. A refusal
that is told then has to be one that docs/COMMANDS.md and docs/PROMISES.md allow of that command in that state, and the replies after it have to be those of
lists which it left as these pages say; as many refusals are told as there were requests refused; and `no memory` ends the run only where the first page says
so. Some runs have a line that is not a command, after which nothing is run. Each block of memory is given back. Where memory is ample, the last copies of a
run make no fewer and no more requests than those of sound trees of so many pairs can. Each fourth run fills a map or a set with underfull nodes and takes most of
its keys out, in each order in turn, with look-ups and lists of all that is left between.

With --memory the program with a budget runs. At an even seed the bytes suffice by what tools/models/ says of sound trees, so that nothing may be refused; at
an odd one they are fewer, and each other of these runs has requests refused too. What stands never passes the budget, and it refuses only where it may be
passed.

It takes SECONDS. With --runs it goes on until there were N runs, and fails where a kind of line did not occur in them with each of its effects (of `remove`:
the key is there, or not; a kind that may be refused: also that), or on a tree of some number of levels, or where no tree of three or of four levels lost most
of its keys in each order. --tally prints how often each did. It takes all cores, or --jobs of them. --program has another program run than the one that
tools/build.py built. No tree has more than four levels: a refusal on larger ones alone is seen by tools/large.py.

Where a reply or an ending differs, lines are dropped for as long as it still differs, in at most 60 seconds, and it prints the run's seed, the lines that are
left, which can be sent to ./fcrun, the requests that are refused with them, what was wanted and what was told (of long texts the front). The last line is 'N
passed, M failed', and the status is 0 where M is 0. It needs a C compiler."""
import collections
import concurrent.futures
import os
import random
import re
import sys
import tempfile
import time
from typing import NamedTuple

sys.dont_write_bytecode = True
import fuzzing
import judge
from fuzzing import SHRINKING, dropped
from judge import STARTS, Case
from models.budgets import room_for
from models.lines import THINNINGS, Talk
from models.replies import ON_MAPS, ON_SETS, OPERATIONS, combined, is_range
from models.trees import CAPACITY

SURVIVALS = 8  # how often the request is given whose refusal ended a run
COPIES = 2  # of how many copies at the end of a run the requests are looked at
# From which request on some are refused. The first are the program's own, and those up to some 20 the ones of a long walk's reply that lines() may begin with.
REFUSED_FROM = [0, STARTS, 20, 20, 60, 200, 500, 1500]
GAPS = [2, 8, 30, 100, 400]  # how many requests there are between two that are refused
NEAR = 12  # how many other requests of a line that became shorter are tried in the place of the one that was refused


class Shrinking:
    """Drops parts of a case for as long as it fails."""

    def __init__(self, program, case, ran, fault):
        self.program, self.case, self.ran, self.fault = program, case, ran, fault
        self.places = None  # the lines in which a request is refused, each with how many requests into it; None: the numbers stay as they are
        self.until = time.monotonic() + SHRINKING

    def fails(self, lines, places, requests=None):
        """Whether these lines fail with the requests at these places refused, or by these numbers. If so, that is the case to go on from."""
        if time.monotonic() > self.until:
            return False
        if requests is None:
            requests = self.case.requests if places is None else self.numbers(lines, places)
        case = self.case._replace(lines=lines, requests=requests)
        ran = self.program.run(case)
        fault = fault_in(self.program, case, ran)
        if fault:
            self.case, self.ran, self.fault, self.places = case, ran, fault, places
        return fault is not None

    def numbers(self, lines, places):
        """The numbers that the requests at these places have."""
        numbers = ()
        for at, depth in places:
            numbers += (self.requests(lines[:at], numbers) + depth,)
        return numbers

    def requests(self, lines, refused):
        """How many requests these lines make where some are refused."""
        return self.program.run(self.case._replace(lines=lines, ended=True, requests=refused)).requests

    def find_places(self):
        """Finds the last refusals that it takes to fail, by the replies before the last line, which tell in which lines they are. Another one may be in that
        line."""
        lines, numbers = self.case.lines, self.case.requests
        replies = self.program.run(self.case._replace(lines=lines[:-1], ended=True)).replies
        told = [at for at, reply in enumerate(replies) if reply.startswith("refused")] + [len(lines) - 1]
        for many in (1, 2, 4, 8, 100):
            last = list(enumerate(told[: len(numbers)]))[-many:]
            if self.fails(lines, [(at, numbers[i] - self.requests(lines[:at], numbers[:i])) for i, at in last]):
                return

    def shrink(self):
        """Drops refused requests, lines and the words of long lines, until there is nothing more to drop, and takes small numbers."""
        self.cut()
        if self.case.requests and not self.fails(self.case.lines, None, ()):
            self.find_places()
        before = None
        while self.case != before and time.monotonic() < self.until:
            before = self.case
            self.cut()
            dropped(self.places or [], lambda places: self.fails(self.case.lines, places))
            self.drop_lines()
            for at in range(len(self.case.lines)):
                self.shorten(at, *parts_of(self.case.lines[at]))
        self.cut()
        self.fails(renumbered(self.case.lines), self.places)

    def cut(self):
        """Drops the lines after the one whose reply differs, or at which the program fell: then replies that it had not yet written are lost."""
        lines, keeps, falls = self.case.lines, 0, self.fault.at + 1
        if self.has_fallen(self.ran):
            falls = len(lines)
            while falls - keeps > 1:
                middle = (keeps + falls) // 2
                if self.has_fallen(self.program.run(self.case._replace(lines=lines[:middle]))):
                    falls = middle
                else:
                    keeps = middle
        self.fails(lines[:falls], self.places and [it for it in self.places if it[0] < falls])

    @staticmethod
    def has_fallen(ran):
        """Whether a run ended as none ends by itself."""
        return ran.status not in (0, 1, 2)

    def drop_lines(self):
        lines, places = self.case.lines, self.places or []

        def fails(kept):
            moved = [(kept.index(at), depth) for at, depth in places if at in kept]
            return self.fails([lines[i] for i in kept], moved if self.places is not None else None)

        dropped([*range(len(lines))], fails)

    def shorten(self, at, head, parts, glue):
        """Drops parts of the line there, where it is long. A request that is refused in it is then one of the first at the most."""

        def fails(rest):
            lines = [*self.case.lines[:at], head + glue.join(rest), *self.case.lines[at + 1 :]]
            depths = [depth for of, depth in self.places or [] if of == at]
            moved = [[(of, less if of == at else depth) for of, depth in self.places] for less in range(1, depths[0])] if depths else []
            return any(self.fails(lines, places) for places in [self.places, *moved[:NEAR]])

        if len(parts) > 4:
            dropped(parts, fails)


def renumbered(lines):
    """The lines with the least numbers that stand in the same order."""
    numbers = sorted({int(word) for line in lines for word in re.findall(rb"\d+", line)})
    return [re.sub(rb"\d+", lambda word: b"%d" % numbers.index(int(word[0])), line) for line in lines]


def parts_of(line):
    """What a line begins with, what of it may be dropped, and what stands between those parts: the letters of a walk, or the words after the second."""
    words = line.split(b" ")
    if words[0] == b"walk":
        return b" ".join(words[:-1]) + b" ", [words[-1][i : i + 1] for i in range(len(words[-1]))], b""
    each = 2 if words[0] == b"extend" and words[1] in (b"a", b"b") else 1  # a pair stays a pair
    return b" ".join(words[:2]) + b" ", [b" ".join(words[i : i + each]) for i in range(2, len(words), each)], b" "


def budget_of(draw, lines, is_short):
    """The bytes that suffice for the lines, or fewer."""
    room = room_for(lines)
    return draw.choice([0, draw.randrange(3000), int(room * draw.random()), int(room * draw.random() ** 2), int(room * draw.random() ** 4)]) if is_short else room


def case_of(seed, has_budget):
    """The run of this seed, the levels and the order where most keys of a tree go out in it, or None, and up to which line they do."""
    draw = random.Random(seed)
    refusing, thinning = seed % 2 == 1, THINNINGS[seed // 4 % len(THINNINGS)] if seed % 4 == 0 else None
    talk = Talk(draw, refusing, thinning)
    lines = [line.encode() for line in talk.lines()]
    if draw.random() < 0.3:
        at = draw.randint(max(talk.thinned, len(lines) * 9 // 10), len(lines) - 1)
        lines[at] = talk.spoiled(lines[at])
    case = Case(lines, draw.random() < 0.9, tuple(fuzzing.requests_of(draw, REFUSED_FROM, GAPS)) if refusing and not (has_budget and seed % 4 == 1) else ())
    return case._replace(budget=budget_of(draw, lines, refusing) if has_budget else None), thinning, talk.thinned


# What occurred.


def effect(command, m, o, reply):
    """What a command met, in few words: of a key whether it was there, of others how the pairs m that it names, and the others o, were."""
    word, said = command.word, command.said
    refused = "refused" if reply.startswith("refused") else ""
    if word == "both":
        return f"{refused} {m.has(said[0]) + o.has(said[2])} keys there".strip()
    if refused:
        return refused
    if word in ("walk", "write"):
        return steps_met(m, *said)
    if word == "extend":
        there = sum(m.has(key) for key, _ in said[0])
        return "new" if not there else "there" if there == len(said[0]) else "some there"
    if word == "split":
        return "to neither" if not len(m) else "all stay" if m.below(*said).keys == m.keys else "all go" if not len(m.below(*said)) else "in two"
    if word == "append":
        return "of nothing" if not len(o) else "to nothing" if not len(m) else beside(m, o)
    if said:
        return "there" if m.has(said[0]) else "new"
    if word.split(" ")[-1] in OPERATIONS:
        return "some" if len(combined(word.split(" ")[-1], m, o)) else "nothing"
    return reply if word in ("disjoint", "subset", "superset", "cmp") else "some" if len(m) else "nothing"


def steps_met(m, low, high, steps):
    """What the steps of a walk met."""
    if not is_range(low, high):
        return "bad range"
    given = m.steps(low, high, [step if isinstance(step, str) else step[0] for step in steps])
    ended = "ends met" if None in given else "some left"
    return "nothing" if given.count(None) == len(given) else ended


def beside(m, o):
    """How the pairs of two maps lie."""
    if m.keys[-1] < o.keys[0]:
        return "beyond"
    return "equal keys" if set(m.keys) & set(o.keys) else "before" if o.keys[-1] < m.keys[0] else "between"


KEYED = {"there", "new"}
WALKED = {"bad range", "nothing", "ends met", "some left"}
PUTTING = KEYED | {"refused"}
EFFECTS = {
    **{word: KEYED for word in ("get", "pair", "has", "remove", "set", "evict", "take", "drop", "in", "find")},
    **{word: PUTTING for word in ("insert", "entry", "add", "replace")},
    **{word: {"some", "nothing"} for word in ("len", "clear")},
    **{kept + word: {"some", "nothing", "refused"} for kept in ("", "keep ") for word in OPERATIONS},
    **{word: {"true", "false"} for word in ("disjoint", "subset", "superset")},
    "cmp": {"less", "equal", "greater"},
    "copy": {"some", "nothing", "refused"},
    "both": {"0 keys there", "1 keys there", "2 keys there", "refused 0 keys there", "refused 1 keys there"},
    "extend": {"new", "there", "some there", "refused"},
    "walk": WALKED | {"refused"},
    "write": WALKED,
    "split": {"to neither", "all stay", "all go", "in two", "refused"},
    "append": {"of nothing", "to nothing", "beyond", "before", "between", "equal keys", "refused"},
}
KINDS = {f"{word} {name}": EFFECTS[word] for name, table in (("M", ON_MAPS), ("C", ON_SETS)) for word in table}


class Tally(fuzzing.Tally):
    """What occurred, with how runs ended, and out of how many trees most keys went."""

    def __init__(self):
        super().__init__(KINDS, (0, CAPACITY, 16**2 - 1, 16**3 - 1))
        self.ends, self.thinned = collections.Counter(), collections.Counter()
        self.copies = {}  # how many pairs were copied, by the places of the lines

    def add(self, other):
        super().add(other)
        self.ends += other.ends
        self.thinned += other.thinned

    def see_command(self, at, command, both, reply):
        if command.word == "copy":
            self.copies[at] = len(both[0])
        self.see(f"{command.word} {'C' if command.names[0] > 1 else 'M'}", effect(command, *both, reply), len(both[0]))

    def missing(self):
        return super().missing() + [f"most keys out of a tree of {levels} levels, {order}" for levels, order in THINNINGS if not self.thinned[levels, order]]

    def print(self):
        super().print()
        print("  most keys out:", ", ".join(f"of {levels} levels {order} {self.thinned[levels, order]}" for levels, order in THINNINGS))
        print("  runs:", ", ".join(f"{it} {n}" for it, n in sorted(self.ends.items())))


# What is printed.


def report(shrinking):
    """Tells what is wrong, and what shows it."""
    case, fault = shrinking.case, shrinking.fault
    text = f"Wrong is the reply to line {fault.at + 1} of the {len(case.lines)} that are left"
    if shrinking.has_fallen(shrinking.ran):
        text = f"Wrong is how the program ended at the {len(case.lines)} lines that are left"
    if case.budget is not None:
        text += f", in a budget by ./fcrun --memory {case.budget}"
    if case.requests:
        numbers = ",".join(map(str, case.requests))
        text += f", with requests refused by {'REFUSE=' if len(case.requests) > 1 else './fcrun --refuse '}{numbers}"
    text += "" if case.ended else ", without the last line feed"
    fuzzing.print_fault(text, case.lines, fault.wanted, fault.told)


class Tried(NamedTuple):
    """What came of a seed: how many lines were replied to, how many requests were refused, or with a budget commands, what occurred, and the run that failed,
    or None."""

    seed: int
    lines: int
    refusals: int
    tally: Tally
    failed: object


def fault_in(program, case, ran, tally=None):
    """Where a run differs from what is wanted, or its last copies make other requests than those of sound trees, or None. What occurred is added to the
    tally."""
    seen = tally or Tally()
    fault = judge.fault_of(case, ran, seen.see_command)
    if fault or case.requests or case.budget is not None:
        return fault
    requests = {len(case.lines): ran.requests}  # those of so many lines
    for at in sorted(seen.copies)[-COPIES:]:
        for lines in at, at + 1:
            if lines not in requests:
                requests[lines] = program.run(Case(case.lines[:lines])).requests
        fault = fault or judge.fault_of_copy(at, seen.copies[at], requests[at + 1] - requests[at])
    return fault


def tried(work):
    """Runs the case of a seed, and again with one refused request less where its refusal ended the run."""
    program, seed, has_budget = work
    (case, thinning, thinned), tally, refusals = case_of(seed, has_budget), Tally(), 0
    for survivals in range(SURVIVALS + 1):
        ran = program.run(case)
        is_last = ran.status != 2 or survivals == SURVIVALS or not 0 < ran.refusals <= len(case.requests)
        fault = fault_in(program, case, ran, tally if is_last else None)
        refusals += sum(reply.startswith("refused") for reply in ran.replies) if has_budget else ran.refusals
        if fault or is_last:
            break
        case = case._replace(requests=case.requests[: ran.refusals - 1] + case.requests[ran.refusals :])
    tally.thinned[thinning] += thinning is not None and len(ran.replies) > thinned
    tally.ends[ran.error.strip() or ("not a command" if ran.status else "whole")] += 1
    return Tried(seed, len(ran.replies), refusals, tally, (case, ran, fault) if fault else None)


def trials(program, words):
    """What comes of one seed after another, for as long as it goes on, by some processes at once."""
    with concurrent.futures.ProcessPoolExecutor(words.jobs) as pool:
        for seeds in fuzzing.seeds(words, words.jobs):
            yield from pool.map(tried, [(program, it, words.memory) for it in seeds])


def fuzz(program, words):
    """Tries one seed after another, and answers the status."""
    passed, told, refused, tally = 0, 0, 0, Tally()
    for it in trials(program, words):
        if it.failed:
            lines = len(it.failed[0].lines)
            print(f"Found by `tools/fuzz.py 1 {it.seed}{' --memory' if words.memory else ''}`, in {lines} lines; lines and refused requests are dropped for as long as what is told is wrong.", flush=True)
            shrinking = Shrinking(program, *it.failed)
            shrinking.shrink()
            report(shrinking)
            print(f"{passed} passed, 1 failed")
            return 1
        passed, told, refused = passed + 1, told + it.lines, refused + it.refusals
        tally.add(it.tally)
    if words.tally:
        tally.print()
    done = f"{told} lines, {refused} {'commands' if words.memory else 'requests for memory'} refused"
    return fuzzing.print_end(words, it.seed, passed, tally.missing(), done)


def main():
    words = fuzzing.words_of(__doc__)
    words.add_argument("--jobs", type=int, default=len(os.sched_getaffinity(0)))
    words.add_argument("--memory", action="store_true")
    words = words.parse_args()
    name = "fcrun_memory" if words.memory else "fcrun"
    with tempfile.TemporaryDirectory() as folder:
        return fuzz(judge.Program(words.program or judge.top / f"crates/{name}/out/{name}", folder), words)


if __name__ == "__main__":
    sys.exit(main())
