#!/usr/bin/env python3
"""Sends random lines through built programs that use intervals, timers, a table and a cache, and through a plain model of each (tools/models/), and compares
each reply. Needed where it told a seed, or one of these programs changed.

  tools/fuzz_uses.py SECONDS [SEED] [--runs N] [--tally] [--only NAME] [--program PATH]

The programs are `example_intervals`, `example_timers`, `example_index` and `example_cache`; --only runs one, which NAME names by its last word. A run is one of
each, whose lines are drawn from a seed: SEED (else the time), SEED + 1, and so on, so that it is had again by its seed. At an even seed memory is ample, and
each reply has to be the one that the model gives. At an odd seed requests for memory are refused, of which the run draws the numbers. A refusal that is told
then has to be of a line that may be refused there, and the model stays as it was. As many refusals are told as there were requests refused, and each block of
memory is given back. Where the first request is refused, the program ends.

It takes SECONDS. With --runs it goes on until there were N runs, and fails where a line did not occur with each of its effects, or not on each number of
entries: none, up to 15, up to 255, or more, which are trees of no, one, two and three levels. --tally prints how often each did. --program has another
program run in the place of the one that --only names and `rt ci` built. A refusal above some hundreds of entries alone is seen by tools/large.py, in
intervals and tables.

Where a reply or an ending differs, lines are dropped for as long as it still differs, and it prints the run's seed, the requests that are refused, the lines
that are left, what was wanted and what was told. The last line is 'N passed, M failed', and the status is 0 where M is 0. It needs a C compiler."""
import random
import sys
import tempfile
import time
from typing import NamedTuple

sys.dont_write_bytecode = True
import fuzzing
import judge
from models.programs import OTHERS, PROGRAMS
from models.talk import Talk

STARTS = 1  # how many requests for memory a program makes at its start
REFUSED = "out of memory"
LEVELS = (0, 15, 255)  # so many entries are passed where a tree has one level, two or three
FIRST = 30  # of how many numbers each is tried as that of the one request that is refused, where a run is made shorter


class Run(NamedTuple):
    """A run of one program: its name, the seed, the program, what draws its lines, and its lines and the requests that are refused."""

    name: str
    seed: int
    program: judge.Program
    talk: Talk
    case: judge.Case

    def fault_in(self, case):
        """What is wrong with another case of it, or None."""
        return fault_of(case, self.talk.model(), self.program.run(case))


def kinds_of(name):
    """Each kind of line of a program, by its name in the tally, with its effects."""
    return {f"{name} {word}": effects for word, (_, effects) in {**PROGRAMS[name][1].MODEL.KINDS, **OTHERS}.items()}


def run_of(name, seed, program):
    draw = random.Random(seed)
    talk = PROGRAMS[name][1](draw)
    requests = fuzzing.requests_of(draw, *talk.REFUSED) if seed % 2 else ()
    return Run(name, seed, program, talk, judge.Case(talk.lines(), requests=tuple(requests)))


def fault_of(case, model, ran, see=lambda word, met, length: None):
    """Where what was told differs from what the model gives, or None: the place of the line, what was wanted, and what was told. What each line meets is
    shown to `see`, with the number of entries before it."""
    told, behind, refusals = ran.replies, 0, 0
    if ran.refusals and case.first() <= STARTS:
        return None if (told, ran.status, ran.kept) == ([], 1, "0") else (0, "status 1 and no reply", f"status {ran.status}, {told[:3]}")
    for at, line in enumerate(case.lines):
        word, answer = model.answered(line)
        start = behind
        is_refused = answer.refused is not None and told[start : start + 1] == [REFUSED]
        wanted = [REFUSED] if is_refused else answer.reply
        behind += len(wanted)
        if told[start:behind] != wanted:
            return at, "; ".join(wanted), "; ".join(told[start:behind]) or judge.ending(ran.status, ran.error)
        refusals += is_refused
        see(word, answer.refused if is_refused else answer.met, model.length())
        if not is_refused:
            answer.change()
    ended = (told[behind:], ran.status, ran.error, refusals, ran.kept)
    wanted = ([], 0, "", ran.refusals, "0")
    return None if ended == wanted else (len(case.lines) - 1, f"replies left, status, error, refusals and blocks left {wanted}", str(ended))


def report(run):
    """Tells what is wrong with a run, over the fewest lines and refused requests that were found to show it."""
    until = time.monotonic() + fuzzing.SHRINKING
    fewer = (run.case._replace(requests=requests) for requests in [(), *((n,) for n in range(STARTS + 1, FIRST))])
    shortest = [next((case for case in fewer if run.fault_in(case)), run.case)]

    def fails(parts):
        case = judge.Case([it for it in parts if isinstance(it, bytes)], requests=tuple(it for it in parts if isinstance(it, int)))
        if time.monotonic() > until or not run.fault_in(case):
            return False
        shortest[0] = case
        return True

    fuzzing.dropped([*shortest[0].lines, *shortest[0].requests], fails)
    case = shortest[0]
    at, wanted, told = run.fault_in(case)
    refused = f", with requests refused by REFUSE={','.join(map(str, case.requests))}" if case.requests else ""
    text = f"Found by `tools/fuzz_uses.py 1 {run.seed} --only {run.name}`: wrong is the reply to line {at + 1} of the {len(case.lines)} that are left{refused}"
    fuzzing.print_fault(text, case.lines, wanted, told)


def tried(run, tally):
    """Runs a run, and answers how many requests were refused, or None where something is wrong, which is told."""
    ran = run.program.run(run.case)
    if fault_of(run.case, run.talk.model(), ran, lambda word, *met: tally.see(f"{run.name} {word}", *met)):
        report(run)
        return None
    return ran.refusals


def fuzz(programs, words):
    """Tries one seed after another, and answers the status."""
    tally = fuzzing.Tally({kind: effects for name in programs for kind, effects in kinds_of(name).items()}, LEVELS)
    passed, lines, refused = 0, 0, 0
    for (seed,) in fuzzing.seeds(words):
        for run in [run_of(name, seed, program) for name, program in programs.items()]:
            refusals = tried(run, tally)
            if refusals is None:
                print(f"{passed} passed, 1 failed")
                return 1
            passed, lines, refused = passed + 1, lines + len(run.case.lines), refused + refusals
    if words.tally:
        tally.print()
    return fuzzing.print_end(words, seed, passed, tally.missing(), f"{lines} lines, {refused} requests for memory refused")


def main():
    words = fuzzing.words_of(__doc__)
    words.add_argument("--only", choices=PROGRAMS)
    said = words.parse_args()
    if said.program and not said.only:
        words.error("--program wants --only NAME")
    names = [said.only] if said.only else PROGRAMS
    built = {name: judge.top / f"crates/{PROGRAMS[name][0]}/out/{PROGRAMS[name][0]}" for name in names}
    with tempfile.TemporaryDirectory() as folder:
        return fuzz({name: judge.Program(said.program or path, folder) for name, path in built.items()}, said)


if __name__ == "__main__":
    sys.exit(main())
