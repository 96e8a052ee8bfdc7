"""Runs a built program with requests for memory refused, and tells where what it did differs from what models/ say that it is to do.

tools/fuzz.py, tools/refusals.py, tools/large.py and tools/fuzz_uses.py run by it. Needed where the program ends in another way, or gives up elsewhere.

A refusal that is told is followed so: the command is one that may be refused there, the reply hands back what it was given, and what stood before it stands
after it. Which pairs a refused extension left is told by the lines that follow."""
import os
import pathlib
import subprocess
from typing import NamedTuple

from models.budgets import fits, refused_within
from models.replies import Pairs, answered, command_of, refusal, refused
from models.trees import requests_of_copy

top = pathlib.Path(__file__).resolve().parent.parent
STARTS = 3  # how many requests for memory the program makes at its start
ARGUMENTS = 4  # how many more, before these, where it reads its one argument, the bytes of its budget
SHORT = 100  # the bytes of the longest reply that is no list, without its line feed
PATIENCE = 20  # the most seconds of a run
FOLLOWED = 2000  # the most states that are followed at once, since each refused extension may have stopped at several pairs


class Case(NamedTuple):
    lines: list
    ended: bool = True  # whether the last line ends with a line feed
    requests: tuple = ()  # the numbers of the requests for memory that are refused
    onward: int = 0  # the number of the request from which on each is refused, or 0
    budget: object = None  # the bytes that maps and sets may take together, which a program with a budget is told, or None
    words: tuple = ()  # what else stands after the program's name

    def first(self):
        """The number of the first request that is refused, or 0."""
        return self.requests[0] if self.requests else self.onward

    def text(self):
        return b"\n".join(self.lines) + (b"\n" if self.lines and (self.ended or not self.lines[-1]) else b"")


class Run(NamedTuple):
    replies: list
    status: object
    error: str
    requests: int
    refusals: int
    kept: str  # how many blocks were not given back
    bytes: int = 0  # that were asked for


def replies_of(text):
    """What a program wrote, line by line."""
    *replies, last = text.decode("latin-1").split("\n")
    return replies + ([last + " without a line feed"] if last else [])


class Fault(NamedTuple):
    at: int  # how many lines are before the one whose reply differs
    wanted: str
    told: str


class Program:
    """A built program, which is run with requests for memory refused. The folder is for its files."""

    def __init__(self, path, folder, patience=PATIENCE):
        self.patience = patience
        self.path = pathlib.Path(path).resolve()
        self.folder = folder
        self.refuse = f"{folder}/refuse.so"
        if not self.path.is_file():
            raise SystemExit(f"no program at {self.path}")
        words = ["cc", "-O1", "-shared", "-fPIC", "-o", self.refuse, top / "tools/refuse.c"]
        if not os.path.exists(self.refuse) and subprocess.run(words, check=False).returncode:
            raise SystemExit(2)

    def run(self, case):
        """Runs the program on the lines of the case."""
        log = pathlib.Path(f"{self.folder}/{os.getpid()}")
        log.unlink(missing_ok=True)
        environment = {**os.environ, "LD_PRELOAD": self.refuse, "REFUSE_LOG": str(log)}
        environment |= {"REFUSE": ",".join(map(str, case.requests)), "REFUSE_FROM": str(case.onward)}
        try:
            words = case.words if case.budget is None else [str(case.budget)]
            ended = subprocess.run([self.path, *words], input=case.text(), capture_output=True, env=environment, timeout=self.patience, check=False)
            status = ended.returncode
        except subprocess.TimeoutExpired as late:
            ended, status = late, f"none within {self.patience} seconds"
        counts = log.read_text().split() if log.exists() else ["0", "0", "an unknown number", "0"]
        return Run(replies_of(ended.stdout or b""), status, (ended.stderr or b"").decode("latin-1"), int(counts[0]), int(counts[1]), counts[2], int(counts[3]))


def fault_of_copy(at, n, asked):
    """What is wrong where the copy of n pairs, after so many lines, made so many requests, or None: the copy of a sound tree makes no fewer and no more."""
    least, most = requests_of_copy(n)
    return None if least <= asked <= most else Fault(at, f"{least} to {most} requests for a copy of {n} pairs in a sound tree", str(asked))


def refused_at(ran):
    """The places of the lines that were refused."""
    return [at for at, reply in enumerate(ran.replies) if reply.startswith("refused")]


def may_give_up(case, at, replies, longest):
    """Whether there may be no room at this line: at the first, where a request of the start is refused, for the list that it names, or for a reply that
    is a list, longer than each before and than the room of the start."""
    starts = STARTS if case.budget is None else ARGUMENTS + STARTS
    names_list = case.lines[at].split(b" ")[0] in (b"extend", b"walk", b"write")
    lists = [len(reply) for reply in replies if reply.startswith("list")]
    return at == 0 and case.first() <= starts or names_list or max(lists, default=0) > max(longest, SHORT)


def ending(status, error):
    return f"an end with status {status}" + (f" and '{error.strip()}' on standard error" if error else "")


def fault_of_end(case, ran, lines, refusals, status):
    """What is wrong with the end after so many lines, where it has to have this status, or None. A budget refuses besides, and each refused request is told."""
    error = "no memory\n" if status == 2 else ""
    at = max(0, lines - 1)
    if (len(ran.replies), ran.status, ran.error) != (lines, status, error):
        return Fault(at, f"{ending(status, error)} behind reply {lines}", f"{ending(ran.status, ran.error)} behind reply {len(ran.replies)}")
    if refusals > ran.refusals and case.budget is None or refusals < ran.refusals and status != 2:
        return Fault(at, f"as many refusals as requests were refused, {ran.refusals}", f"{refusals}")
    return None if ran.kept == "0" else Fault(at, "each block given back", f"{ran.kept} not given back")


def told_refused(case, ran, world, command):
    """The worlds that the command may leave where its refusal is told: by a refused request, or else by the budget."""
    if ran.refusals:
        return [left for left in refused(world, command) if fits(left, case.budget)]
    return [] if case.budget is None else [left for left in refused_within(world, command, case.budget) if fits(left, case.budget)]


def fault_of(case, ran, see=None):
    """Where what was told differs from what is wanted, or None. Each command that ran, what stands before it and its reply are shown to `see`, with its
    place."""
    worlds, longest, refusals = [[Pairs()] * 4], 0, 0
    for at, line in enumerate(case.lines):
        told = ran.replies[at] if at < len(ran.replies) else None
        command = command_of(line)
        outcomes = [answered(world, command) for world in worlds] if command else [(f"line {at + 1}: not a command", worlds[0])]
        replies = {reply for reply, _ in outcomes}
        left = [world for reply, world in outcomes if reply == told and fits(world, case.budget)]
        if told is None and ran.refusals and ran.status == 2 and may_give_up(case, at, replies, longest):
            return fault_of_end(case, ran, at, refusals + 1, 2)
        if command and told == refusal(command):
            refusals += 1
            left = [world for before in worlds for world in told_refused(case, ran, before, command)]
        if not left:
            passed = " or a refusal, for want of bytes" if told in replies else ""
            return Fault(at, " or ".join(sorted(replies)) + passed, ending(ran.status, ran.error) if told is None else told)
        if command is None:
            return fault_of_end(case, ran, at + 1, refusals, 1)
        if see:
            see(at, command, [worlds[0][i] for i in command.names], told)
        if len(left) > FOLLOWED:
            return None
        worlds, longest = left, max(longest, len(told))
    return fault_of_end(case, ran, len(case.lines), refusals, 0)
