#!/usr/bin/env python3
"""Runs lines of each kind that may be refused through the built program with each request for memory refused in turn, and judges each run by sorted lists
(tools/judge.py). Needed where a line that may be refused is new.

  tools/refusals.py [--program PATH] [--probe PATH] [--memory PATH]

A case fills maps or sets, so that their trees have no, one, two, three or four levels, has one command, and then counts and lists all that is there. From the
command's first request on each is refused in turn, and then all from that one on, and at last all after the command's: the command has to be done or told as
refused, what stands after it has to be what docs/COMMANDS.md says, and what was taken is given back. Where one request is refused, so many runs as the case
says have to tell that the command was: by reasoning, one for a leaf that it makes, two for an inner node, and one for a list. At a key that is there none is
made, so that it is answered with all memory refused.

The program with a budget runs each case of one key or of two, and each of a whole map or set, in budgets of many sizes, from none on. What suffices just so
is known by reasoning where the nodes are full, and is looked for else: in so many bytes nothing is refused, in one less the command is, or what fills before
it. Where a request is refused in a budget that suffices just so, the command is refused, and done where it comes once more: what it had taken was given back.

The probe of the map makes a map of many items in mixed order, and extends one by a vector, with each request refused in turn: all items are there
then, or else what was there before and the whole vector.

Trees are also looked at from outside, as tools/outside.py says. It prints a line for each case, and last 'N passed, M failed'. It needs a C compiler."""
import argparse
import concurrent.futures
import os
import sys
import tempfile
from typing import NamedTuple

sys.dont_write_bytecode = True
import judge
from judge import Case, refused_at
from models.budgets import bytes_of, least_held, room_for
from models.lines import extension
from models.replies import COMES_BACK, Pairs, answered, command_of, refusal
from models.trees import CAPACITY, LEAST
from outside import kept, shapes, worn, wrong_shapes, wrong_worn

STEPS = 4000  # so many steps of a walk fit in a line


class Row(NamedTuple):
    """What is there before, the command, and how many refusals of it are told at least, or just so many, one for each request."""

    fill: list
    command: str
    told: int
    is_exact: bool = False


# So many keys fill a leaf; sixteen leaves below a root of fifteen; and as many of these below another root. New keys lie before, within and after.
FULL, TWO, FOUR = range(2, 32, 2), range(2, 512, 2), range(2, 8192, 2)
ONE, THREE = range(2, 12), range(2, 302)
NEW = 9999  # a key after all of them


def begun(leaves, behind):
    """The keys that make so many leaves, in ascending order: the first of each, with the one after it; after the last these, or none."""
    ends = [*(leaf[CAPACITY:] for leaf in leaves[:-1]), behind]
    return [key for leaf, end in zip(leaves, ends) for key in [*leaf[: LEAST + 1], *end]]


def full_order(keys):
    """The keys in an order in which insertions leave each node full, of one level to three. Those that come in ascending order leave one key more than
    the least in each node after which another begins. So nine leaves of each inner node come first, then its others, and at last what the leaves lack."""
    each = CAPACITY + 1
    leaves = [keys[at : at + each] for at in range(0, len(keys), each)]
    *others, last = [leaves[at : at + each] for at in range(0, len(leaves), each)]
    order = [key for node in others for key in begun(node[: LEAST + 2], node[-1][CAPACITY:])] + begun(last, [])
    order += [key for node in others for key in [*node[LEAST + 1][CAPACITY:], *begun(node[LEAST + 2 :], [])]]
    return order + sorted({*keys} - {*order})


def extends(name, keys):
    """The lines that fill the map or the set, each with nodes that are full to its end."""
    order, each = full_order(keys) if keys else [], len(TWO) + 1
    return [extension(name, order[at : at + each]) for at in range(0, len(order), each)]


def places(keys):
    """New keys before these, within and after."""
    return [NEW] if not keys else [keys[0] - 1, keys[len(keys) // 2] + 1, NEW]


def lines_at(name, key):
    """The lines that put one key in and may be refused at a new one."""
    return [f"add {name} {key}", f"replace {name} {key}"] if name in "st" else [f"insert {name} {key} 7", f"entry {name} {key} 7 8"]


def cases():
    yield from at_one_key()
    yield from at_two_keys()
    yield from wholes()
    yield Row([], extension("a", THREE), 19 + 3 * 2)
    yield Row([], extension("s", THREE), 19 + 3 * 2)


# With a full path a new key takes a leaf, two requests for an inner node on each level above, and two for a new root.
FILLS = ((), 1), (FULL, 1 + 2), (TWO, 1 + 2 * 2)


def at_one_key():
    """The cases of commands at one key, and of extensions that begin at one."""
    for keys, told in FILLS:
        for name in "abst":
            for new in places(keys):
                for line in lines_at(name, new):
                    yield Row(extends(name, keys), line, told, is_exact=True)
            yield Row(extends(name, keys), extension(name, (NEW, NEW + 1)), told)
            for there in keys and (keys[0], keys[len(keys) // 2], keys[-1]):
                for line in lines_at(name, there):
                    yield Row(extends(name, keys), line, 0, is_exact=True)
    # Four levels, so a leaf, two inner nodes and a root.
    for new, name in zip(places(FOUR), "ast"):
        for line in lines_at(name, new)[-1:]:
            yield Row(extends(name, FOUR), line, 1 + 3 * 2, is_exact=True)
    yield Row(extends("b", FOUR), lines_at("b", FOUR[2000])[0], 0, is_exact=True)


def at_two_keys():
    """The cases of `both`: both keys new, in one map that is full or in two; or one there and the other new and refused."""
    for keys, told in FILLS:
        a, b = extends("a", keys), extends("b", keys)
        yield Row(a, f"both {NEW} 7 {NEW} 8", told + 1, is_exact=True)
        yield Row(b, f"both {NEW} 7 {NEW} 8", told + 1, is_exact=True)
        yield Row(a + b, f"both {NEW} 7 {NEW} 8", 2 * told, is_exact=True)
        for new in places(keys):
            for held, fill in (ONE, "ab"), (FULL, "ab"), (TWO, "ab"):
                there = held[len(held) // 2]
                yield Row(extends("a", held) + b, f"both {there} 7 {new} 8", told, is_exact=True)
                yield Row(a + extends("b", held), f"both {new} 7 {there} 8", told, is_exact=True)
    yield Row(extends("a", TWO) + extends("b", TWO), f"both {TWO[0]} 7 {TWO[-1]} 8", 0, is_exact=True)


def wholes():
    """The cases of commands on whole maps and sets, and of walks."""
    # Of 300 pairs there are at least 19 leaves, since each has 15 at the most, and above them three inner nodes: more requests than of 20 leaves.
    few, many = (ONE, range(12, 20), 1), (THREE, range(302, 602), 20)
    # An append of many makes two leaves, an inner node, which takes two requests, and a list of each; the other leaves are those of both.
    for name, other, sizes in ("a", "b", (few, many)), ("b", "a", (few,)), ("s", "t", (few, many)), ("t", "s", (few,)):
        for keys, beyond, leaves in sizes:
            yield Row([extension(name, keys)], f"copy {name}", leaves)
            yield Row([extension(name, keys), extension(other, ONE)], f"copy {name}", leaves)
            yield Row([extension(name, keys), extension(other, keys[::2])], f"append {name}", min(leaves, 6))
            yield Row([extension(name, keys), extension(other, beyond)], f"append {name}", 2)
            yield Row([extension(name, beyond), extension(other, keys)], f"append {name}", min(leaves, 6))
            yield Row([extension(name, keys)], f"split {name} {keys[len(keys) // 2]}", 1 if leaves == 1 else 1 + 2 + 2)
            yield Row([extension(name, keys), extension(other, ONE)], f"split {name} {keys[-1]}", 1 if leaves == 1 else 1 + 2 + 2)
            yield Row([extension(name, keys)], f"walk {name} * * ffb", 1)
            if name in "st":
                for word, made in ("diff", leaves / 2), ("sym", leaves / 2), ("inter", leaves / 2), ("union", leaves):
                    yield Row([extension(name, keys), extension(other, keys[::2])], f"{word} {name}", 1)
                    yield Row([extension(name, keys), extension(other, keys[::2])], f"keep {word} {name}", max(1, int(made)))
    # Two leaves with more pairs than one node holds, which stay below a new root.
    for name, other in "ab", "st":
        yield Row([extension(name, range(1, 12)), extension(other, range(12, 23))], f"append {name}", 2)
    yield Row([extension("a", THREE)], "write a * * f=7 b=8 f=9", 0)


def shows_of(asked, size):
    """The lines that show what is there: how much; what lies about a key that the command names, which takes no memory; and all, from both ends."""
    names = "st" if asked.names[0] > 1 else "ab"
    about = {names[asked.names[0] % 2]: asked.said[0]} if asked.word in COMES_BACK else {}
    about |= {"b": asked.said[2]} if asked.word == "both" else {}
    yield from (f"len {name}" for name in names)
    for name, key in about.items():
        yield from (f"{'find' if name in 'st' else 'pair'} {name} {it}" for it in (key - 1, key, key + 1))
    for name in names:
        yield f"walk {name} * * {'f' * min(size, STEPS)}"
        yield f"walk {name} * * {'b' * min(size, STEPS)}"


def wrong_of(program, row):
    """What is wrong in the runs of a case; how many requests are refused in turn, and how many refusals of the command are told."""
    asked = command_of(row.command.encode())
    size = sum(len(line.split(" ")) for line in [*row.fill, row.command])
    # The reply to so long a walk makes room for the text of those after it.
    lines = [line.encode() for line in [f"walk a * * {'f' * min(3 * size + 100, STEPS)}", *row.fill, row.command, *shows_of(asked, size)]]
    at = len(row.fill) + 1
    first, behind = (program.run(Case(lines[: at + more])).requests + 1 for more in (0, 1))
    told, wrong = 0, []
    for refused in [how for n in range(first, behind) for how in ({"requests": (n,)}, {"onward": n})] + [{"onward": behind}]:
        case = Case(lines, **refused)
        ran = program.run(case)
        fault = judge.fault_of(case, ran)
        told += "requests" in refused and ran.replies[at : at + 1] == [refusal(asked)]
        if fault:
            wrong.append(f"  {refused}: line {fault.at + 1}, {lines[fault.at][:100].decode()}: wanted {fault.wanted[:300]}, told {fault.told[:300]}")
    if told < row.told or row.is_exact and max(told, behind - first) > row.told:
        wrong.append(f"  {told} refusals of the command were told, and {'' if row.is_exact else 'at least '}{row.told} should be")
    return wrong, behind - first, told


# Budgets.

SIZES_OF_BUDGETS = 8  # in so many budgets that do not suffice does each case run


def taken_by(row):
    """What a case of one key or of two takes of a budget: its nodes are full, so they are as few as can be, and then those that the command makes. Of these
    each leaf makes one request and each node above two, so an odd number of requests has one leaf, and an even one two."""
    world = [Pairs()] * 4
    for line in row.fill:
        _, world = answered(world, command_of(line.encode()))
    leaves = row.told and 2 - row.told % 2
    name = command_of(row.command.encode()).names[0]
    return least_held(world) + bytes_of(name, leaves, (row.told - leaves) // 2)


def least_room(program, lines, most):
    """The least budget in which none of the lines is refused, of those up to one that suffices."""
    least = 0
    while least < most:
        middle = (least + most) // 2
        ran = program.run(Case(lines, budget=middle))
        if ran.status == 0 and not any(reply.startswith("refused") for reply in ran.replies):
            most = middle
        else:
            least = middle + 1
    return most


def wrong_within(program, row):
    """What is wrong in the runs of a case in budgets, and in how many it ran. Where a request is refused too the command comes twice."""
    asked = command_of(row.command.encode())
    size = sum(len(line.split(" ")) for line in [*row.fill, row.command])
    lines = [line.encode() for line in [*row.fill, row.command, *shows_of(asked, size)]]
    filled, wrong = len(row.fill), []
    enough = taken_by(row) if row.is_exact else least_room(program, lines, room_for(lines))
    budgets = sorted({enough, max(0, enough - 1), 2**64 - 1, *(enough * part // SIZES_OF_BUDGETS for part in range(SIZES_OF_BUDGETS))})
    for budget in budgets:
        case = Case(lines, budget=budget)
        ran = program.run(case)
        fault = judge.fault_of(case, ran)
        if fault:
            wrong.append(f"  in {budget} bytes: line {fault.at + 1}, {lines[fault.at][:100].decode()}: wanted {fault.wanted[:300]}, told {fault.told[:300]}")
        if bool(refused_at(ran)) != (budget < enough) or budget == enough - 1 and row.told and row.is_exact and refused_at(ran) != [filled]:
            wrong.append(f"  in {budget} bytes, where {enough} suffice just so: refused were the lines {[at + 1 for at in refused_at(ran)]}")
    again = lines[: filled + 1] + lines[filled:]
    first, behind = (program.run(Case(lines[: filled + more], budget=enough)).requests + 1 for more in (0, 1))
    for number in range(first, behind if row.is_exact else first):
        case = Case(again, requests=(number,), budget=enough)
        ran = program.run(case)
        if judge.fault_of(case, ran) or refused_at(ran) != [filled]:
            wrong.append(f"  in {enough} bytes, with request {number} refused: told {ran.replies[filled : filled + 2]}, and lines {[at + 1 for at in refused_at(ran)]} were refused")
    return wrong, len(budgets)


def tried_within(work):
    """Whether the case is well in budgets, and what is printed where it is not."""
    program, row = work
    wrong, budgets = wrong_within(program, row)
    return not wrong, budgets, "\n".join([f"{row.command[:40]} after {', '.join(line[:40] for line in row.fill) or 'nothing'}, in budgets: FAILED", *wrong[:5]])


def tried(work):
    """Whether the case is well, and what is printed of it."""
    program, row = work
    wrong, requests, told = wrong_of(program, row)
    sizes = {}
    for line in row.fill:
        name = line.split(" ")[1]
        sizes[name] = sizes.get(name, 0) + len(command_of(line.encode()).said[0])
    before = ", ".join(f"{name} of {size}" for name, size in sizes.items()) or "nothing"
    said = f"{row.command[:40]} after {before}: {requests} requests, {told} told: {'FAILED' if wrong else 'ok'}"
    return not wrong, "\n".join([said, *wrong[:5]])


# Loads of many items in mixed order, in the probe of the map.


class Load(NamedTuple):
    """The row of a load, the stretches of numbers that are there before and after it, and whether each request that is refused refuses it."""

    row: str
    before: str
    behind: str
    is_whole: bool


# Of 3,000 some are gathered and put in before the end, and the others at it. 20 are so few beside 1,480 that they go in one by one.
LOADS = (
    Load("make 3000 37", "0 85 1", "0 3000 1", False),
    Load("extend_vec 1400 37", "0 85 1", "0 1400 1", True),
    Load("extend_vec 20 7", "20 1480 1", "0 1500 1", True),
)


def wrong_load(program, load, lines, refused):
    """What is wrong in a run of a load with requests refused, or None; and whether it was told as refused."""
    ran = program.run(Case(lines, **refused))
    told = ran.replies[1] == f"{load.row}: no memory" if len(ran.replies) > 1 else None
    is_refused = told or load.is_whole
    there = [" WRONG", " right"] if is_refused else [" right", " WRONG"]
    shown = [f"holds {some}:{is_there}" for some, is_there in zip((load.behind, load.before), there)]
    wanted = [f"{load.row}: {'no memory' if is_refused else 'done'}", *shown]
    is_well = ran.replies[1:] == wanted and (ran.status, ran.kept) == (0, "0")
    told_all = f"told {ran.replies[1:]}, with status {ran.status} and {ran.kept} blocks not given back"
    return None if is_well else f"  {refused}: wanted {wanted}, {told_all}", told


def tried_load(work):
    """Whether a load is well where each of its requests is refused in turn, and all from it on, and what is printed: it leaves all items, or else what
    was there before."""
    program, load = work
    lines = [line.encode() for line in (f"fill {load.before}", load.row, f"holds {load.behind}", f"holds {load.before}")]
    first, behind = (program.run(Case(lines[: 1 + more])).requests + 1 for more in (0, 1))
    runs = [wrong_load(program, load, lines, how) for n in range(first, behind) for how in ({"requests": (n,)}, {"onward": n})]
    wrong, told = [fault for fault, _ in runs if fault], sum(bool(is_told) for _, is_told in runs)
    # Room for what is gathered may be refused, and then all is put in one by one.
    if told == 0 or told == len(runs) and not load.is_whole:
        wrong.append(f"  {told} of {len(runs)} runs were told as refused")
    said = f"{load.row} after {load.before}: {behind - first} requests, {told} of {len(runs)} told"
    return not wrong, "\n".join([f"{said}: {'FAILED' if wrong else 'ok'}", *wrong[:5]])


def main():
    words = argparse.ArgumentParser(description=__doc__, formatter_class=argparse.RawDescriptionHelpFormatter)
    words.add_argument("--program", default=judge.top / "crates/fcrun/out/fcrun")
    words.add_argument("--probe", default=judge.top / "crates/probe_map/out/probe_map")
    words.add_argument("--memory", default=judge.top / "crates/fcrun_memory/out/fcrun_memory")
    words, passed, failed, runs, looked, wrong = words.parse_args(), 0, 0, 0, {}, {}
    with tempfile.TemporaryDirectory() as folder, concurrent.futures.ProcessPoolExecutor(len(os.sched_getaffinity(0))) as pool:
        program, probe = judge.Program(words.program, folder), judge.Program(words.probe, folder)
        for is_well, said in pool.map(tried, [(program, case) for case in cases()]):
            passed, failed = passed + is_well, failed + (not is_well)
            print(said)
        within = judge.Program(words.memory, folder)
        for is_well, budgets, said in pool.map(tried_within, [(within, case) for case in cases()], chunksize=4):
            passed, failed, runs = passed + is_well, failed + (not is_well), runs + budgets
            if not is_well:
                print(said)
        print(f"the same in budgets: {runs} runs")
        for is_well, said in pool.map(tried_load, [(probe, load) for load in LOADS]):
            passed, failed = passed + is_well, failed + (not is_well)
            print(said)
        for word, faults in pool.map(wrong_shapes, [*((program, shape) for shape in shapes()), *((probe, shape) for shape in kept())], chunksize=8):
            looked[word] = looked.get(word, 0) + 1
            wrong.setdefault(word, []).extend(faults)
        for word, faults in pool.map(wrong_worn, [(program, lines) for lines in worn()]):
            looked[word] = looked.get(word, 0) + 1
            wrong.setdefault(word, []).extend(faults)
    for word, faults in wrong.items():
        passed, failed = passed + (not faults), failed + bool(faults)
        print(f"copies of what {looked[word]} lines of {word} leave: {'FAILED' if faults else 'ok'}", *faults[:5], sep="\n")
    print(f"{passed} passed, {failed} failed")
    return 1 if failed else 0


if __name__ == "__main__":
    sys.exit(main())
