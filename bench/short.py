#!/usr/bin/env python3
"""Instructions of some hundred calls, as callgrind counts them: beside the figures kept, so that a call that does its work twice is seen; and over 1,000 pairs
beside 100,000, so that one that walks over everything is.

  bench/short.py              compares; the last line is 'N passed, M failed'. Where there is no valgrind, it says so
  bench/short.py --write      counts, and writes bench/figures/short anew, where nothing grows by more than it may

The calls are those of bench/short/src, over the library as bench/unproved.py builds it, and the rows here name them in their order there. No comparison and no
request for memory tells of such work, and no clause does. A figure holds within 3 in 100: a change of the code that moves it further writes the figures anew.
What a row may grow by follows from the trees: full leaves make three levels of 1,000 pairs, and five of 100,000."""
import os
import pathlib
import re
import shutil
import subprocess
import sys
import tempfile

BENCH = pathlib.Path(__file__).resolve().parent
TOP = BENCH.parent
FIGURES = BENCH / "figures/short"
CRATE = "bench_short"
USES = "fc_base fc_map fc_set fc_vec fc_hash fc_cache fc_index fc_intervals fc_timers"
SMALL, LARGE = 1_000, 100_000
# How far a figure may be from the one kept: so much of it, and so many instructions beside, for calls of a handful.
WITHIN, BESIDE = 0.03, 2
# What a row grows by: nothing; the levels of a tree, in whose nodes alike is searched; the halvings of a list; and where a call takes a full node apart, or a
# list is sorted, what that takes each time among 100,000 pairs, and now and then among 1,000, whose nodes were taken apart by the calls before.
CONSTANT, LEVELS, HALVINGS, SPLITS = 1, 5 / 3, 5 / 3, 5
# What is met by chance.
SLACK, SLACK_BESIDE = 1.25, 10
# Calls that each walk over everything take minutes, and right ones some seconds.
LIMIT = 900
# By what a figure is divided, among so many pairs: the calls of bench/short/src, all pairs, or nothing.
SHARES = {
    "call": lambda pairs: min(pairs, 1_000),
    "half": lambda pairs: min(pairs, 1_000) // 2,
    "third": lambda pairs: min(pairs, 1_000) // 3,
    "tenth": lambda pairs: min(pairs, 1_000) // 10,
    "pair": lambda pairs: pairs,
    "once": lambda pairs: 1,
}
# Of each exported function, in the order in which bench/short/driver.c calls them, its phases in turn: of what, by what a figure is divided, growth and names.
JOBS = [
    [
        ("map", "call", LEVELS, "get; get of none; get_key_value; contains_key; first_at_or_after; first_after; last_at_or_before; last_before"),
        ("map", "call", LEVELS, "range(k..).next(); range(..k).next_back(); range, both ends; first_key_value; last_key_value"),
        ("map", "call", LEVELS, "iter().next(); iter().next_back(); iter().len()"),
        ("map", "call", CONSTANT, "len, is_empty"),
    ],
    [
        ("map", "call", LEVELS, "get_mut; try_insert at a key"),
        ("map", "call", SPLITS, "try_insert of a new key; remove"),
        ("map", "call", LEVELS, "entry at a key"),
        ("map", "call", SPLITS, "entry of a new key; entry taken out"),
        ("map", "call", LEVELS, "first_entry_at_or_after; first_entry_after; last_entry_at_or_before; last_entry_before; first_entry; last_entry"),
        ("map", "call", LEVELS, "range_mut, both ends; iter_mut().next(); retain_range of two"),
        ("map", "tenth", LEVELS, "remove_range of one; pop_first; pop_last"),
        ("map", "call", LEVELS, "try_reserve_nodes(1)"),
    ],
    [
        ("map", "pair", CONSTANT, "iter; iter from both ends; range of all; values_mut().for_each; retain"),
        ("map", "once", LEVELS, "split_off of ten; append of ten; split_off of all but ten; append of all but ten"),
        ("map", "pair", CONSTANT, "try_clone; eq; try_from_iterator, ascending"),
        ("map", "pair", LEVELS, "try_extend, ascending"),
        ("map", "pair", SPLITS, "try_from_iterator, in no order; try_extend_from_vec, in no order"),
        ("map", "pair", CONSTANT, "clear"),
    ],
    [
        ("set", "call", LEVELS, "contains; get; first_at_or_after; first_after; last_at_or_before; last_before; first; last; range(i..).next()"),
        ("set", "call", CONSTANT, "len"),
        ("set", "call", SPLITS, "try_insert"),
        ("set", "call", LEVELS, "replace"),
        ("set", "call", SPLITS, "take"),
    ],
    [("set", "pair", CONSTANT, "union; intersection; difference; symmetric_difference; is_subset; is_disjoint")],
    [
        ("hashed map", "call", CONSTANT, "get; get of none; contains_key; insert at a key; insert of a new key; remove; get_mut; len"),
        ("hashed map", "pair", LEVELS, "clear"),
    ],
    [("cache", "third", CONSTANT, "get; get of none; peek; len, used; try_put of a new key; remove; pop_oldest")],
    [
        ("table", "call", LEVELS, "get; get of none; contains; set_value; by_first(k..).next()"),
        ("table", "call", CONSTANT, "len"),
        ("table", "call", LEVELS, "try_insert at an id; try_insert of a new id; remove"),
    ],
    [
        ("stretches", "half", LEVELS, "get; get of none; get_key_value; first; last; overlapping().next(); overlapping().next_back(); gaps().next()"),
        ("stretches", "half", CONSTANT, "len"),
        ("stretches", "half", LEVELS, "split_at; join_at; put over one; cut; put over three"),
    ],
    [
        ("timers", "third", CONSTANT, "get; next_deadline; len, capacity"),
        ("timers", "third", HALVINGS, "reschedule; cancel"),
        ("timers", "third", SPLITS, "try_insert"),
        ("timers", "third", HALVINGS, "pop_due"),
        ("timers", "third", CONSTANT, "pop_due of none"),
    ],
    [
        ("vector", "call", HALVINGS, "binary_search; binary_search_by; binary_search_by_key; partition_point"),
        ("vector", "call", CONSTANT, "get; first, last; len; push; pop"),
    ],
]
ROW = re.compile(r"^  (.+?) +([\d.]+) +([\d.]+)$", re.M)


def run(*command):
    if subprocess.run(command, check=False).returncode != 0:
        sys.exit(2)


def copy_crates(top):
    """A copy of the crates' sources, with one more of the calls to count. That one is built and not proved, so that it stands in no file of a crate's here."""
    for source in TOP.glob("crates/*/src"):
        shutil.copytree(source, top / "crates" / source.parent.name / "src")
    calls = top / f"crates/{CRATE}/src"
    calls.mkdir(parents=True)
    for file in BENCH.glob("short/src/*.rs"):
        shutil.copy(file, calls / f"{file.stem}.rt")
    (top / "crates.txt").write_text((TOP / "crates.txt").read_text() + f"{CRATE} staticlib: {USES}\n")


def build(work):
    """The program of the calls, over the library as it is."""
    copy_crates(work / "top")
    run(BENCH / "unproved.py", work, CRATE, work / "top")
    kit = pathlib.Path(shutil.which("rt")).resolve().parent.parent
    run("cc", "-O1", "-Wl,--wrap=malloc", "-o", work / "short", BENCH / "short/driver.c", work / f"lib{CRATE}.a", kit / "c/liblibc_c.a")


def start(work, pairs):
    out = work / f"counts-{pairs}"
    words = ["valgrind", "--tool=callgrind", "--instr-atstart=no", f"--callgrind-out-file={out}", "--combine-dumps=yes", "--dump-before=mark"]
    return subprocess.Popen([*words, work / "short", str(pairs)], stdout=subprocess.DEVNULL, stderr=subprocess.DEVNULL), out


def rows_of(job):
    for what, share, growth, names in job:
        for name in names.split("; "):
            yield f"{what}: {name}", SHARES[share], growth


def counted(process, out, pairs):
    """The instructions of each row, by its name, of one process. A job begins with what was made before, which counts nowhere."""
    try:
        status = process.wait(LIMIT)
    except subprocess.TimeoutExpired:
        process.kill()
        status = f"no end in {LIMIT} seconds"
    if status != 0:
        sys.exit(f"bench/short.py: the calls over {pairs} pairs failed: {status}")
    totals = iter(int(number) for number in re.findall(r"(?m)^totals: (\d+)$", out.read_text()))
    found = {}
    for job in JOBS:
        next(totals)
        found.update((name, next(totals) / share(pairs)) for name, share, _ in rows_of(job))
    return found


def count():
    """The rows, each as its two figures."""
    with tempfile.TemporaryDirectory() as folder:
        work = pathlib.Path(folder)
        build(work)
        processes = [(*start(work, pairs), pairs) for pairs in (SMALL, LARGE)]
        small, large = [counted(*each) for each in processes]
    return {name: (small[name], large[name]) for name in small}


def grown(found):
    """What grows by more than it may: names, and what is said of them."""
    limits = {name: growth for job in JOBS for name, _, growth in rows_of(job)}
    for name, (small, large) in found.items():
        most = small * limits[name] * SLACK + SLACK_BESIDE
        if large > most:
            yield name, f"{small:.1f} instructions among {SMALL} pairs, and {large:.1f} among {LARGE}, where {most:.1f} are allowed"


def moved(found, kept):
    """What has another figure than the one kept, in the same way."""
    for name in [*found, *(name for name in kept if name not in found)]:
        pairs = zip(found.get(name, (0, 0)), kept.get(name, (0, 0)))
        if any(abs(figure - before) > before * WITHIN + BESIDE for figure, before in pairs):
            yield name, f"{told(found.get(name))}, where {told(kept.get(name))} are kept"


def told(figures):
    return f"{figures[0]:.1f} and {figures[1]:.1f} instructions" if figures else "none"


def figures_kept():
    text = FIGURES.read_text() if FIGURES.exists() else ""
    return {name: (float(small), float(large)) for name, small, large in ROW.findall(text)}


def text_of(found):
    commit = subprocess.run([BENCH / "commit"], capture_output=True, text=True, check=False).stdout.strip()
    rows = [f"  {name:<44} {small:>10.1f} {large:>10.1f}" for name, (small, large) in found.items()]
    return "\n".join([f"instructions at {commit}, unproved: among {SMALL} pairs and among {LARGE}", *rows, ""])


def lacking():
    """What is not on this machine."""
    tools = [tool for tool in ("valgrind", "rt", "cc") if shutil.which(tool) is None]
    header = ["cc", "-E", "-x", "c", "-include", "valgrind/callgrind.h", "/dev/null"]
    return tools or ([] if subprocess.run(header, capture_output=True, check=False).returncode == 0 else ["callgrind.h"])


def main():
    words = sys.argv[1:]
    if words not in ([], ["--write"]):
        sys.exit(__doc__)
    if missing := lacking():
        print(f"short: not counted, since this machine has no {' and no '.join(missing)}\n0 passed, 0 failed")
        return 0
    found = count()
    faults = [*grown(found)]
    if words and not faults:
        FIGURES.write_text(text_of(found))
        return 0
    faults += [] if words else moved(found, figures_kept())
    for name, said in faults:
        print(f"short: {name}: {said}")
    failed = len({name for name, _ in faults})
    print(f"{len({*found, *(name for name, _ in faults)}) - failed} passed, {failed} failed")
    return 1 if faults else 0


os.environ.setdefault("LC_ALL", "C")
if __name__ == "__main__":
    sys.exit(main())
