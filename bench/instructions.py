#!/usr/bin/env python3
"""Instructions a call, a pair or an item given, by the library's ordered map and set and by std's, as callgrind counts them; and how often a walk misses memory.

  bench/instructions.py          prints rows 'NAME  OURS / STD'S (OURS AS A MULTIPLE OF STD'S)', which bench/table.py makes tables of
  bench/instructions.py --unproved [DRIVER..]            the same in a minute over the unproved library (bench/unproved.py), so that a form of the code can be counted
                              before it is proved. Of drivers as map_driver it prints their rows alone, and else all but the misses

Instructions do not change from run to run, whatever else the machine does. A driver makes all its jobs in one run, and callgrind writes down what it has counted
at each mark of a job (bench/harness/phases.rs), so that the making of keys and maps counts nowhere. Where no number of pairs stands, there are a thousand; the two sets of an operation have
a thousand items each, half in common. The misses are those of callgrind's model of caches, which is cachegrind's, with a last cache of 1 MiB.
"""
import os
import pathlib
import re
import shutil
import subprocess
import sys
import tempfile

BENCH = pathlib.Path(__file__).resolve().parent
# What is said of a driver's rows, its program, and the crate of its jobs.
COUNTS = [
    ("calls of the map", "map_driver", "bench_jobs"),
    ("calls for the pair next to a key", "neighbours_driver", "bench_jobs"),
    ("walks over the map, a pair", "walks_driver", "bench_jobs"),
    ("walks over sets, an item given", "sets_driver", "bench_jobs"),
    ("whole maps, a pair", "whole_driver", "bench_jobs"),
    ("keys and values of other kinds, a call", "kinds_driver", "bench_kinds"),
    ("loads and appends, a pair", "loads_driver", "bench_kinds"),
    ("the map of stretches, a call", "intervals_driver", "bench_uses"),
    ("timers, a call", "timers_driver", "bench_uses"),
    ("the table of rows, a call", "tables_driver", "bench_uses"),
    ("the cache, a call", "caches_driver", "bench_uses"),
    ("maps in a budget / the same jobs at Global, a call or a pair", "budget_driver", "bench_budget"),
]
CACHE = ["--cache-sim=yes", "--LL=1048576,16,64"]
# What is said of misses, and the events that are added up.
MISSES = {"reads that miss": ["DLmr"], "reads and writes that miss": ["DLmr", "DLmw"]}
NO_CALL = "no call"


def counted(work, driver, word, sums, options):
    """For each sum of events, what happened in each phase of the driver's jobs, by its name: of ours and of std's, a call."""
    out = work / f"{driver}-{word}"
    command = ["valgrind", "--tool=callgrind", f"--callgrind-out-file={out}", "--dump-before=*phases::mark", *options, work / driver, word]
    run = subprocess.run(command, capture_output=True, text=True)
    if run.returncode != 0:
        sys.exit(f"bench/instructions.py: {driver} failed\n{run.stderr[-2000:]}")
    rows = [{} for _ in sums]
    for number, line in enumerate(run.stdout.splitlines(), 1):
        if line == "-":
            continue
        who, calls, name = line.split("\t")
        text = out.with_name(f"{out.name}.{number}").read_text()
        events = re.search(r"(?m)^events: (.*)$", text)[1].split()
        numbers = re.search(r"(?m)^(?:totals|summary): (.*)$", text)[1].split()
        counts = dict(zip(events, map(int, numbers)))
        for row, added in zip(rows, sums):
            row.setdefault(name, {})[who] = sum(counts.get(event, 0) for event in added) / int(calls)
    return rows


def without_loop(rows):
    """The rows of calls, less what the loop round them takes, which a row of no call shows."""
    loop = {}
    for name, row in rows.items():
        if name.startswith(NO_CALL):
            loop = row
        else:
            yield name, {who: count - loop.get(who, 0) for who, count in row.items()}


def print_rows(title, rows):
    print(title)
    for name, row in rows:
        ours, stds = row["ours"], row["std"]
        digits = 2 if ours < 1 else 1 if ours < 100 else 0
        print(f"  {name:<40} {ours:>7.{digits}f} / {stds:<7.{digits}f} ({ours / stds:4.2f})")


def main():
    words = sys.argv[1:]
    proved = words[:1] != ["--unproved"]
    wanted = words[1:]
    if (proved and words) or not {*wanted} <= {driver for _, driver, _ in COUNTS}:
        sys.exit(__doc__)
    for tool in ("valgrind", "git"):
        if shutil.which(tool) is None:
            sys.exit(f"bench/instructions.py: {tool} is not on the path")
    commit = subprocess.run([BENCH / "commit"], capture_output=True, text=True, check=False).stdout.strip()
    print(f"instructions at {commit}{'' if proved else ', unproved'}: ours / std's", flush=True)
    with tempfile.TemporaryDirectory() as folder:
        work = pathlib.Path(folder)
        for title, driver, jobs in COUNTS:
            if wanted and driver not in wanted:
                continue
            library = [jobs] if proved else [jobs, work]
            if not proved and not (work / f"lib{jobs}.a").exists() and subprocess.run([BENCH / "unproved.py", work, jobs]).returncode != 0:
                sys.exit(2)
            if subprocess.run([BENCH / "build", driver, work / driver, *library]).returncode != 0:
                sys.exit(2)
            print_rows(title, without_loop(counted(work, driver, "count", [["Ir"]], [])[0]))
            sys.stdout.flush()
        if proved:
            missed = [counted(work, driver, "misses", MISSES.values(), CACHE) for driver in ("walks_driver", "map_driver")]
            for said, *rows in zip(MISSES, *missed):
                print_rows(f"{said} a last cache of 1 MiB, a call or a pair of 200,000", [row for each in rows for row in each.items()])


os.environ.setdefault("LC_ALL", "C")
if __name__ == "__main__":
    main()
