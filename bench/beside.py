#!/usr/bin/env python3
"""`bench/beside.py CHECKOUT [ROUNDS]`: what a change does to times, beside another checkout of this repository.

Builds the drivers of maps, walks, sets and whole maps in both, runs those of the other checkout and of this one in turn, five times
or as often as is said, and prints for each row the medians of its multiples of std's time: before, then after. Each run measures std's in turn with
ours, so a multiple says more than a time on a machine that has other guests."""
import pathlib
import re
import statistics
import subprocess
import sys
import tempfile

DRIVERS = ["map", "walks", "sets", "whole"]
TOP = pathlib.Path(__file__).resolve().parent.parent
ROW = re.compile(r"^ *(.+?):? +[\d.]+ / [\d.]+ +\( *([\d.]+)\)")


def multiples(program):
    """The multiple of std's time in each row that a driver prints, by the heading above it and the row's name."""
    said = subprocess.run([program], stdout=subprocess.PIPE, text=True, check=True).stdout
    found, heading = {}, ""
    for line in said.splitlines():
        row = ROW.match(line)
        if row:
            found[heading if line.startswith(" ") else "counting keys", re.sub(r", \d+ runs", "", row[1])] = float(row[2])
        else:
            heading = re.sub(r", \d+ (walks a run|runs).*", "", line)
    return found


def main(other, rounds):
    with tempfile.TemporaryDirectory() as folder:
        for driver in DRIVERS:
            programs = [f"{folder}/{driver}{side}" for side in range(2)]
            for checkout, program in zip([other, TOP], programs):
                subprocess.run([f"{checkout}/bench/build", f"{driver}_driver", program], check=True)
            seen = [[], []]
            for _ in range(rounds):
                for side, program in enumerate(programs):
                    seen[side].append(multiples(program))
            print(f"{driver}: medians of {rounds} multiples of std's time, before and after", flush=True)
            for row in seen[1][0]:
                before, after = ([run[row] for run in runs if row in run] for runs in seen)
                median = lambda them: f"{statistics.median(them):4.2f} ({min(them):4.2f} to {max(them):4.2f})" if them else "none"
                print(f"  {row[0]}, {row[1]}: {median(before)}, {median(after)}", flush=True)


if len(sys.argv) not in (2, 3):
    sys.exit(__doc__)
main(pathlib.Path(sys.argv[1]).resolve(), int(sys.argv[2]) if len(sys.argv) == 3 else 5)
