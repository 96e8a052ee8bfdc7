#!/usr/bin/env python3
"""Proves and builds the program of crates/fcrun, or of the crate that is named, from its sources, one crate after another, and tells on standard error how
far it is. Needed to have the proved program without the gate.

Where the program is built from the sources as they are, nothing is done. What is proved is kept, so a build that was cut off goes on
where it was. How many seconds each crate took is kept in the crate's out/seconds, and told the next time."""
import pathlib
import re
import shutil
import subprocess
import sys
import time

top = pathlib.Path(__file__).resolve().parent.parent
name = sys.argv[1] if len(sys.argv) > 1 else "fcrun"
out = top / f"crates/{name}/out"
taken = out / "seconds"
function = re.compile(r"(?m)^ *(?:pub(?:\(\w+\))? )?(?:const )?fn ")


def tell(text):
    print(f"tools/build.py: {text}", file=sys.stderr, flush=True)


def crates_below(name, uses):
    """The crates of this repository that the crate stands on, and itself, lowest first."""
    found = []
    for below in uses[name]:
        found += [it for it in crates_below(below, uses) if it not in found] if below in uses else []
    return [*found, name]


def functions_of(crate):
    """How many functions its sources have, without those of tests."""
    texts = [it.read_text() for it in (top / f"crates/{crate}/src").rglob("*.rt")]
    return sum(len(function.findall(text.split("#[cfg(test)]\nmod")[0])) for text in texts)


def minutes(seconds):
    return f"{seconds / 60:.0f} minutes" if seconds >= 90 else f"{seconds:.0f} seconds"


def seconds_before():
    """How long each crate took when it was last proved from nothing, by its name."""
    if not taken.is_file():
        return {}
    return {name: float(seconds) for name, seconds in map(str.split, taken.read_text().splitlines())}


def prove(crate, is_program, tells):
    """Proves and builds a crate, and calls `tells` each minute. Answers the last of what was said, or nothing where all is well."""
    with open(out / "log", "w+") as log:
        words = ["rt", "run" if is_program else "lib"]
        proving = subprocess.Popen(words, cwd=top / f"crates/{crate}", stdin=subprocess.DEVNULL, stdout=log, stderr=subprocess.STDOUT)
        while True:
            try:
                status = proving.wait(60)
                break
            except subprocess.TimeoutExpired:
                tells()
        log.seek(0)
        return log.read().splitlines()[-20:] + [f"status {status}"] if status else []


def prove_all(crates):
    counts = {crate: functions_of(crate) for crate in crates}
    before, now, start, done = seconds_before(), {}, time.time(), 0
    for number, crate in enumerate(crates, 1):
        last = f", {minutes(before[crate])} last time" if crate in before else ""
        tell(f"{done} of {sum(counts.values())} functions are proved; now crate {number} of {len(crates)}, {crate}{last}")
        begin = time.time()
        wrong = prove(crate, crate == crates[-1], lambda: tell(f"{crate} has taken {minutes(time.time() - begin)} so far, all {minutes(time.time() - start)}"))
        if wrong:
            print("\n".join(wrong), file=sys.stderr)
            sys.exit(f"tools/build.py: {crate} could not be built")
        now[crate] = time.time() - begin
        done += counts[crate]
        # A crate that was kept took almost no time, which says nothing of the next proof from nothing.
        kept = {**before, **{it: seconds for it, seconds in now.items() if seconds > before.get(it, 0) / 2}}
        taken.write_text("".join(f"{it} {kept[it]:.0f}\n" for it in kept))
    tell(f"all {done} functions are proved, and the program is built, after {minutes(time.time() - start)}")


def main():
    if not shutil.which("rt"):
        sys.exit("tools/build.py: rt, the command of the Rattle toolchain, is not on the path")
    sources = subprocess.run([top / "tools/sources", name], stdout=subprocess.PIPE, text=True, check=True).stdout
    stamp = out / "sources"
    if (out / name).is_file() and stamp.is_file() and stamp.read_text() == sources:
        return tell("the program is built from these sources already")
    lines = [line.split(":") for line in (top / "crates.txt").read_text().splitlines() if ":" in line and not line.startswith("#")]
    crates = crates_below(name, {crate.split()[0]: below.split() for crate, below in lines})
    out.mkdir(exist_ok=True)
    stamp.unlink(missing_ok=True)
    before = seconds_before()
    seen = "some 70 processor minutes, 47 minutes on 4 cores with other work beside it, and 3 GB of disk, were seen"
    told = f"all took {minutes(sum(before.values()))} last time" if len(before) == len(crates) else seen
    tell(f"proving {len(crates)} crates and building the program: {told}; what is proved is kept if you stop it")
    prove_all(crates)
    stamp.write_text(sources)


try:
    main()
except KeyboardInterrupt:
    sys.exit("tools/build.py: stopped; what is proved is kept")
