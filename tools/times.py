#!/usr/bin/env python3
"""What the gate costs. Needed where the gate takes longer than docs/GATE.md says.

  tools/times.py ./test                  runs a command of the toolchain and tells the processor time that its checks took, crate by crate
  tools/times.py --write ./test --anew   and writes it into docs/GATE.md and docs/USING.md, if the command proved all from nothing and ended well
  tools/times.py --functions CRATE..     checks these crates' tests, and writes the processor seconds of the dearest functions into docs/GATE.md
  tools/times.py --told LOG              what ./test says at its start, of the figures in docs/GATE.md

It looks several times a second at the checks that descend from the command, and at no other on the machine, so each figure lacks a
fraction of a second a check. What is no check of a crate (compilers, tests, the sweep) is told in one sum."""
import ctypes
import os
import pathlib
import re
import resource
import shutil
import subprocess
import sys
import time

TICKS = os.sysconf("SC_CLK_TCK")
KINDS = ("proof", "tests", "seed", "edits")
PAGE, USING = pathlib.Path("docs/GATE.md"), pathlib.Path("docs/USING.md")
# How many functions docs/GATE.md names.
DEAREST = 60
# Of Linux: a process whose parent ends becomes a child of this one, so that its ancestors still lead here.
PR_SET_CHILD_SUBREAPER = 36


def kind_of(words, where):
    """Returns what a check is for: a seed is the proof once more, over which a crate's wrong bodies are tried."""
    if "/rt-edit" in where:
        return "seed" if "--incremental" in words and words[words.index("--incremental") + 1].endswith("/seed") else "edits"
    return "tests" if "--test" in words else "proof"


def fields_of(pid):
    """Returns what stands in a process's line of state, after its name."""
    return pathlib.Path(f"/proc/{pid}/stat").read_text().rpartition(")")[2].split()


def is_ours(pid):
    """Says whether a process descends from this one."""
    while int(pid) > 1 and int(pid) != os.getpid():
        pid = fields_of(pid)[1]
    return int(pid) == os.getpid()


def look(seen):
    """Notes the processor seconds of each check of the command that is running."""
    for pid in filter(str.isdigit, os.listdir("/proc")):
        try:
            words = pathlib.Path(f"/proc/{pid}/cmdline").read_bytes().decode(errors="replace").split("\0")
            if not words[0].endswith("/rattle") or "--crate-name" not in words or not is_ours(pid):
                continue
            fields = fields_of(pid)
            where = os.readlink(f"/proc/{pid}/cwd")
        except (OSError, IndexError):
            continue
        key = words[words.index("--crate-name") + 1], kind_of(words, where)
        seen[pid, fields[19]] = key, (int(fields[11]) + int(fields[12])) / TICKS


def watched(command):
    """Runs the command; returns its status, the minutes it took, its processor minutes, and those of each crate's checks by kind."""
    ctypes.CDLL(None).prctl(PR_SET_CHILD_SUBREAPER, 1, 0, 0, 0)
    began, seen = time.time(), {}
    running = subprocess.Popen(command)
    while running.poll() is None:
        look(seen)
        time.sleep(0.2)
    sums = {}
    for key, seconds in seen.values():
        sums[key] = sums.get(key, 0) + seconds / 60
    used = resource.getrusage(resource.RUSAGE_CHILDREN)
    return running.returncode, (time.time() - began) / 60, (used.ru_utime + used.ru_stime) / 60, sums


def stamped(crate):
    """Checks a crate's tests; returns the processor seconds of each function, of which the first holds what comes before it."""
    ctypes.CDLL(None).prctl(PR_SET_CHILD_SUBREAPER, 1, 0, 0, 0)
    words = ["rt", "check", "--test", "--progress", "--jobs", "1"]
    running = subprocess.Popen(words, cwd=f"crates/{crate}", stdout=subprocess.PIPE, stderr=subprocess.STDOUT, text=True, errors="replace")
    seen, seconds, before = {}, {}, 0
    for line in running.stdout:
        look(seen)
        now = sum(it for (_, kind), it in seen.values() if kind == "tests")
        if found := re.match(r"checked (\S+), \d+ of \d+", line):
            seconds[found[1]], before = now - before, now
    return seconds if running.wait() == 0 else {}


def functions(crates):
    """Puts the dearest functions of these crates into the page's table, beside those of other crates that stand there; what it is stays beside it."""
    rows = re.findall(r"^\| `(\w+)::(\S+)` \| ([\d.]+) \| (.*) \|$", PAGE.read_text(encoding="utf-8"), re.M)
    of = {f"{crate}::{name}": float(it) for crate, name, it, _ in rows if crate not in crates}
    what = {f"{crate}::{name}": it for crate, name, _, it in rows}
    for crate in crates:
        found = stamped(crate)
        print(f"{crate}: {len(found)} functions, {sum(found.values()):.0f} processor seconds" if found else f"{crate}: it is not proved")
        of.update(found)
    dearest = sorted(of, key=lambda it: (-of[it], it))[:DEAREST]
    lines = [f"| `{it}` | {of[it]:.1f} | {what.get(it, '')} |" for it in dearest]
    written("dearest", ["| Function | Processor seconds | It is |", "|---|---|---|", *lines])


def edits_of(crate):
    return len([*pathlib.Path(f"crates/{crate}/must-fail").glob("*.edit")])


def table(sums):
    """Returns the table by crate, dearest first."""
    of = lambda crate: [sums.get((crate, kind), 0) for kind in KINDS]
    known = {it for it, _ in sums if pathlib.Path("crates", it).is_dir()}  # and none that a part of the gate made for a while
    rows = ["| Crate | Proof | Tests | Wrong bodies | Seed | Their trials | All |", "|---|---|---|---|---|---|---|"]
    for crate in sorted(known, key=lambda it: (-sum(of(it)), it)):
        proof, tests, seed, edits = (f"{it:.1f}" if it else "" for it in of(crate))
        rows.append(f"| `{crate}` | {proof} | {tests} | {edits_of(crate) or ''} | {seed} | {edits} | {sum(of(crate)):.1f} |")
    return rows


def told(rows):
    """Returns the rows of figures: those of earlier runs, and that of this commit, kit and machine."""
    status, minutes, whole, sums = rows
    by = [f"{sum(it for (_, kind), it in sums.items() if kind == one):.0f}" for one in KINDS]
    git = lambda *words: subprocess.run(["git", *words], capture_output=True, text=True, check=False).stdout.strip()
    kit = re.search(r"rattle-kit-\w+", subprocess.run(["rt", "version"], capture_output=True, text=True, check=False).stdout)
    named = git("rev-parse", "--short", "HEAD"), kit[0] if kit else "", str(os.cpu_count())
    earlier = re.findall(r"(?m)^\| [0-9a-f]{7,} \| .*$", PAGE.read_text(encoding="utf-8"))
    return [
        "| Commit | Kit | Cores | Minutes | Processor minutes | of these: proofs | tests | seeds | trials |",
        "|---|---|---|---|---|---|---|---|---|",
        *earlier,
        f"| {' | '.join(named)} | {minutes:.0f} | {whole:.0f} | {' | '.join(by)} |",
    ]


def written(name, rows):
    """Puts the rows between the page's two marks of that name."""
    text, marks = PAGE.read_text(encoding="utf-8"), [f"<!-- {name} -->", f"<!-- end of {name} -->"]
    before, _, rest = text.partition(marks[0])
    PAGE.write_text(before + "\n".join([marks[0], *rows, marks[1]]) + rest.partition(marks[1])[2], encoding="utf-8")


def first_checks(sums):
    """Puts into docs/USING.md, for each crate that can be taken, how many come with it and the minutes of their proofs."""
    lines = {it[1]: it[2].split() for it in re.finditer(r"^(\w+)[^:#\n]*:(.*)$", pathlib.Path("crates.txt").read_text(), re.M)}

    def below(name):
        return {name}.union(*(below(it) for it in lines[name] if it in lines))

    def row(found):
        if found[1] not in lines:
            return found[0]
        taken = below(found[1])
        return f"| `{found[1]}` | {len(taken)} | {found[3]} | {sum(sums.get((it, 'proof'), 0) for it in taken):.1f} |"

    text = USING.read_text(encoding="utf-8")
    USING.write_text(re.sub(r"(?m)^\| `(\w+)` \| (\d+) \| (.*) \| [\d.]+ \|$", row, text), encoding="utf-8")


def begin(log):
    """Says how long the gate takes, what a first look shows, what the gate will do, and what it needs."""
    crates = re.findall(r"^(\w+)[^:#\n]*:", pathlib.Path("crates.txt").read_text(), re.M)
    rows = re.findall(r"^\| (\w+) \| (\S+) \| (\d+) \| (\d+) \| (\d+) \|", PAGE.read_text(encoding="utf-8"), re.M)
    here, known = len(os.sched_getaffinity(0)), "nobody wrote down how long this takes (docs/GATE.md)"
    if rows:
        commit, _, cores, minutes, processor = rows[-1]
        most = max(int(minutes), -(-int(processor) // here))
        known = f"some {most} minutes on the {here} cores here from nothing ({minutes} on {cores} at {commit}), far less where this machine kept the proofs"
    quick = subprocess.run(["tools/quick.py", "--minutes"], capture_output=True, text=True, check=False).stdout.strip()
    print(f"test: {known}; ./test --quick shows in some {quick} whether all tests and programs do in a trial what they are to do, and proves nothing")
    print(f"test: proves {len(crates)} crates and their tests, tries {sum(map(edits_of, crates))} wrong bodies, runs each test and program,")
    print("test: then lines through the built program, its ends, and all with each request for memory refused in turn.")
    free = shutil.disk_usage(".").free / 1e9
    print(f"test: it needs rt, cc, python3 and zstd, 8 GB of memory and 12 GB of disk ({free:.0f} are free); what rt ci says goes to {log}", flush=True)


def main():
    words = sys.argv[1:]
    if words[:1] == ["--told"] and len(words) == 2:
        return begin(words[1])
    if words[:1] == ["--functions"] and words[1:]:
        return functions(words[1:])
    is_written = words[:1] == ["--write"]
    if not words[is_written:]:
        sys.exit(__doc__)
    figures = status, minutes, whole, sums = watched(words[is_written:])
    print("\n" + "\n".join([*told(figures), "", *table(sums)]))
    print(f"\n{minutes:.1f} minutes on {os.cpu_count()} cores; {whole:.0f} processor minutes, {sum(sums.values()):.0f} of them in checks")
    proved = {crate for crate, kind in sums if kind == "proof"}
    lacking = [it for it in re.findall(r"^(\w+)[^:#\n]*:", pathlib.Path("crates.txt").read_text(), re.M) if it not in proved]
    if is_written and not status and not lacking:
        written("figures", told(figures))
        written("by crate", table(sums))
        first_checks(sums)
        subprocess.run(["tools/pages.py", "--write"], check=False)  # pages that tell these minutes
    elif is_written:
        print(f"tools/times.py: {PAGE} is left as it is: " + (f"status {status}" if status else f"no proof was seen of {' '.join(lacking)}"))
    return sys.exit(status)


main()
