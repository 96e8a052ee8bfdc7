#!/usr/bin/env python3
"""A first look, or a look at a change under way: runs every test, program and line by a trial, which proves nothing. Needed before the gate, since it takes
minutes.

  ./test --quick             all of them
  ./test --quick CRATE..     the tests and programs of these crates alone
  tools/quick.py --minutes   tells how many minutes the first takes here, with nothing beside it

It ends by telling what it did not prove, and its last line is 'N passed, M failed': tests, programs and lines. ./test is the gate."""
import concurrent.futures
import os
import pathlib
import re
import shutil
import subprocess
import sys
import tempfile
import time

sys.dont_write_bytecode = True
from models.files import lines_of_files

CRATES = sorted(pathlib.Path("crates").iterdir())
# Tests with this ending take all memory first. A trial's allocator does not give all that it has, so they fail there, by design, and show what they are to show
# where they are built. One that passes in a trial has not looked at what it is to show.
ONLY_BUILT = "_not_in_a_trial"
LOOKS = (
    *("tools/layout.py", "tools/counts.py", "tools/statements.py", "tools/pages.py", "tools/laws.py", "tools/words.py", "tools/plot.py", "tools/site.py", "tools/edits.py"),
    *("tools/changes.py --check", "tools/sizes.py", "tools/proofs.py", "tools/release.py", "tools/blocks.py --quick"),
)
SECONDS = 900  # of a run; the toolchain's own 60 are too few beside other work
EACH, OF_TESTS = 30, 15  # processor seconds of a trial, and of each crate of tests in it


def tried(crate, *words, **how):
    return subprocess.run(["rt", "try", "--seconds", str(SECONDS), *words], cwd=crate, capture_output=True, encoding="utf-8", errors="surrogateescape", check=False, **how)


def found_in(ran):
    """How many tests passed, and what failed."""
    said = ran.stdout + ran.stderr
    found = re.findall(r"^test (\S+) \.\.\. (\w+)", said, re.M)
    wrong = [name for name, result in found if (result != "ok") != name.endswith(ONLY_BUILT)]
    passed = len([name for name, result in found if result == "ok"])
    return passed, [] if found and not wrong else [f"{' '.join(wrong)}\n{said[-3000:]}"]


def tests(crates):
    """Runs the tests of crates as one crate, with a module for each, since most of a trial goes to what stands below; or, where that does not end, one
    after another. Returns how many passed, and what failed."""
    with tempfile.TemporaryDirectory() as folder:
        ran = tried(joined(crates, pathlib.Path(folder)), "--test")
    if re.search("(?m)^run=ended ", ran.stdout + ran.stderr) or len(crates) == 1:
        return found_in(ran)
    alone = [found_in(tried(crate, "--test")) for crate in crates]
    return sum(passed for passed, _ in alone), [it for _, wrong in alone for it in wrong]


def joined(crates, repository):
    """Makes a repository with a crate that has the tests of these. Answers the crate's folder."""
    for crate in CRATES:
        shutil.copytree(crate, repository / crate, ignore=shutil.ignore_patterns("out", "edits", "must-fail", "*.md"))
    lines = pathlib.Path("crates.txt").read_text(encoding="utf-8")
    uses = dict(re.findall(r"(?m)^(\w+)[^:#\n]*:(.*)$", lines))
    below = dict.fromkeys(it for crate in crates for it in uses[crate.name].split())
    (repository / "crates.txt").write_text(f"{lines}trial: {' '.join(below)}\n", encoding="utf-8")
    (repository / "HANDLES").write_bytes(pathlib.Path("HANDLES").read_bytes())
    to = repository / "crates/trial/src"
    to.mkdir(parents=True)
    (to / "lib.rt").write_text("#![tactic(auto)]\n\n" + "".join(f"#[cfg(test)]\nmod {crate.name};\n" for crate in crates), encoding="utf-8")
    for crate in crates:
        for file in sorted(crate.glob("src/**/*.rt")):
            text = re.sub(r"\bcrate::", f"crate::{crate.name}::", file.read_text(encoding="utf-8"))
            inside = file.relative_to(crate / "src")
            at = to / f"{crate.name}.rt" if inside.name == "lib.rt" else to / crate.name / inside
            at.parent.mkdir(parents=True, exist_ok=True)
            at.write_text(re.sub(r"(?m)^(//!|#!\[).*\n", "", text) if inside.name == "lib.rt" else text, encoding="utf-8")
    return to.parent


def program(crate):
    """Runs a program on its rows; returns how many passed, and what failed."""
    text = lambda name: (crate / name).read_text(encoding="utf-8", errors="surrogateescape") if (crate / name).exists() else ""  # a row may be no text
    words = text("args").split()
    ran = tried(crate, *(["--", *words] if words else []), input=text("stdin"))
    wanted = int(text("status") or 0)
    if ran.stdout == text("stdout") and ran.returncode == wanted:
        return 1, []
    return 0, [f"status {ran.returncode}, and {wanted} is wanted; its output is {'' if ran.stdout == text('stdout') else 'not '}that of its file stdout\n{ran.stderr[-2000:]}"]


def lines(crate):
    """Runs the program on each input of lines/, with the request refused that it names, if it names one."""
    by_request, passed, wrong = {}, 0, []
    for name, given, wanted, _, request in lines_of_files():
        by_request.setdefault(request, {})[name.replace(".txt:", "_")] = given, wanted
    for request, cases in by_request.items():
        with tempfile.TemporaryDirectory() as room:
            for name, (given, wanted) in cases.items():
                pathlib.Path(f"{room}/{name}").write_bytes(given)
                pathlib.Path(f"{room}/{name}.stdout").write_bytes(wanted)
            ran = tried(crate, *(["--fail-alloc", str(request)] if request else []), "--cases", room)
        said = ran.stdout + ran.stderr
        found = re.findall(r"^case=.*$", said, re.M)
        differ = [it for it in found if "output=expected" not in it]
        passed += len(found) - len(differ)
        wrong += differ or ([] if len(found) == len(cases) and not ran.returncode else [said[-2000:]])
    return passed, wrong


def chosen(names, cores):
    """What is run: a name, the call and what it takes, of all crates or of those that are named; tests in as many groups as there are cores."""
    has_tests = [it for it in CRATES if any("#[test]" in file.read_text(encoding="utf-8") for file in it.glob("src/**/*.rt"))]
    programs = [it for it in CRATES if (it / "src/main.rt").exists()]
    if lacking := {*names} - {it.name for it in has_tests + programs}:
        sys.exit(f"test --quick: {', '.join(sorted(lacking))}: no crate with tests, and no program")
    has_tests, programs = ([it for it in crates if not names or it.name in names] for crates in (has_tests, programs))
    groups = [it for it in (has_tests[at::cores] for at in range(cores)) if it]
    work = [("tests of " + ", ".join(it.name.removeprefix("test_") for it in group), tests, group) for group in groups]
    work += [("lines/", lines, pathlib.Path("crates/fcrun"))] * (not names)
    return work + [(it.name, program, it) for it in programs]


def minutes(work, cores):
    """How long that takes: a trial of a program, and each crate of tests besides."""
    seconds = sum(EACH + OF_TESTS * len(what) if call is tests else EACH for _, call, what in work)
    return -(-seconds // (60 * cores))


def begin(work, cores):
    """Says what is run, and how long that takes."""
    crates, programs = sum(len(what) for _, call, what in work if call is tests), sum(call is program for _, call, _ in work)
    print(f"test --quick: some {minutes(work, cores)} minutes on {cores} cores, with nothing beside it: {crates} crates of tests, {programs} programs", end="")
    print(f"{' and lines/' * any(call is lines for _, call, _ in work)}, by trials, which prove nothing", flush=True)


def unproved(names):
    """Says what was not looked at."""
    crates = len(re.findall(r"(?m)^\w+[^:#\n]*:", pathlib.Path("crates.txt").read_text(encoding="utf-8")))
    edits = len([*pathlib.Path().glob("crates/*/must-fail/*.edit")])
    print(f"test --quick: not proved: any function of the {crates} crates, or their tests; not tried: the {edits} wrong bodies of the gate, each request refused in turn,", end="")
    print(f" random lines, {'other crates, ' * bool(names)}the built programs, and tests {'.'.join(['', '', ONLY_BUILT])}. ./test does all that")


def main(names):
    os.chdir(pathlib.Path(__file__).resolve().parent.parent)
    cores = len(os.sched_getaffinity(0))
    if names == ["--minutes"]:
        return print(minutes(chosen([], cores), cores))
    work = chosen(names, cores)
    begin(work, cores)
    began, passed, failed = time.time(), 0, 0
    for look in () if names else LOOKS:
        ran = subprocess.run([*look.split()], capture_output=True, text=True, check=False)
        if ran.returncode:
            failed += 1
            print(f"{look}: {ran.stdout}{ran.stderr}", flush=True)
    with concurrent.futures.ThreadPoolExecutor(cores) as pool:
        running = {pool.submit(call, what): name for name, call, what in work}
        for number, it in enumerate(concurrent.futures.as_completed(running), 1):
            well, wrong = it.result()
            passed, failed = passed + well, failed + len(wrong)
            passing, seconds = divmod(int(time.time() - began), 60)
            print(f"{passing:3}:{seconds:02}  {running[it]}: {well} passed, {len(wrong)} failed  [{number} of {len(work)}]", *wrong, sep="\n", flush=True)
    unproved(names)
    print(f"{passed} passed, {failed} failed")
    return 1 if failed else 0


sys.exit(main(sys.argv[1:]))
