#!/usr/bin/env python3
"""Shows how far `rt ci` is: a line for each crate that is done, and in full what failed. Its last line is that of `rt ci`. Needed by ./test alone.

  rt ci 2>&1 | tools/progress.py LOG      LOG gets all that `rt ci` wrote"""
import pathlib
import re
import sys
import time

FAILED = re.compile(r"NOT PROVED|FAILED|NOT REFUSED|NOT TRIED|BAD EDIT|was stopped by|ended with status|is not what its file|had not ended|^warning|^rt: note")
# What a crate's check says of each part that is well.
WELL = re.compile(r": proved$|^statements |^logic |^empty contracts: 0 found|^crate \w+: modules")


def count(pattern, word=""):
    """Returns in how many crates a file of that name has the word."""
    return len({it.parts[1] for it in pathlib.Path().glob(f"crates/*/{pattern}") if word in it.read_text(encoding="utf-8")})


def main():
    if len(sys.argv) != 2:
        sys.exit(__doc__)
    began, block, last = time.time(), [], ""
    wanted = {"proved": len(re.findall(r"^\w+[^:#]*:", pathlib.Path("crates.txt").read_text(), re.M)), "tests": count("src/**/*.rt", "#[test]")}
    done = {"proved": 0, "tests": 0}
    with open(sys.argv[1], "w", encoding="utf-8") as log:
        for line in sys.stdin:
            log.write(line)
            last = line.rstrip("\n")
            block = [] if last.startswith("== ") else [*block, last]
            if re.match(r"rt: \S+ (proved|is kept)", last):
                done["proved"] += 1
            elif re.match(r"rt: \S+: its tests are proved", last):
                done["tests"] += 1
            elif FAILED.search(last):
                print("\n".join(it for it in block[-200:] if not WELL.search(it)), flush=True)
                continue
            elif not re.match(r"rt: (\S+: (trying its|its tests passed)|\S+ ran)", last):
                continue
            minutes, seconds = divmod(int(time.time() - began), 60)
            said = re.sub(r"^rt: |, and wrote what its file stdout has|: an earlier run .*", "", last)
            tests = f", tests of {done['tests']} of {wanted['tests']}" if done["tests"] else ""
            print(f"{minutes:3}:{seconds:02}  {said}  [{done['proved']} of {wanted['proved']} crates{tests}]", flush=True)
    # What stopped it before it came to a crate.
    if not any(done.values()):
        print("\n".join(block[-20:-1]), flush=True)
    print(last)


main()
