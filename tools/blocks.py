#!/usr/bin/env python3
"""Runs the blocks of commands in README.md and docs/USING.md as they are printed, one after another, as a reader types them in a clean clone. Needed where a
command of these pages is new, or prints another thing.

  tools/blocks.py            (the gate) after `rt ci`, which leaves proofs on this machine
  tools/blocks.py --quick    without the commands that prove or try, in seconds

A block stands four spaces in, or seven in a list; one that is a line of crates.txt is none. Its lines run in one shell, page after page, each page from the clone's top; what
they print is compared with the lines below them that begin with '# '. Of those in SHORT nothing or a shorter form is run, which is told.
What it relies on: `rt ci NAME` and tools/release.py take over what this machine kept of the library's proofs, and `rt run` and `rt check` go on from what came
with an archive: where one of these two proves a crate of the library again, it fails here. A kit that keeps nothing would prove all again, so there only what
--quick has is run.
It prints a line for each command, and last 'N passed, M failed'."""
import os
import pathlib
import re
import shutil
import subprocess
import sys
import tempfile
from typing import NamedTuple

PAGES = ("README.md", "docs/USING.md")
SHORT = {
    "./test": (":", "it is the gate, of which this is a part"),
    "./test --quick": ("./test --quick example_refused", "of one crate, since it is a part of the gate"),
}
PROVES = re.compile(r"\brt (?:ci|run|check)\b|tools/release\.py|take\.py --from|\btar\b|/out/")
TRIES = re.compile(r"\brt try\b|\./fcrun\b|\./test\b")
AGAIN = re.compile(r"(?m)^.*begins with what a check kept.*$|^crate (?:fc_\w+|fallible_collections): modules.*$")
MOST_SECONDS = 3000  # of a page; longer, even beside other work, means that the library is proved again
READERS = {name: value for name, value in os.environ.items() if name != "CI"}  # where CI is set, `rt ci NAME`, which is no gate, is refused
top = pathlib.Path(__file__).resolve().parent.parent


class Command(NamedTuple):
    """A line of a block: its page and number there, what is typed, and what it is to print, if the page shows that."""

    page: str
    number: int
    typed: str
    printed: str


def blocks(text):
    """The blocks of a page, each as its lines with their numbers."""
    fenced, last, found = False, "", []
    for number, line in enumerate(text.splitlines(), 1):
        fenced ^= line.startswith("```")
        if line.startswith("    ") and not fenced and (last.startswith("    ") or not last):
            if not last:
                found.append([])
            found[-1].append((number, line.strip()))
        last = line
    return [it for it in found if not re.fullmatch(r"\w+: [\w ]+", it[0][1])]


def commands(page):
    """The commands of a page."""
    found = []
    for block in blocks((top / page).read_text()):
        for number, line in block:
            if line.startswith("# "):
                found[-1] = found[-1]._replace(printed=f"{found[-1].printed}{line[2:]}\n")
            else:
                found.append(Command(page, number, re.sub(r" +# .*$", "", line), ""))
    return found


def git(*words, at=top, **how):
    return subprocess.run(["git", "-C", str(at), *words], capture_output=True, check=True, **how).stdout


def clone(to):
    """Clones what is here, with what is not yet committed as a commit more."""
    git("clone", "-q", str(top), str(to))
    changed = git("diff", "--binary", "HEAD")
    if changed:
        git("apply", "--index", "-", at=to, input=changed)
    for name in git("ls-files", "-o", "-z", "--exclude-standard").decode().split("\0")[:-1]:
        (to / name).parent.mkdir(parents=True, exist_ok=True)
        shutil.copy2(top / name, to / name)
        changed = name
    if changed:
        git("add", "-A", at=to)
        git("-c", "user.name=gate", "-c", "user.email=gate@localhost", "commit", "-q", "-m", "Not yet committed", at=to)


def keeps():
    """Whether the kit keeps what it proved."""
    return "--anew" in subprocess.run(["rt", "help"], stdout=subprocess.PIPE, stderr=subprocess.STDOUT, text=True, check=False).stdout


def script(given, room):
    """One shell's script of these commands, each with its output, status and seconds in files; it ends at one that fails."""
    parts = []
    for number, typed in enumerate(given):
        at = room / str(number)
        parts.append(f"began=$SECONDS\n{{\n{typed}\n}} >{at}.out 2>{at}.err\necho $? $((SECONDS - began)) >{at}.end\nread -r status _ <{at}.end; [ $status -eq 0 ] || exit 1")
    return "\n".join(parts)


def wrong_in(command, at):
    """What is wrong with a command that ran, and the seconds that it took."""
    end = at.with_suffix(".end")
    status, seconds = end.read_text().split() if end.is_file() else ("none", "?")
    out, err = (at.with_suffix(it).read_text(errors="replace") if at.with_suffix(it).is_file() else "" for it in (".out", ".err"))
    if status != "0":
        return f"it ended with status {status}\n{out[-2000:]}{err[-2000:]}", seconds
    if command.printed and out != command.printed:
        return f"it printed, other than the page shows,\n{out[-2000:]}", seconds
    again = AGAIN.findall(out + err) if re.search(r"\brt (?:run|check)\b", command.typed) else []
    return "\n".join(["it proved again what was proved:", *again[:5]]) if again else "", seconds


def ran(page, at, is_quick):
    """Runs a page's commands in the clone. Answers how many passed, and how many failed."""
    found, given, failed = commands(page), [], 0
    for it in found:
        short, why = SHORT.get(it.typed, (it.typed, ""))
        if is_quick and (PROVES.search(it.typed) or TRIES.search(it.typed)):
            short, why = ("cd -" if it.typed.endswith("cd -") else ":"), "it proves or tries"
        given.append(short)
        if why:
            print(f"{page}, line {it.number}: {it.typed}: {'not run' if short in (':', 'cd -') else f'{short} is run'}: {why}", flush=True)
    shown = [number for number, it in enumerate(found) if given[number] == it.typed or given[number] not in (":", "cd -")]
    with tempfile.TemporaryDirectory() as folder:
        room = pathlib.Path(folder)
        try:
            subprocess.run(["bash", "-c", script(given, room)], cwd=at, stdin=subprocess.DEVNULL, env=READERS, timeout=MOST_SECONDS, check=False)
        except subprocess.TimeoutExpired:
            print(f"{page}: not done after {MOST_SECONDS} seconds")
        for number in shown:
            wrong, seconds = wrong_in(found[number], room / str(number))
            failed += bool(wrong)
            print(f"{page}, line {found[number].number}: {found[number].typed}: {wrong or f'ok, {seconds} s'}", flush=True)
            if wrong and "status" in wrong:
                break  # the others were not run
    return len(shown) - failed, failed


def main(words):
    if words not in ([], ["--quick"]):
        sys.exit(__doc__)
    is_quick = bool(words) or not keeps()
    with tempfile.TemporaryDirectory() as folder:
        clone(pathlib.Path(folder) / "clone")
        results = [ran(page, pathlib.Path(folder) / "clone", is_quick) for page in PAGES]
    failed = sum(it for _, it in results)
    print(f"{sum(it for it, _ in results)} passed, {failed} failed")
    return 1 if failed else 0


if __name__ == "__main__":
    sys.exit(main(sys.argv[1:]))
