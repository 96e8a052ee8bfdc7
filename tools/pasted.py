#!/usr/bin/env python3
"""Proves the code of the pages where a user pastes it, as it stands there. Needed where code of a page does not stand alone in a user's crate.

  tools/pasted.py [NAME..]      NAME: what is taken, fallible_collections or fc_map, and both without names

For each it makes a repository with `tools/take.py` in a temporary folder, and reads the pages that came along. Each of their links has to lead somewhere there,
and each path that they name of the crates that were taken. Of what tools/pages.py quotes whole, `imports` with the `proved` below them are a file, and so is each
`caller`, of a crate whose line of crates.txt is the page's own, or else that of docs/USING.md; what has a `main` is a program. Of the map alone it takes the
pages with imports from its own crates.
`rt ci` there proves these crates: the library it takes over from what this machine kept when the gate proved it. A kit that keeps nothing would prove it
again, for an hour: there a trial compiles the code, and proves nothing.

It prints a line for each page, and last 'N passed, M failed'."""
import pathlib
import re
import shutil
import subprocess
import sys
import tempfile
from typing import NamedTuple

TAKINGS = ("fallible_collections", "fc_map")
TEST = "use std::test::Fail;\n\n#[test]\nfn it_compiles(_rt: HostRuntime) -> Result<(), Fail> {\n    Ok(())\n}\n"  # what a trial runs
FIRST_LINE = "#![tactic(auto)]\n\n"
MOST_SECONDS = 2400  # longer even beside other work would mean that the library is proved again
top = pathlib.Path(__file__).resolve().parent.parent
QUOTED = re.compile(r"(?ms)^<!-- (?!body|code|example)(\w+): ([^\n]+) -->\n```rust\n(.*?)^```$")
PROGRAM = re.compile(r"(?m)^fn main\(")


class Piece(NamedTuple):
    """A file of pasted code: its page, the crates that the page's line of crates.txt names, its text, how many functions it has, and where it is from."""

    page: str
    line: str
    text: str
    functions: int
    source: str = ""


def line_of(text, taken):
    """The crates that a page's line of crates.txt names after what is taken, if it has one."""
    said = rf"\w+: ({taken}\b[ \w]*)"
    found = re.search(rf"(?m)^ +{said}$", text) or re.search(rf"(?m)^ +echo '{said}' >>", text)
    return found[1].strip() if found else ""


def pieces_of(page, text, taken, line):
    """The files of a page's code."""
    line, is_open, found = line_of(text, taken) or line, False, []
    for kind, words, code in QUOTED.findall(text):
        if kind == "imports":
            found += [Piece(page, line, code, 0)] * (words == taken)
            is_open |= words == taken
        elif kind == "proved" and is_open:
            found[-1] = found[-1]._replace(text=f"{found[-1].text}\n{code}", functions=found[-1].functions + len(words.split()[1:]))
        elif kind != "proved" and taken == "fallible_collections":
            found.append(Piece(page, line, code, len(re.findall(r"(?m)^(?:pub )?fn ", code)), words.split()[0]))
            is_open = False
    return found


def astray(repository, page, text):
    """The links of a page that lead nowhere, and the paths of crates that were taken that it names and are not there."""
    prose = re.sub(r"(?ms)^```.*?^```$", "", text)
    links = [it for it in re.findall(r"\]\((?!\w+:)([^)#\s]+)", prose) if not (repository / page).parent.joinpath(it).exists()]
    taken = lambda named: (repository / "/".join(named.split("/")[:2])).exists()
    names = [it for it in re.findall(r"`(crates/[\w./-]*\w)`", prose) if taken(it) and not (repository / it).exists()]
    return [f"{page} leads to {it}, which is not there" for it in links] + [f"{page} names {it}, which is not there" for it in names]


def write_crates(repository, pieces):
    """Writes a crate for each program, which reads and prints what its source does, and for each line of crates.txt one with a file for each other piece.
    Answers the crates' names."""
    names = {}
    for number, piece in enumerate(pieces):
        is_program = bool(PROGRAM.search(piece.text))
        name = names.setdefault((piece.line, is_program and number), f"pasted_{len(names) + 1}")
        source = repository / "crates" / name / "src"
        source.mkdir(parents=True, exist_ok=True)
        (source / ("main.rt" if is_program else f"piece_{number:02}.rt")).write_text(piece.text)
        root = source / "lib.rt"
        if not is_program:
            root.write_text(f"{root.read_text() if root.exists() else FIRST_LINE}pub mod piece_{number:02};\n")
        for given in (top / piece.source).parent.parent.glob("std*") if is_program else ():
            shutil.copy(given, source.parent)
    with (repository / "crates.txt").open("a") as lines:
        lines.writelines(f"{name}: {line}\n" for (line, _), name in names.items())
    return list(names.values())


def keeps():
    """Whether the kit keeps what it proved."""
    return "--anew" in subprocess.run(["rt", "help"], stdout=subprocess.PIPE, stderr=subprocess.STDOUT, text=True).stdout


def trial(crate):
    """The command that compiles a crate and proves nothing, and where it runs: over a test that is added where the crate is no program."""
    root = crate / "src/lib.rt"
    if not root.exists():
        return ["rt", "try"], crate
    (crate / "src/compiled.rt").write_text(TEST)
    root.write_text(f"{root.read_text()}#[cfg(test)]\nmod compiled;\n")
    return ["rt", "try", "--test"], crate


def proved(repository, names):
    """Whether the crates are proved, and what was said."""
    if keeps():
        calls = [(["rt", "ci"], repository)]
    else:
        print("this kit keeps nothing, so the code is compiled by a trial, and nothing is proved", flush=True)
        calls = [trial(repository / "crates" / name) for name in names]
    said = []
    for words, at in calls:
        try:
            ran = subprocess.run(words, cwd=at, stdout=subprocess.PIPE, stderr=subprocess.STDOUT, text=True, timeout=MOST_SECONDS)
        except subprocess.TimeoutExpired as late:
            return False, [*said, f"{' '.join(words)} had not ended after {MOST_SECONDS} seconds", *str(late.stdout or "").splitlines()[-20:]]
        said += ran.stdout.splitlines()
        if ran.returncode:
            return False, said
    return True, said


def pieces_in(pages, taken):
    """The files of all pages, those of the same text once."""
    line = line_of(pages["crates/fc_base/docs/USING.md"], taken)
    pieces = [piece for page, text in pages.items() for piece in pieces_of(page, text, taken, line)]
    return list({piece._replace(page=""): piece for piece in reversed(pieces)}.values())[::-1]


def tried(taken):
    """Proves the code of all pages that come with one taking. Answers how many functions are proved, and how much is wrong."""
    with tempfile.TemporaryDirectory() as folder:
        repository = pathlib.Path(folder)
        took = subprocess.run([top / "tools/take.py", folder, taken], capture_output=True, text=True)
        if took.returncode:
            print(f"{taken}: {took.stderr}")
            return 0, 1
        pages = {str(it.relative_to(repository)): it.read_text() for it in sorted(repository.glob("crates/**/*.md"))}
        wrong = [it for page, text in pages.items() for it in astray(repository, page, text)]
        pieces = pieces_in(pages, taken)
        is_well, said = proved(repository, write_crates(repository, pieces)) if pieces else (False, ["no page has a piece"])
    for page in dict.fromkeys(it.page for it in pieces):
        files = [f"piece_{number:02}" for number, it in enumerate(pieces) if it.page == page]
        print(f"{taken}: {page}, as {', '.join(files)}: {'ok' if is_well else 'FAILED'}")
    print(*wrong, *(said[-1:] if is_well else said), sep="\n", flush=True)
    return sum(it.functions for it in pieces) * is_well, len(wrong) + (not is_well)


def main(names):
    if any(it not in TAKINGS for it in names):
        sys.exit(__doc__)
    results = [tried(taken) for taken in names or TAKINGS]
    failed = sum(failed for _, failed in results)
    print(f"{sum(passed for passed, _ in results)} passed, {failed} failed")
    return 1 if failed else 0


sys.exit(main(sys.argv[1:]))
