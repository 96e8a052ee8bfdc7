#!/usr/bin/env python3
"""Counts anew the numbers of docs/STATEMENTS.md, and looks that its rows are in order and that it names each file of definitions once. With --write it puts
them right: where each call on one key says what it may cost, which files the definitions of the rows stand on, and by crate what only proofs need. Needed
where a file of definitions is new, or has another length."""
import pathlib
import re
import sys

sys.dont_write_bytecode = True
from paging.sources import WRITES, between, ended, top, with_between, wrong

page = top / "docs/STATEMENTS.md"
text = page.read_text()


def lines(path):
    return len((top / path).read_text().splitlines())


def imported(path):
    """The files of definitions of this repository that a file of definitions imports."""
    for crate, rest in re.findall(r"(?m)^(?:pub )?use Rattle\.(\w+)\.specs\.([\w.]+)", (top / path).read_text()):
        names = [it for it in rest.split(".") if it]
        files = [f"crates/{crate}/specs/{'/'.join(names[:length])}.antt" for length in range(len(names), 0, -1)]
        yield from [it for it in files if it in there][:1]


def stood_on(path):
    """The files that no row names and that a file of definitions stands on, through others too."""
    found, left = [], [path]
    while left:
        new = [it for it in imported(left.pop()) if it not in found]
        found += new
        left += new
    return {it for it in found if it not in named}


def by_crate(files):
    crates = list(dict.fromkeys(it.split("/")[1] for it in files))
    return [f"| `{crate}` | " + ", ".join(f"`{pathlib.Path(it).stem}`" for it in files if it.split("/")[1] == crate) + " |" for crate in crates]


def bounded_calls():
    """The public calls with a clause `bounded`, file by file."""
    for path in sorted(it for crate in ("fc_map", "fc_set") for it in (top / "crates" / crate / "src").rglob("*.rt")):
        parts = re.split(r"(?m)^ *pub fn (\w+)", path.read_text())[1:]
        calls = [name for name, said in zip(parts[::2], parts[1::2]) if re.search(r"\bensures bounded \{", said.split("\n    {\n")[0].split("\n{\n")[0])]
        if calls and path.name != "for_sets.rt":
            yield f"| `{path.relative_to(top)}` | " + ", ".join(f"`{it}`" for it in calls) + " |"


def with_list(text, mark, lines):
    """The page with these lines between a mark and its end."""
    new = "\n".join(lines) + "\n"
    if between(text, mark) != new:
        wrong.append(f"the {mark} are others than those that the page lists")
    return with_between(text, mark, new)


def row(found):
    """A row with its place in the page and the lines of its file."""
    path, count = found[2], lines(found[2]) if (top / found[2]).is_file() else 0
    if (found[1], found[3]) != (str(len(named) + 1), str(count)):
        wrong.append(f"row {found[1]}, {path}, should be row {len(named) + 1} of {count} lines")
    named.append(path)
    return f"| {len(named)} | `{path}` | {count} |"


named = []
text = re.sub(r"(?m)^\| (\d+) \| `([^`]+)` \| (\d+) \|", row, text)
first_table = text[: text.index("With these an engineer")]
first = [path for path in named if f"`{path}`" in first_table]
there = [
    str(it.relative_to(top))
    for it in sorted(top.glob("crates/*/specs/*.antt"))
    if it.name not in ("Lib.antt", "formers.antt") and not re.search(r"/(test|callers|example)_|/fallible_collections/|/fc_laws/", str(it))
]
wrong += [f"{path} has two rows" for path in sorted({it for it in named if named.count(it) > 1})]
wrong += [f"{path} is not there" for path in named if path not in there]
only = [it for it in there if it not in named]
under = {it: [str(at + 1) for at, path in enumerate(named) if it in stood_on(path)] for it in only}
rows_on = [f"| `{it}` | {lines(it)} | {', '.join(under[it])} |" for it in only if under[it]]
text = with_list(text, "calls on one key", ["| File | Clause `bounded` of |", "|---|---|", *bounded_calls()])
text = with_list(text, "definitions below", ["| File | Lines | Rows that stand on it |", "|---|---|---|", *rows_on])
only = [it for it in only if not under[it]]
text = with_list(text, "definitions of proofs", ["| Crate | Files of its `specs/` |", "|---|---|", *by_crate(only)])
numbers = (
    f"The {len(first)} files that the headline rests on have {sum(map(lines, first))} lines, all {len(named)} have\n"
    f"{sum(map(lines, named))}, those below them {sum(lines(it) for it in under if under[it])}. The definitions that only proofs need have {sum(map(lines, only))} lines."
)
kept = re.sub(r"(?s)The \d+ files that the headline rests on .*? need\s+have \d+\s+lines\.", numbers, text)
if kept != text:
    wrong.append("the sums are wrong")
if WRITES:
    page.write_text(kept)
ended()
