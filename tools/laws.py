#!/usr/bin/env python3
"""Looks that docs/LAWS.md lists the laws for callers, each by its statement, as `fallible_collections.proofs.Laws` hands them on. With --write it puts the
lists right. And it looks that `fallible_collections` and `fc_laws` hand on the same words and laws of the crates that `fc_laws` stands on. Needed where a law
for callers is new or another.

Between '<!-- laws -->' and '<!-- end of laws -->' stand, for each file that has some of them, what it says of itself, and its laws with the comments above
them, under the parameters of their module."""
import re
import sys

sys.dont_write_bytecode = True
from paging.sources import WRITES, ended, handed_on, top, with_between, wrong

PAGE = top / "docs/LAWS.md"
WHOLE, PART = "crates/fallible_collections", "crates/fc_laws"


def lines_of(path):
    """The lines of a file, the head of a module being one."""
    lines = []
    for line in (top / path).read_text().splitlines():
        head = lines and re.match(r" *(?:private )?module _ ", lines[-1]) and not lines[-1].endswith(" where")
        if head:
            lines[-1] += " " + line.strip()
        else:
            lines.append(line)
    return lines


def said_first(path):
    """The first sentence of what a file says of itself."""
    lines = (top / path).read_text().splitlines()
    end = next((at for at, line in enumerate(lines) if not line.startswith("-- ")), 0)
    return " ".join(line.removeprefix("-- ") for line in lines[:end]).split(". ")[0].removesuffix(".") + "."


def statements(path, names):
    """The laws of these names, each after its comment, under the heads of the modules that they stand in."""
    lines = lines_of(path)
    shown, modules, told, found = [], [], [], set()
    for at, line in enumerate(lines):
        indent = len(line) - len(line.lstrip())
        if line.strip():
            modules = [it for it in modules if it[0] < indent]
        if head := re.match(r" *(?:private )?module _ (.*) where$", line):
            modules = [*modules, (indent, head[1])]
        law = re.match(r" *pub (?:abbrev )?([\w'-]+) :", line)
        if not law or law[1] not in names:
            continue
        found.add(law[1])
        if [it[1] for it in modules] != told:
            told = [it[1] for it in modules]
            shown += [""] * bool(shown) + [f"over {' '.join(told)}"] * bool(told)
        said = at
        while lines[said - 1].strip().startswith("-- "):
            said -= 1
        shown += ["  " + it.strip() for it in lines[said:at]]
        end = at
        while not re.match(rf" *{re.escape(law[1])}\b.* =|.* =$", lines[end + 1]) and lines[end + 1].strip():
            end += 1
        shown.append("  " + " ".join(it.strip() for it in lines[at : end + 1]).removeprefix("pub "))
    for name in names:
        if name not in found:
            sys.exit(f"tools/laws.py: {path} has no law {name}")
    return shown


def lists():
    parts = []
    for module, names in handed_on(f"{WHOLE}/proofs/Laws.antt").items():
        _, crate, _, file = module.split(".")
        path = f"crates/{crate}/proofs/{file}.antt"
        parts.append(f"## `{crate}.proofs.{file}`\n\n{said_first(path)}\n\n```text\n" + "\n".join(statements(path, names)) + "\n```\n")
    return "\n".join(parts)


for file in ("proofs/Laws.antt", "specs/Words.antt"):
    whole, part = handed_on(f"{WHOLE}/{file}"), handed_on(f"{PART}/{file}")
    shared = {it.split(".")[1] for it in part}
    for module in {it for it in whole if it.split(".")[1] in shared} | {*part}:
        if differing := {*whole.get(module, ())} ^ {*part.get(module, ())}:
            sys.exit(f"tools/laws.py: one of fallible_collections and fc_laws hands on {', '.join(sorted(differing))} of {module}, and the other does not")

text = PAGE.read_text()
new = with_between(text, "laws", f"\n{lists()}\n")
if new != text:
    wrong.append("docs/LAWS.md does not list the laws as the sources have them: tools/laws.py --write")
    if WRITES:
        PAGE.write_text(new)
ended()
