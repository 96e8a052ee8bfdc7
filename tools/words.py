#!/usr/bin/env python3
"""Counts the words of README.md, CHANGELOG.md and docs/*.md that people write, and looks that they stay readable. Needed where a page grows.

It fails where all pages have more than 15,400 words together, where a line of prose has more than 100 characters, and where a cell of a table has more than
25 words. What scripts write counts nowhere: code that tools/pages.py quotes, and the tables between marks that another script fills. Blocks of code and
addresses may be wide. With --each it prints how many words each page has."""
import re
import sys

sys.dont_write_bytecode = True
from paging.quoted import QUOTATION
from paging.sources import ended, top, wrong

MOST_WORDS, MOST_CHARACTERS, MOST_IN_CELL = 15_400, 100, 25
WRITTEN = re.compile(r"(?ms)^<!-- (figures|bytes|by crate|dearest|table: [^\n]+|stack|laws|costs|crates|promises|by hand|std|calls on one key|definitions below|definitions of proofs) -->\n.*?^<!-- end(?: of \1)? -->$")
NUMBERED = re.compile(r"(?m)^\| \d+ \| (?=`crates/.* \| \d+ \|)")  # rows that tools/statements.py numbers
COMPARED = re.compile(r"(?m)^ {6}(?:was |is  |new |gone) .*$")  # clauses that tools/changes.py lists
FENCED = re.compile(r"(?ms)^```.*?^```$")
total = 0


def words(text):
    return len(re.sub(r"(?m)^\|[-| ]+\|$|<!--.*?-->|[|#]|\[([^\]]*)\]\([^)]*\)", r" \1 ", text).split())


for page in [*sorted(top.glob("*.md"), reverse=True), *sorted(top.glob("docs/*.md"))]:
    text = COMPARED.sub("", NUMBERED.sub("| ", WRITTEN.sub("", QUOTATION.sub("", page.read_text()))))
    count = words(text)
    total += count
    if "--each" in sys.argv:
        print(f"{count:6} {page.relative_to(top)}")
    for line in FENCED.sub("", text).splitlines():
        if line.startswith("|"):
            wrong += [f"{page.relative_to(top)}: a cell of {words(cell)} words: {cell.strip()[:60]} .." for cell in re.split(r"(?<!\\)\|", line) if words(cell) > MOST_IN_CELL]
        elif len(line) > MOST_CHARACTERS and not line.startswith(("    ", "<!--", "[", "![")):
            wrong.append(f"{page.relative_to(top)}: a line of {len(line)} characters: {line[:60]} ..")
    lines = text.splitlines()
    heads = [at for at, line in enumerate(lines) if line.startswith("|") and not lines[at - 1].startswith("|")]
    wrong += [f"{page.relative_to(top)}: a row of no table: {lines[at][:60]} .." for at in heads if not lines[at + 1].startswith("|--")]
if total > MOST_WORDS:
    wrong.append(f"the pages have {total} words, which is more than {MOST_WORDS}")
if "--each" in sys.argv:
    print(f"{total:6} in all")
ended()
