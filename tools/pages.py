#!/usr/bin/env python3
"""Looks that each page quotes the sources as they are. With --write it puts the quotations right. Needed after each change of a source that pages quote,
count or list.

A quotation is a block of code after one of these lines in a Markdown file:
  <!-- code: FILE NAME.. -->       an excerpt: functions without their clauses and comments above them, as Rust would have them
  <!-- body: FILE NAME -->         an excerpt: what stands between the braces of a function
  <!-- proved: FILE NAME.. -->     functions with their clauses, which are whole behind the imports above them on the page
  <!-- caller: FILE NAME.. -->     functions with their clauses, behind the imports that they take, as a crate writes them that names fallible_collections
  <!-- imports: CRATE -->          what the 'proved' below it take, up to the next such line, as a crate writes it that names fallible_collections, or fc_map
  <!-- contracts: FILE.. -->       each public function of the files with its clauses, and what the walks' traits say, without the counted forms
  <!-- counted: PAGE -->           the counted forms of the files whose contracts that page quotes, each with what it promises beside the call of the plain name
  <!-- clauses: FILE NAME CLAUSE.. --> the first line of a function, and those of its clauses
  <!-- literal: FILE NAME.. -->    the texts of constants
  <!-- lines: FILE FIRST LAST -->  lines of a file, as of a program's stdin, or of the stdout that `rt ci` compares with what it prints
  <!-- file: FILE -->              a whole file
  <!-- example: FILE CALL -->      the lines of a test that show this call, between '// example: CALL, CALL..' and '// end'
A number, or a commit, before '<!-- NAME -->' is one that paging/numbers.py tells. Between '<!-- calls -->' and '<!-- end of calls -->' stands a table of the
page's calls by the comments at them, between the same of 'examples' an example of each, between the same of 'words' each word of its contracts that fallible_collections.specs.Words does not hand on, of
'stands' the crates below and above, of 'costs' what the proofs of the examples are, of 'bytes' the bytes of each type by the tests that ask them, of 'crates' what the README of each crate of the library says first, of
'promises' what it says is proved, only tested or neither, of 'by hand' which functions have a proof written by hand, of 'std' what stands for calls of std's
collections, by tools/std.txt. docs/GALLERY.md leads to each example, whose READMEs have the same headings. A file's path starts at the top of the repository.
An indented line of crates.txt is as it stands there. Paths that pages name or lead to are there, those in plain blocks of code too. The entries of
docs/DECISIONS.md and docs/DIFFERENCES.md are those that tools/told.txt lists, which no option writes: so none goes unnoticed. Rust stands on a page as a
quotation, and the paragraph above an excerpt leads to the page, or the source, that has the whole; tools/pasted.py proves what is whole as it stands. And it
looks that what docs/PROMISES.md names after each wrong body, and after each call that takes memory, is there: an edit CRATE/edits/NAME or
CRATE/must-fail/NAME, a test CRATE::NAME, a file lines/NAME or tools/NAME, or a text 'CRATE/FILE: TEXT'; and that it lists just those calls that take memory
which are public: functions of the crates that `fallible_collections` hands on, and of those beside it, whose answer has an error of a refused request, under
the name of their type or trait. At last it looks by tools/tested.py that each public call has a test, and that no merge left its marks."""
import re
import sys

sys.dont_write_bytecode = True
import tested
from paging import tables
from paging.examples import examples_of
from paging.looks import excerpts, gallery, memory, paths_in_blocks, quoted_files, told, wrong_bodies
from paging.numbers import numbers
from paging.quoted import QUOTATION, quoted
from paging.sources import WRITES, ended, top, uses, wrong

TABLES = {
    "calls": lambda file, text: tables.calls_of_page(text),
    "words": lambda file, text: tables.words_of_page(text),
    "costs": lambda file, text: tables.costs(),
    "crates": lambda file, text: tables.crates(),
    "std": lambda file, text: tables.from_std(),
    "promises": lambda file, text: tables.promises(),
    "by hand": lambda file, text: tables.by_hand(),
    "stands": lambda file, text: tables.stands(file.parent.name),
    "bytes": lambda file, text: tables.bytes_of_types(),
    "examples": lambda file, text: examples_of(text),
}


def names_what_is_there(file, text):
    """Looks that a page has no marks of a merge, and that all that it leads to or names is there."""
    page = file.relative_to(top)
    wrong.extend(f"{page}: a merge left the line '{line}'" for line in re.findall(r"(?m)^(?:<{7}|={7}|>{7})(?: .*)?$", text))
    for named in re.findall(r"\]\(([^)#:]+)[^):]*\)", text):
        if not (file.parent / named).exists():
            wrong.append(f"{page} leads to {named}, which is not there")
    for named in re.findall(r"`((?:docs|tools|bench|crates|lines|examples)/\w[\w./-]*)", text):
        if "NAME" not in named and ".." not in named and not (top / named).exists() and not [*top.glob(named + "*")]:
            wrong.append(f"{page} names {named}, which is not there")
    wrong.extend(f"{page} has {named} in a block of code, which is not there" for named in paths_in_blocks(text) if not (top / named).exists())
    for crate, line in re.findall(r"(?m)^    (?:echo ')?(\w+): ([\w ]+)(?:$|' >>)", text):
        if crate in uses() and line.split() != uses()[crate]:
            wrong.append(f"{page}: the line of {crate} is not that of crates.txt")


def put_right(file, pattern, kept, made):
    """The page with what `made` gives in the place of each find; what it was otherwise is wrong, as `made` says."""

    def replaced(found):
        new, why = made(found)
        if new != found[0]:
            wrong.append(f"{file.relative_to(top)}: {why}")
        return new

    return re.sub(pattern, replaced, kept)


def block(found):
    return f"{found[1]}{quoted(found[2], found[3].split(), found.string[found.end():])}\n```", f"{found[2]} {found[3]} is not as the source has it"


def number(found):
    known = numbers().get(found[2], found[1])
    return f"{known}<!-- {found[2]} -->", f"it has {found[1]} for the number '{found[2]}', which is {known}"


def taken(found):
    count = len(tables.taken_with(found[1]))
    return f"| `{found[1]}` | {count} |{found[3]}", f"with {found[1]} come {count} crates, and not {found[2]}"


def page(file):
    text = file.read_text()
    names_what_is_there(file, text)
    excerpts(file, text)
    kept = put_right(file, QUOTATION, text, block)
    kept = put_right(file, r"([\w.,]*\w)<!-- ([a-z][a-z ]*) -->", kept, number)
    if file.name == "USING.md":
        kept = put_right(file, r"(?m)^\| `(fc_\w+|fallible_collections)` \| (\d+) \|(.* \| [\d.]+ \|)$", kept, taken)
    table = lambda found: (f"{found[1]}{TABLES[found[2]](file, kept)}\n{found[3]}", f"its table of {found[2]} is not that of the sources")
    new = put_right(file, rf"(?sm)(<!-- ({'|'.join(TABLES)}) -->\n).*?(<!-- end of \2 -->)$", kept, table)
    if WRITES and new != text:
        file.write_text(new)


told()
wrong_bodies(top / "docs/PROMISES.md")
gallery(top / "docs/GALLERY.md")
quoted_files()
memory(top / "docs/PROMISES.md")
wrong += tested.missing(top)
for file in sorted([*top.glob("*.md"), *top.glob("docs/*.md"), *top.glob("crates/*/*.md"), *top.glob("examples/*/*.md")]):
    page(file)
ended()
