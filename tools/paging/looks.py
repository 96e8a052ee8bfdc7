"""What tools/pages.py looks at beside quotations, numbers and tables: that what pages name is there, that each call that takes memory, each example, each
choice and each difference has its place. Needed where a page is held to something new."""
import functools
import re

import tested
from paging.quoted import contracts_of, signatures
from paging.sources import between, calls_in, here, is_inner, is_public, top, wrong
from paging.tables import may_be_refused
from surface import NOT_CALLED, NUMBERS, Call, plain


def excerpts(file, text):
    """Looks that all Rust on a page is quoted, and that the paragraph above an excerpt leads to where the whole is."""
    for at in re.finditer(r"(?m)^```rust$", text):
        if not re.search(r"(?m)^<!-- (code|body|proved|caller|imports|file|example): [^\n]+ -->\n\Z", text[: at.start()]):
            wrong.append(f"{file.relative_to(top)}: line {text[: at.start()].count(chr(10)) + 1} begins Rust that is no quotation")
    for found in re.finditer(r"(?m)^<!-- (?:code|body): (\S+) (.+?) -->$", text):
        above = text[: found.start()].rstrip().rpartition("\n\n")[2]
        led = [(file.parent / it).resolve() for it in re.findall(r"\]\(([^)#:]+)[^):]*\)", above)]
        whole = rf"(?m)^<!-- (?:proved|caller): {re.escape(found[1])} {found[2]} -->$"
        if not any(it == top / found[1] or it.suffix == ".md" and re.search(whole, it.read_text()) for it in led if it.is_file()):
            wrong.append(f"{file.relative_to(top)}: the paragraph above the excerpt {found[2]} leads to no page that has it whole, and not to {found[1]}")


def paths_in_blocks(text):
    """The paths in a page's plain blocks of code, but for those of a user's own crate."""
    plain_blocks = "\n".join(re.findall(r"(?ms)^```(?:text|sh)?\n.*?^```$", text) + re.findall(r"(?m)^    .*$", text))
    found = re.findall(r"(?<![\w./-])(?:docs|tools|bench|crates|lines|examples)/\w[\w./-]*", plain_blocks)
    return [it for it in found if not it.startswith("crates/my_")]


@functools.cache
def waiting_edits():
    """The wrong bodies that nobody has tried over the clauses as they are, as pages name them."""
    return {f"{it.parent.parent.name}/edits/{name}" for it in top.glob("crates/*/edits/WAITING") for name in it.read_text().split()}


def is_there(named):
    """Whether an edit, a test or a row of a program is in the repository."""
    path, _, text = named.partition(": ")
    if text:
        return (top / "crates" / path).is_file() and text in (top / "crates" / path).read_text()
    crate, _, test = named.partition("::")
    if test:
        return any(re.search(rf"#\[test\]\s+(?:#.*\s+)*fn {test}\(", it.read_text()) for it in (top / "crates" / crate).glob("src/**/*.rt"))
    paths = [f"crates/{named}.edit", f"{named}.in", *[named] * named.startswith("tools/")] if "/" in named else []
    return any((top / it).is_file() for it in paths)


def wrong_bodies(file):
    rows = between(file.read_text(), "wrong bodies").splitlines()[2:]
    named = [(row, re.findall("`([^`]+)`", row.rpartition(" | ")[2])) for row in rows]
    wrong.extend(f"docs/PROMISES.md names nothing that refuses {row}" for row, names in named if not names)
    wrong.extend(f"docs/PROMISES.md names {it}, which is not there" for _, names in named for it in names if not is_there(it))
    wrong.extend(f"docs/PROMISES.md names {it}, which waits for its trial" for it in sorted({it for _, names in named for it in names} & waiting_edits()))
    wrong.extend(["docs/PROMISES.md has no table of wrong bodies"] * (not rows))


def calls_of(file, names):
    """The public calls of a file whose answer may be a refusal."""
    owner = ""
    for line in signatures(str(file.relative_to(top))):
        call = re.match(r"( *)fn (\w+)(.*)", line)
        owner = plain(line) if re.match(r"(pub )?(impl|trait)\b", line) else "" if call and not call[1] else owner
        if not call or not may_be_refused(call[3]):
            continue
        of, _, at = owner.partition(" for ")
        if at and of in names - EACH or of == "From" or not (is_public(file, owner) or call[2] in names and not here.is_kept(file, owner)):
            continue  # a trait's calls are named once, at the trait
        yield f"{at or of}::{call[2]}" if owner else call[2]


EACH = {"TryClone", "TryFromIterator"}  # traits whose calls are named at each type


def memory(page):
    """Compares the calls that take memory with those that the page lists."""
    crates, names = here.handed_on
    there = {call for file in here.files([*crates, *tested.ROOTS[1:]]) for call in calls_of(file, names)}
    rows = between(page.read_text(), "calls that take memory").splitlines()[2:]
    listed = []
    for row in rows:
        calls, ample, refused, requests, _left = [cell.strip() for cell in row.strip("|").split("|")]
        listed += [it.replace("NUMBER", number) for it in re.findall("`([^`]+)`", calls) for number in (NUMBERS if it.startswith("NUMBER") else [""])]
        tests = re.findall("`([^`]+)`", ample), re.findall("`([^`]+)`", refused)
        wrong.extend(f"docs/PROMISES.md names {it}, which is not there" for it in [*tests[0], *tests[1]] if not is_there(it))
        wrong.extend([f"docs/PROMISES.md names no test of {calls}"] * (not tests[0] or not tests[1] and requests != "none"))
    wrong.extend(f"docs/PROMISES.md does not list {it}, which may be refused" for it in sorted(there - {*listed}))
    wrong.extend(f"docs/PROMISES.md lists {it}, which is no public call that may be refused" for it in sorted({*listed} - there))
    wrong.extend(f"docs/PROMISES.md lists {it} twice" for it in sorted({it for it in listed if listed.count(it) > 1}))


def quoted_files():
    """Looks that the CALLING.md of each crate quotes each of its files that has a public call with a contract."""
    _, names = here.handed_on
    for page in top.glob("crates/fc_*/CALLING.md"):
        listed = contracts_of(page.read_text())
        for file in sorted(page.parent.glob("src/**/*.rt")):
            path = str(file.relative_to(top))
            calls = [it for it in calls_in(path) if isinstance(it, Call) and it.clauses and not is_inner(it) and is_public(file, plain(it.owner))]
            if calls and path not in listed and path.removeprefix("crates/") not in NOT_CALLED:
                wrong.append(f"{page.relative_to(top)} does not quote {path}, which has {calls[0].name}")


EXAMPLE = ["## What is proved", "## Run it", "## What a refusal does"]


def gallery(page):
    """Looks that the page of examples leads to the README of each, and that these have the same headings."""
    text = page.read_text()
    for file in sorted([*top.glob("crates/example_*/README.md"), *top.glob("examples/*/README.md")]):
        if f"(../{file.relative_to(top)})" not in text:
            wrong.append(f"{page.relative_to(top)} does not lead to {file.relative_to(top)}")
        if (headings := re.findall(r"(?m)^## .*$", file.read_text())) != EXAMPLE:
            wrong.append(f"{file.relative_to(top)} has the headings {', '.join(headings)}, and not {', '.join(EXAMPLE)}")


def heads(page):
    """The heads of a page's entries, their numbers left out: what an item says in bold, the first cell of a row, or the second where the first names
    nothing."""
    text = re.sub(r"[\w.,]*\w<!-- [a-z ]* -->", "N", page.read_text())
    items = re.findall(r"(?ms)^- \*\*(.+?)\*\*", text)
    rows = re.findall(r"(?m)^\| (?!-)(?:\(not there\) \| )?(.+?) \|.*\n(?!\|-)", text)
    return [" ".join(it.split())[:120] for it in items + rows]


def told():
    """Looks that the pages of choices and differences have the entries that tools/told.txt lists, and no others."""
    for section in (top / "tools/told.txt").read_text().strip().split("\n\n")[1:]:
        named, *listed = section.split("\n")
        there = heads(top / named.removeprefix("== "))
        wrong.extend(f"{named.removeprefix('== ')} has no entry '{it}', which tools/told.txt lists" for it in listed if it not in there)
        wrong.extend(f"tools/told.txt does not list the entry '{it}' of {named.removeprefix('== ')}" for it in there if it not in listed)
