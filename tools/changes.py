#!/usr/bin/env python3
"""Compares the public surface at two commits: calls, what traits state of types, types, and the definitions and laws that callers' clauses and proofs name.
Needed where something public is another: CHANGELOG.md has to name it.

  tools/changes.py [OLD [NEW]]   what was added, is gone, or has another signature or clause, with both texts, as CHANGELOG.md lists it; OLD: the commit of the
                              newest entry of CHANGELOG.md; NEW: the files that are here
  tools/changes.py --check       (the gate) looks that each entry of CHANGELOG.md has its version and its commit, newest first, that the newest one's commit is behind
                              this one, and that a section `## Unreleased` above it names all that is another since then, and the version that this raises.
                              Where that commit is not in the repository, or there is no repository, nothing is compared, which is told

Public is what `fallible_collections` hands on, and what the budgets and `fc_laws` do. A call is named by its type or trait, and what a trait's ghost members
state of a type by both names. A changed definition is listed where a public clause names it, or what a public clause names stands on it; whether a clause is
weaker or stronger, or the same in other words, a person says."""
import pathlib
import re
import subprocess
import sys
import tarfile
import tempfile
import textwrap
from typing import NamedTuple

sys.dont_write_bytecode = True
from surface import NOT_CALLED, Call, Surface, head_of, plain

TOP = pathlib.Path(__file__).resolve().parent.parent
BESIDE = ("fc_budget", "fc_laws")
TAKEN = re.compile(r"crates/(fc_\w+|fallible_collections)/(src/.*\.rt|specs/.*\.antt|proofs/[^/]*\.antt)")
VERSION = re.compile(r"(?m)^## (\d+)\.(\d+)\.(\d+)-(\d+)$")
NEXT = re.compile(r"(?m)^It will be (\d+\.\d+\.\d+-\d+)\.$")  # tools/release.py reads it too
COMMIT = re.compile(r"(?m)^The tag is this commit: `([0-9a-f]{40})`")
DEFINED = re.compile(r" *(?:abbrev )?pub (?:record |data )?([A-Za-z][\w']*)")


class Item(NamedTuple):
    """What is public: the block that it stands in, its own line and its clauses."""

    head: str
    line: str
    clauses: tuple


class State(NamedTuple):
    """What is public at a commit: items by their type and name, and texts of definitions and of laws by their names."""

    items: dict
    definitions: dict
    laws: dict


class Changes(NamedTuple):
    """What differs: names that are new or gone; items with another head, line or clauses, with both forms; and names of definitions and laws."""

    added: list
    gone: list
    others: list
    definitions: list
    laws: list


def git(*words):
    """What a call of git prints, or None where it fails."""
    try:
        ran = subprocess.run(["git", "-C", str(TOP), *words], capture_output=True, text=True)
    except OSError:
        return None
    return ran.stdout.strip() if ran.returncode == 0 else None


def write_out(commit, folder):
    """Writes the sources of the library at a commit into a folder."""
    paths = [it for it in (git("ls-tree", "-r", "--name-only", commit, "crates/") or "").splitlines() if TAKEN.fullmatch(it)]
    if not paths:
        sys.exit(f"tools/changes.py: {commit} is no commit that has the library")
    with tempfile.TemporaryFile() as archive:
        subprocess.run(["git", "-C", str(TOP), "archive", commit, *paths], stdout=archive, check=True)
        archive.seek(0)
        with tarfile.open(fileobj=archive) as files:
            for it in (it for it in files if it.isfile()):
                file = pathlib.Path(folder, it.name)
                file.parent.mkdir(parents=True, exist_ok=True)
                file.write_bytes(files.extractfile(it).read())


def of_type(owner):
    """The type and the trait that the head of a block names, or the trait alone."""
    trait, _, of = plain(owner).partition(" for ")
    bare = re.sub(r"^&('\w+ ?)?(mut )?", "", of or trait)
    return (bare, trait if of else "") if owner else ("", "")


def derived(lines, at):
    """What the attributes above a line derive."""
    above = at - 1
    while lines[above].startswith(("#[", "///")):
        above -= 1
    return [it for it in lines[above + 1 : at] if it.startswith("#[derive")]


def types_in(lines, names):
    """The public types and traits among the lines of a file: of a struct what is derived, its head and public fields, of an enum all variants, of a trait its head."""
    for at, line in enumerate(lines):
        found = re.match(r"pub (struct|enum|trait|type) (\w+)", line)
        if not found or found[2] not in names:
            continue
        whole, end = head_of(lines, at)
        if found[1] in ("struct", "enum") and lines[end].endswith("{"):
            body = lines[end + 1 : next(i for i in range(end, len(lines)) if lines[i].startswith("}"))]
            shown = [it.strip() for it in body if not re.match(r"\s*(//|ghost|#)", it) and (found[1] == "enum" or it.strip().startswith("pub "))]
            whole = " ".join([*derived(lines, at), whole, *shown])
        yield (found[2], ""), Item("", whole, ())


def items_of(surface):
    """The public items by their type and name, of which blocks for one type may have several."""
    crates, names = surface.handed_on
    found = {}
    for file in surface.files([*dict.fromkeys([*crates, *(it for it in BESIDE if (surface.top / "crates" / it).exists())])]):
        if str(file.relative_to(surface.top / "crates")) in NOT_CALLED:
            continue
        for key, item in types_in(file.read_text().splitlines(), names):
            found.setdefault(key, []).append(item)
        for it in surface.calls_in(str(file.relative_to(surface.top))):
            owner, (of, trait) = it[0], of_type(it[0])
            if not (trait in names or surface.is_public(file, of) or isinstance(it, Call) and it.name in names):
                continue
            if not isinstance(it, Call):
                members = found.setdefault((of, trait), [])
                same = [at for at, item in enumerate(members) if item.head == owner and not item.line]
                before = members.pop(same[0]).clauses if same else ()
                members.append(Item(owner, "", (*before, it[1])))
            elif not surface.is_inner(it):
                found.setdefault((of, it.name), []).append(Item(owner, it.line, tuple(it.clauses)))
    return found


def defined_in(file):
    """The names that a file of definitions defines, each with its text: that between blank lines, after the head of the module around it."""
    kept, around = [it for it in file.read_text().splitlines() if not re.match(r"\s*(--|(pub )?use )", it)], ""
    for part in re.split(r"\n\s*\n", "\n".join(kept)):
        lines = [it for it in part.splitlines() if it.strip()]
        around = next((it for it in reversed(lines) if it.startswith("module ")), around)
        lines = [it for it in lines if not it.startswith("module ")]
        indent = min((len(it) - len(it.lstrip()) for it in lines), default=0)
        text = " ".join(" ".join([around * (indent > 0), *lines]).split())
        yield from ((it[1], text) for line in lines if (it := DEFINED.match(line)) and not line.startswith(" " * (indent + 1)))


def definitions_of(surface, items):
    """The texts of the definitions that clauses name, and of those that these stand on, by their names."""
    texts, found = {}, {}
    for file in sorted(surface.top.glob("crates/fc_*/specs/**/*.antt")):
        for name, text in defined_in(file):
            texts.setdefault(name, set()).add(text)
    ahead = {it for each in items.values() for item in each for said in item.clauses for it in re.findall(r"[\w']+", said)}
    while ahead:
        name = ahead.pop()
        if name in texts and name not in found:
            found[name] = texts[name]
            ahead |= {it for text in texts[name] for it in re.findall(r"[\w']+", text)}
    return found


def laws_of(surface):
    """The statements of the laws for callers, by their names."""
    file, found = surface.top / "crates/fallible_collections/proofs/Laws.antt", {}
    for crate, stem, names in re.findall(r"(?m)^pub use Rattle\.(\w+)\.proofs\.(\w+)\.\{([^}]*)\}", file.read_text() if file.is_file() else ""):
        text = (surface.top / f"crates/{crate}/proofs/{stem}.antt").read_text()
        for name in (it.strip() for it in names.split(",")):
            said = re.search(rf"(?ms)^ *pub (?:abbrev )?{re.escape(name)} :(.*?)\n *{re.escape(name)}\b", text)
            found[name] = " ".join(said[1].split()) if said else ""
    return found


def state(root):
    """What is public in the sources in a folder."""
    surface = Surface(root, ("fallible_collections", *BESIDE))
    if not (surface.top / "crates/fallible_collections/src").is_dir():
        sys.exit("tools/changes.py: one of the commits has no crate fallible_collections")
    items = items_of(surface)
    return State(items, definitions_of(surface, items), laws_of(surface))


def state_at(commit):
    """What is public at a commit, or, without one, in the files that are here."""
    if not commit:
        return state(TOP)
    with tempfile.TemporaryDirectory() as folder:
        write_out(commit, folder)
        return state(folder)


def paired(old, new):
    """Of the items of one name at both commits those that differ, as pairs: of one head where there is one, and else in order; None stands for one that is not there."""
    left = [it for it in old if it not in new]
    right = [it for it in new if it not in old]
    for it in [*left]:
        same = next((other for other in right if other.head == it.head), None) or (right[0] if right else None)
        left.remove(it)
        right = [other for other in right if other is not same]
        yield it, same
    yield from ((None, it) for it in right)


def alone(names, items):
    """Names without those of functions of whole blocks for traits, which the trait's name stands for."""
    blocks = {it.head for name in names for it in items[name] if not it.line}
    return [name for name in names if not all(it.line and it.head in blocks for it in items[name])]


def compared(old, new):
    """What differs between two states."""
    pairs = [(name, *pair) for name in new.items if name in old.items for pair in paired(old.items[name], new.items[name])]
    more = [name for name, before, _ in pairs if not before]
    less = [name for name, _, now in pairs if not now]
    differ = lambda a, b: sorted(it for it in a if it in b and a[it] != b[it])
    laws = [("added", sorted({*new.laws} - {*old.laws})), ("gone", sorted({*old.laws} - {*new.laws})), ("stated otherwise", differ(old.laws, new.laws))]
    added = alone([*(it for it in new.items if it not in old.items), *more], new.items)
    gone = alone([*(it for it in old.items if it not in new.items), *less], old.items)
    return Changes(added, gone, [it for it in pairs if it[1] and it[2]], differ(old.definitions, new.definitions), laws)


def wrapped(text):
    """An item of a list in lines of at most 100 characters."""
    return textwrap.fill(text, 100, initial_indent="- ", subsequent_indent="  ", break_long_words=False, break_on_hyphens=False)


def by_type(names, sign):
    """A list of names by the type that they are of; a type or trait that is listed itself has the sign after it."""
    types = {}
    for of, name in names:
        types.setdefault(of, []).append(name)
    lines = []
    for of, called in types.items():
        whole = sign * ("" in called and of != "")
        said = ", ".join(f"`{it}`" for it in dict.fromkeys(called) if it)
        lines.append(wrapped(f"`{of}`{whole}{': ' * bool(said)}{said}" if of else said))
    return lines


def clause_pairs(old, new):
    """The clauses that differ, those of one kind and name one after another, each after a word that tells which commit has it."""
    named = lambda it: " ".join(re.match(r"(\w+\*?) ?(\w*)", it).groups())
    left, right = [it for it in old if it not in new], [it for it in new if it not in old]
    for it in left:
        same = next((other for other in right if named(other) == named(it)), None)
        right = [other for other in right if other is not same]
        yield from [("was ", it), ("is  ", same)] if same else [("gone", it)]
    yield from (("new ", it) for it in right)


def name_of(name):
    return f"`{'::'.join(it for it in name if it)}`"


def told(name, lines):
    """An item of a list with lines of code below it."""
    return [f"- {name}", "", *("      " + it for it in lines), ""]


def signatures_told(others):
    """The lists of blocks and of calls with another signature."""
    heads, lines = {}, []
    for name, old, new in others:
        if old.head != new.head:
            heads.setdefault((old.head, new.head), []).append(name_of(name))
        if old.line != new.line:
            lines += told(name_of(name), [f"was  {old.line}", f"is   {new.line}"])
    for (old, new), names in heads.items():
        lines += told(wrapped(", ".join(dict.fromkeys(names))).removeprefix("- "), [f"was  {old}", f"is   {new}"])
    return lines


def clauses_told(others):
    """The list of calls with other clauses."""
    lines = []
    for name, old, new in others:
        texts = [" ".join(it) for it in clause_pairs(old.clauses, new.clauses)]
        lines += told(name_of(name), texts) if texts else []
    return lines


def breaks(changes):
    """Whether a caller may have to change something: a call is gone or has another signature, another clause or one more condition, or a definition or a law is another."""
    pairs = [it for _, old, new in changes.others for it in clause_pairs(old.clauses, new.clauses)]
    signed = any(old[:2] != new[:2] for _, old, new in changes.others)
    weaker = any(word != "new " or it.startswith("requires") for word, it in pairs)
    return bool(changes.gone or signed or weaker or changes.definitions or any(names for what, names in changes.laws if what != "added"))


def raised(text, changes):
    """The version that comes after that of CHANGELOG.md's newest entry."""
    first, middle, last, behind = (int(it) for it in VERSION.search(text).groups())
    return f"{first}.{middle + 1}.0-1" if breaks(changes) else f"{first}.{middle}.{last}-{behind + 1}"


def report(changes):
    """The lists of what differs, as CHANGELOG.md has them."""
    sections = [
        ("Added", by_type(changes.added, ", which is new")),
        ("Gone", by_type(changes.gone, ", all of it")),
        ("Another signature", signatures_told(changes.others)),
        ("Another clause", clauses_told(changes.others)),
        ("Definitions with another text", [wrapped(", ".join(f"`{it}`" for it in changes.definitions))] if changes.definitions else []),
        ("Laws for callers", [wrapped(f"{what}: " + ", ".join(f"`{it}`" for it in names)) for what, names in changes.laws if names]),
    ]
    kept = [f"### {title}\n\n" + "\n".join(lines).rstrip() + "\n" for title, lines in sections if lines]
    raises = "raises the middle part" if breaks(changes) else "raises the last number alone"
    return "\n".join(["## Unreleased\n", f"This {raises}.\n" if kept else "Nothing of the public surface changed.\n", *kept])


def names_changed(changes):
    """What an entry has to name: pairs of a type and a name, or of nothing and a name."""
    single = [*changes.definitions, *(it for _, names in changes.laws for it in names)]
    return dict.fromkeys([*changes.added, *changes.gone, *(name for name, _, _ in changes.others), *(("", it) for it in single)])


def is_named(name, pieces):
    """Whether a piece of text names a call with its type."""
    wanted = [it for it in name if it]
    return any("`" + "::".join(wanted) + "`" in piece or all(f"`{it}`" in piece for it in wanted) for piece in pieces)


def versions(text):
    """The versions of the entries, from the top on, each as a list of numbers, and what is wrong with their heads."""
    wrong, found = [], []
    for title, entry in re.findall(r"(?ms)^## ([^\n]+)\n(.*?)(?=^## |\Z)", text):
        number = re.fullmatch(r"(\d+)\.(\d+)\.(\d+)-(\d+)", title)
        if title == "Unreleased" and not found:
            continue
        if not number or not COMMIT.search(entry):
            wrong.append(f"CHANGELOG.md: the entry {title} has no version as 0.4.9-1, or no line 'The tag is this commit: `..`.'")
        found.append([int(it) for it in number.groups()] if number else [])
    wrong += ["CHANGELOG.md: its entries are not newest first"] * any(found[at] <= below for at, below in enumerate(found[1:]))
    return wrong + ["CHANGELOG.md has no entry"] * (not found)


def changelog():
    """The text of CHANGELOG.md."""
    file = TOP / "CHANGELOG.md"
    if not file.is_file():
        sys.exit("tools/changes.py: CHANGELOG.md is not there")
    return file.read_text()


def check():
    """What is wrong with CHANGELOG.md, and what could not be compared."""
    text = changelog()
    if wrong := versions(text):
        return wrong, ""
    commit = COMMIT.search(text)[1]
    if pathlib.Path(git("rev-parse", "--show-toplevel") or "/nowhere").resolve() != TOP:
        return [], "not compared: this is no clone of the repository"
    if git("cat-file", "-e", f"{commit}^{{commit}}") is None:
        return [], f"not compared: commit {commit[:8]} is not in this clone"
    if git("merge-base", "--is-ancestor", commit, "HEAD") is None:
        shallow = git("rev-parse", "--is-shallow-repository") == "true"
        return ([], "not compared: this clone is shallow") if shallow else ([f"CHANGELOG.md: commit {commit[:8]} of its newest entry is not behind this one"], "")
    if git("diff", "--quiet", commit, "--", "crates") is not None:
        return [], ""
    section, changes = text.partition("\n## Unreleased\n")[2].partition("\n## ")[0], compared(state_at(commit), state_at(""))
    pieces = re.split(r"\n(?=- )|\n\n", section)
    missing = [it for it in names_changed(changes) if not is_named(it, pieces)]
    wrong = [f"CHANGELOG.md: `## Unreleased` does not name {name_of(it)}, which is another since {commit[:8]}: see tools/changes.py {commit[:8]}" for it in missing]
    version = raised(text, changes)
    return wrong + [f"CHANGELOG.md: `## Unreleased` has no line 'It will be {version}.', which the changes since {commit[:8]} make it"] * (NEXT.findall(section) != [version]), ""


def main(words):
    if words == ["--check"]:
        wrong, note = check()
        print(note, end="\n" * bool(note))
        return "\n".join(wrong) or None
    if len(words) > 2 or words and words[0].startswith("-"):
        return __doc__
    newest = COMMIT.search("" if words else changelog())
    if not words and not newest:
        return "tools/changes.py: CHANGELOG.md has no entry"
    print(report(compared(state_at(words[0] if words else newest[1]), state_at(words[1] if words[1:] else ""))))
    return None


sys.exit(main(sys.argv[1:]))
