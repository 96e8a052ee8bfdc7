"""Crates, their wrong bodies, and the records tools/tried/NAME of what each was tried over.

Needed where tools/edits.py tells that an edit was not tried over what is there, or lets one through that was not: here stands what may matter to a body.
It has no command of its own.

A record holds checksums of what the crate and each crate of the repository below it state, item by item: the definitions of specs/, and the sources without
comments, #[cfg(test)] items, tactics, what is said of inlining, imports that the item does not name, and bodies, of which only the clauses of closures count.
What a trait or an impl block states beside its functions with a body is one item. A function is one item with all that it requires, and one for each clause
that it ensures. A size that specs/Sizes.antt names counts as its number. An edit was tried over what is there as long as each item that may matter to it is
there still; one that was added beside it makes no refused goal true. A body is proved by what it calls, and by what its clauses and theirs mean. So to an
edit matter the functions whose names are words of its text or of the functions that it changes, and of all else what these, and what matters, name: types,
with what impls of std's traits state for them, traits, constants and definitions. A definition of another file is named by an import of it, one of the same
file by a word; a type by a word where its crate is named too, or in that crate. What has no such name, as an operator, matters to each.
Of each edit it holds a checksum of its text, one of the functions that it changes, without comments, gaps and what they ensure, and the function and the
goal at which it was refused. A line is 'refused EDIT TEXT FUNCTIONS FUNCTION GOAL' or 'stated CRATE ITEM', sorted.
No line says over which of the items its edit was tried: where two branches tried edits of a crate, each over clauses of its own, a merge of both records would
say more than was tried. One branch's record is taken then, and tools/edits.py NAME tries what the other changed."""
import hashlib
import os
import pathlib
import re

from wrong_bodies.stated import TOP, Statements, definitions, implemented, implementer, imports, words_of

RECORDS = TOP / "tools/tried"


def sum_of(text):
    return hashlib.sha256(text.encode()).hexdigest()[:16]


def short_sum(text):
    return sum_of(text)[:8]


def brought(text):
    """The definitions that use lines bring, each as its crate, its file and its name, with * for all of a file; and the text without these lines. Those on
    modules that the toolchain makes of types and functions stay in it, as words."""
    found, left = set(), []
    for line in text.split("\n"):
        said = line[line.find("use pub use ") + 4 :].removesuffix(" as *") if line.startswith("use pub use ") else line
        tree = re.match(r"(?:pub )?use (Rattle\..*)", said)
        if not tree or re.search(r"\.specs(\.|::)(declared|contracts|formers)\b", said):
            left.append(line)
            continue
        for _, path in imports(tree[1].replace(".{", "::{")):
            parts = re.split(r"::|\.", path.partition(" as ")[0])
            found |= {(parts[1], parts[-2], parts[-1]), (parts[1], parts[-1], "*")}
    return found, "\n".join(left)


class Reach:
    """What a body rests on, as far as names tell: the words that call functions, all words, those that may name what is of a crate, the definitions that
    were brought by name, the words of each file of definitions that matters, and the crates that are named."""

    def __init__(self, crate, code, brings):
        self.code, self.words, self.brings, self.of, self.files, self.crates = {*code}, {*code}, {*brings}, {}, {}, {crate} | code
        self.items = set()
        self.adds(crate, code)

    def adds(self, crate, words):
        """Adds words of a crate, or of others that stand among them: what names a type of another crate brings it by the crate's name."""
        self.words |= words
        for it in {crate} | words & Crate.known.keys():
            self.of.setdefault(it, set()).update(words)

    def takes(self, items):
        """Adds what these items name."""
        for it in items:
            self.adds(it.crate, it.words)
            self.brings |= it.brings
            if it.file:
                self.files.setdefault((it.crate, it.file), set()).update(it.words)
            if it.kind == "use":  # (what is handed on may have another name there)
                self.code |= it.last
                self.crates |= it.words
        self.words |= self.code
        self.items |= items

    def names(self, crate, name):
        """Whether it names this of a crate: a function by its name and that of its type, or else by its crate; a definition by its file; a type by its
        crate."""
        owner, _, called = name.removesuffix("()").rpartition(".")
        if name.endswith("()"):
            return called in self.code and (owner in self.words if owner else crate in self.crates)
        if not owner:  # (what implements a trait goes by its name, in whatever crate)
            return called in (self.words if called in Crate.traits() else self.of.get(crate, ()))
        return (crate, owner, called) in self.brings or called in self.files.get((crate, owner), ()) or ((crate, owner, "*") in self.brings and called in self.words)


def reached(crate, code, brings, items):
    """All that matters to bodies of a crate in which these words stand and these definitions are brought."""
    reach, found = Reach(crate, code, brings), {it for it in items if not it.names}
    items = {it for it in items if it.names}
    while True:
        reach.takes(found)
        found = {it for it in items if any(reach.names(it.crate, name) for name in it.names)}
        if not found:
            return reach
        items = items - found


class Item:
    """What a crate states: its kind, the names that it goes by, its words, and what a record has of it: one of the names, if it has any, and a checksum."""

    def __init__(self, crate, path, kind, names, text):
        trait, rest = implemented(text)
        of_type = text.partition(" for ")[2] if trait else text.removeprefix("impl ") if text.startswith("impl ") else ""
        owner = min(implementer(of_type), default="")
        if trait and trait not in Crate.traits():  # one of std's, which an operator may call
            kind, names = "is", {owner} - {""}
        elif kind == "fn":
            names = {f"{owner}.{it}()".removeprefix(".") for it in names}
        elif kind == "is" and of_type:
            names = {trait or owner} - {""}
        self.file = pathlib.Path(path).stem if path.startswith("specs/") else ""
        self.kind, self.names, self.crate = kind, {f"{self.file}.{name}" for name in names} if self.file else names, crate
        # The name of a function is no call of it, nor is that of a trait in an impl of it.
        self.brings, said = brought(re.sub(r"\bfn \w+", "fn", rest))
        self.words = words_of(said)
        # The names by which something is handed on.
        self.last = {it for it in re.findall(r"(\w+) as \w+$", text, re.M)} if kind == "use" else set()
        self.told = ":".join([*sorted(self.names)[:1], short_sum(f"{path}\n{text}")])


class Crate:
    known = {}
    every_trait = set()

    @classmethod
    def traits(cls):
        """The names of all traits of the repository."""
        if not cls.every_trait:
            cls.every_trait |= {it for crate in cls.known.values() for read in crate.sources().values() for it in re.findall(r"\btrait (\w+)", " ".join(read.kept))}
        return cls.every_trait

    def __init__(self, line):
        words, _, uses = line.partition(":")
        self.line, self.name, self.uses = line, words.split()[0], uses.split()
        self.folder = TOP / "crates" / self.name
        self.record, self.untried, self.read, self.own_items = RECORDS / self.name, self.folder / "edits/WAITING", {}, None
        Crate.known[self.name] = self

    def below(self):
        """The names of this crate and of those of the repository that it stands on."""
        return {self.name} | {it for use in self.uses if use in Crate.known for it in Crate.known[use].below()}

    def sources(self):
        """What its source files state, those of tests left out, by their paths in the crate."""
        if not self.read:
            self.follow(next(it for it in ("src/lib.rt", "src/main.rt") if (self.folder / it).is_file()))
        return self.read

    def follow(self, path):
        self.read[path] = Statements((self.folder / path).read_text())
        inside = os.path.dirname(path) if re.search(r"/(lib|main|mod)\.rt$", path) else path.removesuffix(".rt")
        for name in self.read[path].modules:
            self.follow(next(it for it in (f"{inside}/{name}.rt", f"{inside}/{name}/mod.rt") if (self.folder / it).is_file()))

    def items(self):
        """The items of its sources, and of its definitions."""
        if not self.own_items:
            texts = [(path, *it) for path, read in self.sources().items() for it in (*read.items, *read.exported)]
            texts += [(str(file.relative_to(self.folder)), *it) for file in self.folder.glob("specs/**/*.antt") for it in definitions(file.read_text())]
            self.own_items = [Item(self.name, *it) for it in texts]
        return self.own_items

    def all_items(self):
        """Its items and those of the crates below."""
        return [it for name in sorted(self.below()) for it in Crate.known[name].items()]

    def changed(self, stated):
        """The crates that no longer state all that has no name and one of these checksums, and what else is not there as it was: each a crate and a name."""
        now = {}
        for it in self.all_items():
            now.setdefault(it.crate, set()).add(it.told)
        gone = {crate: told - now.get(crate, set()) for crate, told in stated.items()}
        names = {(crate, it.partition(":")[0]) for crate, told in gone.items() for it in told if ":" in it}
        # (a definition goes by the first of its names, and may have lost that)
        files = {(crate, name.partition(".")[0]) for crate, name in names if "." in name and not name.endswith("()")}
        names |= {(it.crate, name) for it in self.all_items() if (it.crate, it.file) in files and it.told not in stated[it.crate] for name in it.names}
        return sorted(crate for crate, told in gone.items() if any(":" not in it for it in told)), names

    def edits(self, part="edits"):
        return [Edit(self, it) for it in sorted(self.folder.glob(f"{part}/*.edit"))]

    def recorded(self):
        """What its record has of each crate, and of each edit: the checksums of its text and of what it changes, the function and the goal."""
        lines, stated = [it.split(" ") for it in self.record.read_text().splitlines()] if self.record.is_file() else [], {}
        for _, crate, told in (it for it in lines if it[0] == "stated"):
            stated.setdefault(crate, set()).add(told)
        return stated, {it[1]: it[2:] for it in lines if it[0] == "refused"}

    def write(self, refused):
        items = self.all_items()
        words = [it.words() for it in self.edits()]
        matters = reached(self.name, set().union(*(it[0] for it in words)), set().union(*(it[1] for it in words)), items).items
        lines = {f"stated {it.crate} {it.told}\n" for it in matters} | {f"refused {name} {' '.join(it)}\n" for name, it in refused.items()}
        if refused:
            self.record.write_text("".join(sorted(lines)))
        else:
            self.record.unlink(missing_ok=True)

    def wait_less(self, refused):
        """Takes these out of WAITING, which goes with the last."""
        if (left := [it for it in self.waiting() if it not in refused]) != self.waiting():
            self.untried.write_text("".join(f"{it}\n" for it in left))
        if not left:
            self.untried.unlink(missing_ok=True)

    def waiting(self):
        """The edits that are said to wait for their trial."""
        return self.untried.read_text().split() if self.untried.is_file() else []


class Edit:
    def __init__(self, crate, file):
        self.crate, self.file, self.name, self.text = crate, file, file.stem, file.read_text()
        self.told = f"{crate.name}/{file.parent.name}/{file.name}"
        self.symbols = set()  # those that alone are checked, if not the whole crate is

    def applied(self, texts):
        """Applies it to the texts of files, to which it adds what they lack. Returns what it changed, by places in the files as they were, and why it
        cannot be applied, if so."""
        path, old, changes, made = None, None, [], {}
        for line in self.text.split("\n"):
            word, _, said = line.partition(":")
            said = said.removeprefix(" ").replace("⏎", "\n")
            if word == "file":
                path = said.strip()
                if not path.startswith("src/") or not (self.crate.folder / path).is_file():
                    return [], f"{path} is no file of src/"
                texts.setdefault(path, (self.crate.folder / path).read_text())
            elif word == "old":
                old = said
            elif word == "new":
                if not path or not old or old == said or texts[path].count(old) != 1:
                    return [], f"its text {(old or '').strip()!r} stands not once in {path}, or nothing is changed"
                start = texts[path].index(old)
                at = start + len(os.path.commonprefix([old, said]))
                for begin, end, longer in reversed(made.setdefault(path, [])):
                    at = at - longer if at >= end else min(at, begin)
                changes.append((path, at))
                made[path].append((start, start + len(said), len(said) - len(old)))
                texts[path] = texts[path].replace(old, said)
        return changes, None if changes else "it has no lines file:, old: and new:"

    def functions(self):
        """The functions that it changes, each a path and a place in the list of the file's functions; none if it changes more than bodies."""
        texts = {}
        changes, _ = self.applied(texts)
        stated = lambda it: (it.kept, it.exported, it.modules)
        if any(stated(Statements(text)) != stated(self.crate.sources()[path]) for path, text in texts.items()):
            return set()
        found = {(path, self.crate.sources()[path].function_at(at)) for path, at in changes}
        return set() if (None in {it[1] for it in found}) else found

    def sums(self):
        """The checksums of its text, and of the functions that it changes as they are: where such a body is written anew, it may be another wrong body."""
        bodies = {self.crate.sources()[path].function_text(at) for path, at in self.applied({})[0]}
        return [sum_of(self.text), sum_of("\n".join(sorted(bodies)))]

    def words(self):
        """Its words and those of the functions that it changes, and for a name that an import gives, the words of what it is given to; and the definitions
        that imports bring. If it changes more than bodies, all names."""
        if not self.functions():
            every = [(it, name) for it in self.crate.all_items() for name in it.names]
            return set().union(*(words_of(name) for _, name in every)), {(it.crate, it.file, name.partition(".")[2]) for it, name in every if it.file}
        words, files = words_of(self.text), [(self.crate.sources()[path], at) for path, at in self.applied({})[0]]
        words = words.union(*(words_of(read.function_text(at) + read.block_around(at)) for read, at in files))
        used = {what for read, _ in files for name, what in read.used if name in words or name == "*"}
        brings = [brought(f"use {it}") for it in used]
        return words.union(*(words_of(left) for _, left in brings)), set().union(*(found for found, _ in brings))

    def stands(self, recorded, gone):
        """Whether what a record has of it is so still, where what goes by these names is not there as it was."""
        if not gone or recorded[:2] != self.sums():
            return recorded[:2] == self.sums()
        reach = reached(self.crate.name, *self.words(), self.crate.all_items())
        return not any(reach.names(*it) for it in gone)


def crates():
    lines = [it.partition("#")[0].strip() for it in (TOP / "crates.txt").read_text().splitlines()]
    return [Crate(it) for it in lines if it]
