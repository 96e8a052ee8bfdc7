"""The public calls that no test makes, as `tools/pages.py` tells them. It has no command of its own. Needed where a call is made in a way that it does not
know.

Tests here are the sources of the crates whose names begin with one of TESTS: each holds tests, or tests or rows of text run what it holds. A call counts as
made where such a source uses its type and has its name after a dot, or after `::`, which where it takes no `self` has its type before; or where it has what
mostly stands for a call of that name (WRITTEN). A source uses a type that it names, by itself or by an alias of its crate, and one that a call on a type which
it uses answers, or a case of it holds. A function of no type is called where it stands after a path, or is imported.

Nothing is compiled here. So of the types that one source uses it can't tell which has a call of a name that several have, and of signs as `==` not even whether
it is one of these. It sees neither whether what makes a call is run, nor what a test expects of it."""
import collections
import functools
import re

from surface import NOT_CALLED, Call, Surface, clause, plain

TESTS = ("test_", "probe_", "callers_", "example_", "fcrun")
ROOTS = ("fallible_collections", "fc_budget", "fc_laws", "fc_intervals", "fc_cache", "fc_timers", "fc_index")  # what a user's crate names
INNER = {*NOT_CALLED, "fc_map_iter/src/compare.rt"}  # what crates of the library alone call
# What mostly stands for a call of one of std's traits; an empty text: nothing, as where a value is dropped.
WRITTEN = {
    "drop": "",
    "deref": "",
    "deref_mut": "",
    "made_with": r"\.or_default\(",
    "try_from_iterator": r"\btry_collect\(",
    "emptied": r"\btry_take\(",
    "order_of": r"\bfn order_of\(",  # of a type that a test compares by
    "fmt": r":#?\?\}|\bassert_(?:eq|ne)!",
    "from": r"\?|\.into\(",
    "eq": r" [=!]= |\bassert_eq!",
    "partial_cmp": r" [<>]=? ",
    "next": r"\bfor .* in\b|\.(?:all|any|collect|count|map|zip)\(",
    "into_iter": r"\bfor .* in\b",
    "index": r"\w\[",
    "index_mut": r"\w\[.*\] [-+*/]?= ",
    "sub": r" - &",
    "bitand": r" & &",
    "bitor": r" \| &",
    "bitxor": r" \^ &",
    "write": r"\bwrite(?:ln)?!",
}


def code_of(text):
    """The code of a source, without comments, clauses and what else is for proofs alone."""
    lines = [it for it in re.sub(r"//[^\n]*", "", text).splitlines() if not clause.match(it.strip()) and not it.strip().startswith("ghost ")]
    return "\n".join(lines)


def takes_self(call):
    return bool(re.search(r"\(&?(?:'\w+ )?(?:mut )?self\b", call.line))


class File:
    """A source of a crate of tests: its code, the names in it, and those that it makes calls by."""

    def __init__(self, path, crate):
        self.path, self.crate, self.code = path, crate, code_of(path.read_text())
        self.words = {*re.findall(r"\w+", re.sub(r"\b\d[\d_]*(?=[iu])", "", self.code))}  # also those of numbers that tell their type, as in 7u8
        self.called = {*re.findall(r"(?:\.\s*(?=\w+(?:\(|::<))|::)(\w+)", self.code)}
        self.imported = {name for it in re.findall(r"(?s)\buse ([^;]+);", self.code) for name in re.findall(r"\w+", it)}


class Tests:
    """The public calls of the library in a folder, and which of them its tests make."""

    def __init__(self, top):
        self.top, self.here = top, Surface(top, ROOTS)
        folders = [it for it in sorted(top.glob("crates/*")) if it.name.startswith(TESTS)]
        self.files = [File(path, it.name) for it in folders for path in sorted(it.glob("src/**/*.rt"))]

    @functools.cached_property
    def calls(self):
        """The public calls, each with its crate and the type or trait that it is of."""
        crates, names = self.here.handed_on
        found = []
        for file in self.here.files([*crates, *ROOTS[1:]]):
            crate, path = file.relative_to(self.top / "crates").parts[0], str(file.relative_to(self.top))
            for it in self.here.calls_in(path) if path.removeprefix("crates/") not in INNER else ():
                if isinstance(it, Call) and not self.here.is_inner(it) and (self.here.is_public(file, plain(it.owner)) or it.name in names and not self.here.is_kept(file, plain(it.owner))):
                    found.append((crate, plain(it.owner).rpartition(" for ")[2], it))
        return found

    @functools.cached_property
    def makers(self):
        """What answers or holds a type, by the type: pairs of another type and the name of a call on a value of it, or of a case of it."""
        found = collections.defaultdict(set)
        named = [(of, it.name, it.line.rpartition(" -> ")[2]) for _, of, it in self.calls if takes_self(it)]
        for file in self.here.files({crate for crate, _, _ in self.calls}):
            for of, cases in re.findall(r"(?ms)^pub enum (\w+)[^{]*\{(.*?)^\}", file.read_text()):
                named += [(of, *it) for it in re.findall(r"(?m)^    (\w+)\((.*)\),$", cases)]
        for of, name, text in named:
            for it in {*re.findall(r"\b[A-Z]\w+", text)} - {of}:
                found[it].add((of, name))
        return found

    @functools.cached_property
    def aliases(self):
        """The names that a crate of tests gives to types, by the crate and the type."""
        found = collections.defaultdict(set)
        for file in self.files:
            for name, text in re.findall(r"(?m)\btype (\w+)(?:<[^=]*>)? = ([^;]*);", file.code):
                for it in re.findall(r"\w+", text):
                    found[file.crate, it].add(name)
        return found

    def uses(self, file, of, above=()):
        """Whether a file names a type, or what answers or holds one, of a type that it uses."""
        if not re.match(r"\w+$", of) or {of, *self.aliases[file.crate, of]} & file.words:
            return True
        return any(name in file.called and it not in above and self.uses(file, it, (*above, of)) for it, name in self.makers[of])

    def makes(self, file, of, call):
        """Whether a file makes a call of a type, or of none."""
        name, written = call.name, WRITTEN.get(call.name)
        if not of:
            return name in file.called or name in file.imported and re.search(rf"(?<!fn )(?<![.\w]){name}(?:\(|::<)", file.code)
        if written is not None and self.uses(file, of) and re.search(written, file.code):
            return True
        if takes_self(call) or "trait " in call.owner or " for " in call.owner:
            return name in file.called and self.uses(file, of)
        return any(re.search(rf"\b{it}(?:::<[^;]*?>)?::{name}\b", file.code) for it in (of, *self.aliases[file.crate, of]))

    def missing(self):
        """The calls that no test makes."""
        none = [it for it in self.calls if not any(self.makes(file, *it[1:]) for file in self.files)]
        return [f"no test calls {f'{of}::' * bool(of)}{call.name} of {crate}" for crate, of, call in none]


def missing(top):
    """What is wrong with the tests of the library in a folder."""
    return Tests(top).missing()
