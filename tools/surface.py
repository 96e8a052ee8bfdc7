"""The public calls of the library, as the sources in a folder have them: what `tools/pages.py` quotes and `tools/changes.py` compares. It has no command of
its own. Needed where the sources get another form."""
import functools
import pathlib
import re
import sys
import typing

clause = re.compile(r"(requires|ensures|ensures\*|decreases)\b")
header = re.compile(r"(?:pub )?(?:impl|trait)\b")
function = re.compile(r"(?:pub )?(?:const )?fn (\w+)")
NUMBERS = ["bool", "char", "()", *(kind + size for kind in "ui" for size in ("8", "16", "32", "64", "128", "size"))]
STD = {"Box", "Vec", "Option", *NUMBERS}
# The counted forms of calls: how their names end, and what such a form does besides.
COUNTED_FORMS = {"_counted": "with its comparisons and moves added to a `Count`", "_asked": "with its requests for memory added to an `Asked`"}
COUNTED = tuple(COUNTED_FORMS)
NOT_CALLED = {"fc_map/src/map/for_sets.rt"}  # what the set needs of the map, and no user


class Call(typing.NamedTuple):
    """A public function: what it is called at, its name, its first line, what it promises and the comment above it, or above its impl of a trait, line by
    line."""

    owner: str
    name: str
    line: str
    clauses: list
    comment: list

    @property
    def said(self):
        """What is said of it, but for what upstream and std have in its place."""
        text = " ".join(" ".join(self.comment).partition("# Errors")[0].split())
        kept = [it for it in re.split(r"(?<=[.]) (?=[A-Z`]|std's)", text) if not re.match(r"Upstream: |Not in upstream\b|std's `[^`]*`\.$", it)]
        return " ".join(kept).removesuffix(".")

    @property
    def errors(self):
        """What is said of its errors."""
        return " ".join(" ".join(self.comment).partition("# Errors")[2].split()).removesuffix(".")


def whole_item(lines, at):
    """The item that begins at a line, on one line, and the line where it ends: a clause or a ghost member of several lines is quoted whole."""
    whole = lines[at].strip()
    while whole.count("{") > whole.count("}"):
        at += 1
        whole += " " + lines[at].strip()
    return whole.removesuffix(";"), at


def comment_above(lines, at):
    """The lines of the comment above a line, which may have attributes below it."""
    above = at - 1
    while lines[above].strip().startswith("#["):
        above -= 1
    said = []
    while above >= 0 and lines[above].strip().startswith("///"):
        said.insert(0, lines[above].strip()[3:].strip())
        above -= 1
    return said


def head_of(lines, at):
    """The header of the impl block or trait that begins at a line, and the line where it ends."""
    words = [lines[at].strip()]
    while not words[-1].endswith(("{", "}", ";")):
        at += 1
        words.append(lines[at].strip())
    return " ".join(words).rstrip("{} ").removesuffix(" where"), at


def call_at(lines, at, owner, name):
    """The function that begins at a line, and the line where what it promises ends."""
    comment, words = comment_above(lines, at), [lines[at].strip()]
    while not re.search(r"[{;]$", words[-1]) and not clause.match(lines[at + 1].strip()) and lines[at + 1].strip() != "{":
        at += 1
        words.append(lines[at].strip())
    joined = "".join(("" if not words[i - 1 : i] or words[i - 1].endswith("(") or it.startswith(")") else " ") + it for i, it in enumerate(words))
    clauses = []
    while clause.match(lines[at + 1].strip()):
        promised, at = whole_item(lines, at + 1)
        clauses.append(promised)
    return Call(owner, name, re.sub(r",\)", ")", joined).rstrip("{;, ").removeprefix("pub "), clauses, comment), at


def plain(text):
    """A type, a trait or the head of an impl without what stands in angle brackets."""
    while (shorter := re.sub(r"<[^<>]*>", "", text.replace("->", ""))) != text:
        text = shorter
    return re.sub(r"^(impl|trait) ?|:.*", "", text.removeprefix("pub ")).strip()


class Surface:
    """What the sources in a folder hand on, by these crates."""

    def __init__(self, top, roots=("fallible_collections",)):
        self.top, self.roots = pathlib.Path(top), roots

    def read(self, path):
        """The lines of a file."""
        file = self.top / path
        if not file.is_file():
            sys.exit(f"{pathlib.Path(sys.argv[0]).name}: {path} is not there")
        return file.read_text().splitlines()

    def calls_in(self, path):
        """The public functions of a file, and in between the ghost members of its traits and impls, as pairs of an owner and a text."""
        found, owner, is_open, said, at = [], "", False, [], 0
        lines = self.read(path)
        while at < len(lines):
            line = lines[at].strip()
            if header.match(line) and not lines[at].startswith(" "):
                said = comment_above(lines, at)
                owner, at = head_of(lines, at)
                is_open = (not owner.startswith("impl") or " for " in owner) and not lines[at].endswith("}")
            elif lines[at] == "}":
                owner, is_open = "", False
            elif (it := function.match(line)) and (line.startswith("pub fn") or is_open and owner):
                call, at = call_at(lines, at, owner, it[1])
                found.append(call if call.comment or " for " not in owner else call._replace(comment=said))
            elif is_open and owner and re.match(r"ghost (?!use\b)\w+\s*[=:]", line) and "impl Model" not in owner and " Model for " not in owner:
                member, at = whole_item(lines, at)
                found.append((owner, member))
            at += 1
        return found

    @functools.cached_property
    def handed_on(self):
        """The crates whose items `fallible_collections` hands on, and the names that they and it hand on."""
        found, ahead, names = [], [*self.roots], set()
        there = {it.parent.parent.name for it in self.top.glob("crates/*/src/lib.rt")}
        while ahead:
            for file in sorted((self.top / f"crates/{ahead.pop()}/src").rglob("*.rt")):
                for path in re.findall(r"(?m)^pub use ([^;]+);", file.read_text()):
                    names |= {*re.findall(r"\w+", path.partition("{")[2] or path.rpartition("::")[2])}
                    new = [it for it in [path.partition("::")[0]] if it in there and it not in found]
                    found, ahead = [*found, *new], [*ahead, *new]
        return found, names

    @functools.cached_property
    def inner_types(self):
        """The types of the library below its surface: of crates of trees, and not handed on."""
        _, names = self.handed_on
        return {it for file in self.top.glob("crates/fc_tree_*/src/**/*.rt") for it in re.findall(r"(?m)^pub (?:struct|enum) (\w+)", file.read_text())} - names

    def is_inner(self, call):
        """Whether a call names a type of the library that is not handed on, so that no user can make it."""
        return any(it in self.inner_types for it in re.findall(r"(?<!:)\b[A-Z]\w+", call.line))  # `vec::Drain` is std's

    def is_public(self, file, owner):
        """Whether a call is: one of a public type or trait or of std's, or a function that is handed on by its name, or with its file."""
        _, names = self.handed_on
        named = owner.rpartition(" for ")[2] if owner else ""
        with_file = file.stem in names or f"pub mod {file.stem};" in (file.parent.with_suffix(".rt").read_text() if file.parent.name != "src" else "")
        return named in names | STD if owner else with_file

    def is_kept(self, file, owner):
        """Whether a call is one of a type that its crate keeps to itself, so that a trait's name alone does not hand it on."""
        sources = self.files([file.relative_to(self.top / "crates").parts[0]]) if " for " in owner else []
        return any(re.search(rf"(?m)^(?:pub\(crate\) )?(?:struct|enum) {owner.rpartition(' for ')[2]}\b", it.read_text()) for it in sources)

    def files(self, crates):
        """The sources of crates, in order."""
        return [it for crate in crates for it in sorted((self.top / f"crates/{crate}/src").rglob("*.rt"))]

    @functools.cached_property
    def public_calls(self):
        """The public calls by the type, or the trait of the library, that they are of, and by their names; those of no type under an empty one."""
        crates, names = self.handed_on
        found = {}
        for file in self.files(crates):
            for it in self.calls_in(str(file.relative_to(self.top))):
                if isinstance(it, Call) and not self.is_inner(it) and (self.is_public(file, plain(it.owner)) or it.name in names):
                    found.setdefault(plain(it.owner).rpartition(" for ")[2], {}).setdefault(it.name, it)
        return found
