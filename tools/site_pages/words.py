"""Definitions of the words of contracts: where each stands, what the comment above it says, and what a name in a text leads to."""
import dataclasses
import functools
import re

from . import surface as surfaces

NAME = r"[^\W\d][\w']*(?:-[^\W\d][\w']*)*"
START = re.compile(rf"( *)((?:(?:abbrev|pub|unfoldable|data|record|mutual) )*)({NAME})(?: |$)")
IMPORT = re.compile(r"(?m)^ *(?:ghost |pub )*use ([\w.]+?)(?:\.\{([^}]*)\}| as (\w+));?$")
LANGUAGE = "the language"  # what the built-in words are said to be of


@dataclasses.dataclass(frozen=True)
class Target:
    """What a word leads to."""

    page: str
    anchor: str
    said: str = ""


@dataclasses.dataclass(eq=False)
class Word:
    """A definition of the library's."""

    crate: str
    module: str
    name: str
    said: str
    code: str
    given: list  # the heads of the blocks around it
    path: str
    place: tuple = (0, 0)  # which file of its crate's Lib.antt it stands in, and where

    @property
    def line(self):
        return self.place[1] + 1

    @property
    def target(self):
        return Target(f"words.{self.crate}.html", f"{self.module}.{self.name}", self.said)


class File:
    """A file of definitions."""

    def __init__(self, crate, name, path, text, place=0):
        self.crate, self.name, self.path, self.place = crate, name, path, place
        self.imports = imports(text)
        self.lines = text.splitlines()
        self.words = {}
        self.read()

    def read(self):
        """Takes in each definition with the comment above it, and the parameters of the blocks that it stands in."""
        at, said, given = 0, [], []
        while at < len(self.lines):
            line = self.lines[at]
            indent = len(line) - len(line.lstrip())
            given = [it for it in given if it[0] < indent] if line.strip() else given
            if line.strip().startswith("--"):
                said.append(line.strip()[2:].strip())
                at += 1
                continue
            if head := re.match(r" *module _ (.*) where$", line):
                given.append((indent, head[1]))
            elif (start := START.match(line)) and self.is_definition(line, start):
                end = self.end_of(at, indent, start)
                code = re.sub(r"(?m)^( *)(?:(?:abbrev|pub|unfoldable) )+", r"\1", "\n".join(it[indent:] for it in self.lines[at:end]))
                self.words.setdefault(start[3], Word(self.crate, self.name, start[3], " ".join(said), code, [it for _, it in given], self.path, (self.place, at)))
                at, said = end, []
                continue
            said = []
            at += 1

    def is_definition(self, line, start):
        is_data = re.search(r"data|record", start[2])
        return not re.match(r" *(pub )?(use|mod|module|open)\b", line) and bool(is_data or re.match(rf" *(?:(?:abbrev|pub|unfoldable) )*{NAME} :", line))

    def end_of(self, at, indent, start):
        """Where a definition ends: after its lines, and those of its equations."""
        end = at + 1
        while end < len(self.lines):
            line = self.lines[end]
            deeper = len(line) - len(line.lstrip()) > indent
            is_equation = line[indent:].startswith(start[3] + " ") and not line.startswith(" " * (indent + 1))
            if line.strip() and not deeper and not is_equation or not line.strip() and not self.goes_on(end, indent, start):
                break
            end += 1
        return end

    def goes_on(self, at, indent, start):
        """Whether a definition of several paragraphs goes on after a blank line."""
        rest = next((it for it in self.lines[at:] if it.strip()), "")
        return "record" in start[2] and len(rest) - len(rest.lstrip()) > indent


def imports(text):
    """The names that a text brings by `use`, each with its module and its name there; a whole module has no name there."""
    found = {}
    for module, names, alias in IMPORT.findall(re.sub(r"\{[^}]*\}", lambda it: it[0].replace("\n", " "), text)):
        if alias:
            found[alias] = (module, "")
        for it in filter(None, map(str.strip, names.split(","))):
            name, _, other = it.partition(" as ")
            found[other.strip() or name] = (module, name)
    return found


class Words:
    """All words that contracts cite, as they are asked for."""

    def __init__(self, surface, meanings):
        self.surface, self.meanings = surface, meanings
        self.used, self.of_toolchain, self.ahead = {}, {}, []

    @functools.cache
    def file(self, crate, name):
        folder = self.surface.top / "crates" / crate / "specs"
        file = folder / (name.replace(".", "/") + ".antt")
        if not file.is_file():
            return None
        listed = re.findall(r"(?m)^pub mod (\w+)$", (folder / "Lib.antt").read_text())
        place = listed.index(name) if name in listed else len(listed)
        return File(crate, name, str(file.relative_to(self.surface.top)), file.read_text(), place)

    def in_module(self, module, name):
        """What a name of a module leads to, or None."""
        found = re.fullmatch(r"Rattle\.(fc_\w+|fallible_collections)\.specs\.([\w.]+)", module)
        if not found:
            return self.toolchains(module, name)
        crate, path = found.groups()
        if path.startswith("declared."):
            return self.declared(crate, path.split(".")[1:], name)
        file = self.file(crate, path)
        if file is None:
            return self.toolchains(module, name)
        if name in file.words:
            return self.own(file.words[name])
        return self.in_module(*file.imports[name]) if name in file.imports else None

    def own(self, word):
        if word.target not in self.used:
            self.used[word.target] = word
            self.ahead.append(word)
        return word.target

    def toolchains(self, module, name):
        """A word of the toolchain, which has a row on the page of these."""
        short = re.sub(r"^Rattle\.(std\.specs\.)?", "", module)
        anchor = re.sub(r"[^\w.]", lambda it: f"-{ord(it[0]):x}", f"{short}.{name}" if module != LANGUAGE else f"language.{name}")
        self.of_toolchain[module, name] = anchor
        return Target("words.toolchain.html", anchor, self.meanings.get((module, name), self.meanings.get(("", name), "")))

    def declared(self, crate, path, name):
        """A type of the library, or a variant of one, as definitions name it."""
        is_variant = path[-1].startswith("The")
        of = path[-2] if is_variant else path[-1]
        for module in self.modules_of(crate):
            for it in module.items:
                if it.kind in surfaces.TYPES and it.name == of:
                    return self.type_target(it, module, name if is_variant and path[-1] == "TheVariants" else "")
        return self.toolchains(f"Rattle.{crate}.specs.declared.{'.'.join(path)}", name)

    @functools.cache
    def modules_of(self, crate):
        return [it for it in self.surface.all_modules() if it.crate == crate]

    def type_target(self, item, module, variant=""):
        """The page of a public type; of another an entry among the words."""
        public = self.surface.public.get(id(item))
        if public:
            return Target(public.page, f"variant.{variant}" if variant else "", " ".join(item.doc))
        said = " ".join(item.doc or item.remarks)
        fields = "\n".join(f"    {it.text}" for it in item.members if not it.text.startswith("ghost use"))
        code = f"{item.text} {{\n{fields}\n}}" if fields else item.text
        return self.own(Word(module.crate, "type", item.name, said, code, [], module.path, (10**6, item.line - 1)))
