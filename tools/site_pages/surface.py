"""The public surface: which types, traits and functions a user can name, at which paths, and the impls of each type."""
import dataclasses
import functools
import re

from . import source

ROOTS = ("fallible_collections", "fc_budget", "fc_laws", "fc_intervals", "fc_cache", "fc_timers", "fc_index")  # what a user's crate names
BOUNDS = "bounds"  # where traits are shown that calls ask for and no user names
TYPES = ("struct", "enum", "trait", "type")


@dataclasses.dataclass(eq=False)
class Module:
    """A file of a crate."""

    crate: str
    name: str
    path: str  # from the top of the repository
    doc: list
    items: list
    above: object = None
    inner: dict = dataclasses.field(default_factory=dict)


@dataclasses.dataclass(eq=False)
class Public:
    """An item that users can name."""

    item: source.Item
    module: Module
    paths: list
    impls: list = dataclasses.field(default_factory=list)  # pairs of an impl and the module where it stands

    @property
    def home(self):
        """The path at which it is shown: in the library that of the innermost public module, beside it the shortest."""
        return max(self.paths, key=lambda it: it.count("::")) if self.paths[0].startswith(ROOTS[0]) else self.shortest

    @property
    def shortest(self):
        return min(self.paths, key=lambda it: (it.count("::"), it))

    @property
    def name(self):
        return self.item.name

    @property
    def page(self):
        """The page of a type, or that of its module where a function is shown."""
        return (self.home if self.item.kind in TYPES else self.home.rpartition("::")[0]).replace("::", ".") + ".html"


def with_those_below(modules):
    """The modules, each with those below it."""
    for module in modules:
        yield module
        yield from with_those_below(module.inner.values())


def split_names(text):
    """The parts of a text at its commas that stand in no braces."""
    parts, depth, word = [], 0, ""
    for each in text:
        depth += (each == "{") - (each == "}")
        if each == "," and depth == 0:
            parts.append(word)
            word = ""
        else:
            word += each
    return [it.strip() for it in [*parts, word] if it.strip()]


def use_paths(text):
    """What a `use` brings: pairs of a name and its path."""
    prefix, brace, names = text.partition("{")
    if not brace:
        path, _, other = text.partition(" as ")
        return [((other or path.rpartition("::")[2]).strip(), path.strip())]
    return [(name, (prefix.strip() + path).removesuffix("::self")) for each in split_names(names.rstrip().removesuffix("}")) for name, path in use_paths(each)]


def path_of_use(text):
    """What stands behind the word of a `use`."""
    return re.sub(r"^(pub(\(\w+\))? )?use ", "", text.replace("\n", " ").rstrip(";"))


class Surface:
    """All crates of the repository, as they are asked for, and what is public of them."""

    def __init__(self, top):
        self.top, self.crates, self.names_of, self.public = top, {}, {}, {}
        self.modules = {BOUNDS: Module("", BOUNDS, "", ["Traits that calls ask of what they are given, and that no caller names."], [])}  # by their public paths
        for root in ROOTS:
            self.walk(self.crate(root), root)
        self.add_impls()
        self.add_bounds()
        self.add_impls()

    def crate(self, name):
        if name not in self.crates:
            file = self.top / "crates" / name / "src/lib.rt"
            self.crates[name] = self.module(name, name, file, None) if file.is_file() else None
        return self.crates[name]

    def module(self, crate, name, file, above):
        """A file as a module, with those below it."""
        doc, items = source.read(file)
        made = Module(crate, name, str(file.relative_to(self.top)), doc, items, above)
        folder = file.parent if above is None else file.with_suffix("")
        for it in items:
            if it.kind == "mod":
                made.inner[it.name] = self.module(crate, it.name, folder / f"{it.name}.rt", made)
        return made

    def all_modules(self):
        """The modules of the library's crates, each with those below it."""
        crates = [self.crate(it.parent.parent.name) for pattern in ("fc_*", "fallible_collections") for it in sorted(self.top.glob(f"crates/{pattern}/src/lib.rt"))]
        return with_those_below(crates)

    def names(self, module):
        """What a module can name: by its name a module, a pair of an item and its module, or a path; and whether others see it there."""
        if module not in self.names_of:
            found = self.names_of[module] = {}
            for it in module.items:
                if it.kind == "mod":
                    found[it.name] = (module.inner[it.name], it.is_public)
                elif it.kind in (*TYPES, "fn", "const"):
                    found[it.name] = ((it, module), it.is_public)
            for it in module.items:
                if it.kind == "use":
                    found |= {name: (path.split("::"), it.is_public) for name, path in use_paths(path_of_use(it.text)) if name not in found}
        return self.names_of[module]

    def look_up(self, module, name):
        """What one name of a module means, or None where that is no part of the repository."""
        target = self.names(module)[name][0] if name in self.names(module) else None
        if not isinstance(target, list):
            return target
        return None if target == [name] and not self.crate(name) else self.resolve(module, target, name)

    def resolve(self, module, path, but=""):
        """What a path leads to from a module, or None where that is no part of the repository. A `use` does not lead to the name that it makes."""
        here, rest = module, path
        if path[0] == "crate":
            here, rest = self.crate(module.crate), path[1:]
        elif path[0] in ("self", "super"):
            while rest and rest[0] in ("self", "super"):
                here, rest = (here if rest[0] == "self" else here.above), rest[1:]
        elif (path[0] == but or path[0] not in self.names(module)) and self.crate(path[0]):
            here, rest = self.crate(path[0]), path[1:]
        for at, name in enumerate(rest):
            if not isinstance(here, Module):
                return here if at else None
            here = self.look_up(here, name)
        return here

    def walk(self, module, path):
        """Takes in what a public module hands on."""
        self.modules.setdefault(path, module)
        for name, (_, is_public) in self.names(module).items():
            target = self.look_up(module, name) if is_public else None
            if isinstance(target, Module):
                self.walk(target, f"{path}::{name}")
            elif target is not None:
                item, home = target
                self.public.setdefault(id(item), Public(item, home, [])).paths.append(f"{path}::{name}")

    def named(self, module, name):
        """The item that a name of a module's code means, if it is one of the library's, and whether it is public."""
        target = self.resolve(module, name.split("::"))
        if target is None or isinstance(target, Module):
            return None, True
        return target[0], id(target[0]) in self.public

    def hidden(self, module, text):
        """The types and traits of the library that a text names and no user can."""
        targets = [self.resolve(module, it.split("::")) for it in sorted(set(re.findall(r"\b(?:\w+::)*[A-Z]\w+", text)))]
        return [it for it in targets if isinstance(it, tuple) and it[0].kind in TYPES and id(it[0]) not in self.public]

    def is_hidden(self, module, text):
        """Whether a text names a type of the library that no user can name. A trait is there as a bound, which a user need not name."""
        return any(item.kind != "trait" for item, _ in self.hidden(module, text))

    def add_bounds(self):
        """Takes in the traits that public calls ask for by bounds alone."""
        for public in [*self.public.values()]:
            heads = [(it, module) for it, module in public.impls if not parts_of_impl(it.text)[0]]
            texts = [(public.item.text, public.module)] + [(f"{it.text} {call.text}", module) for it, module in heads for call in it.of_kind("fn") if call.is_public]
            for item, home in [each for text, module in texts if not self.is_hidden(module, text) for each in self.hidden(module, text)]:
                self.public.setdefault(id(item), Public(item, home, [f"{BOUNDS}::{item.name}"]))

    def aliases(self, item):
        """The public aliases of a type that users can name by these alone."""
        public = [it for it in self.public.values() if it.item.kind == "type"] if id(item) not in self.public else []
        return [it for it in public if self.named(it.module, head_of(it.item.text.partition("=")[2].strip()))[0] is item]

    def add_impls(self):
        """Gives each impl to the types and the traits of the library that it is of, and to the public aliases of a type that has no public name."""
        for module in self.all_modules():
            for it in module.items:
                trait, of = parts_of_impl(it.text) if it.kind == "impl" else ("", "")
                item, _ = self.named(module, head_of(of)) if of else (None, True)
                owners = self.aliases(item) if item is not None else []
                if it.kind != "impl" or self.is_hidden(module, it.text) and not owners:
                    continue
                found = [self.named(module, name)[0] for name in (head_of(trait), head_of(of)) if name]
                owners += [self.public[id(each)] for each in found if each is not None and id(each) in self.public]
                for owner in owners:
                    if (it, module) not in owner.impls:
                        owner.impls.append((it, module))

    @functools.cached_property
    def crossing(self):
        """Which types may go to another thread, by the tests that ask it."""
        found = {}
        for module in with_those_below([self.crate("test_callers"), self.crate("test_budget")]):
            text = (self.top / module.path).read_text()
            for bound, name in re.findall(r"\b(crosses|sends)::<(\w+)", text):
                name = (re.findall(rf"(?m)^type {name} = (\w+)", text) or [name])[0]
                item, _ = self.named(module, name)
                said = "<code>Send</code> and <code>Sync</code>" if bound == "crosses" else "<code>Send</code>"
                found |= {id(item): said} if item is not None else {}
        return found

    @functools.cached_property
    def types(self):
        return sorted((it for it in self.public.values() if it.item.kind in TYPES), key=lambda it: it.home)

    @functools.cached_property
    def functions(self):
        return sorted((it for it in self.public.values() if it.item.kind == "fn" and not self.is_hidden(it.module, it.item.text)), key=lambda it: it.home)


def past_brackets(text):
    """A text without the parameters in angle brackets that it begins with."""
    depth = 0
    for at, each in enumerate(text):
        depth += (each == "<") - (each == ">" and text[at - 1] != "-")
        if depth == 0:
            return text[at + 1 :].strip() if text.startswith("<") else text
    return text


def outermost(text):
    """A text without what stands in its angle brackets and parentheses."""
    while (shorter := re.sub(r"<[^<>]*>|\([^()]*\)", "", text.replace("->", ""))) != text:
        text = shorter
    return text


def parts_of_impl(text):
    """The trait of an impl, which may be empty, and the type that it is for."""
    inside = past_brackets(re.sub(r"^(unsafe )?impl ?", "", text).strip())
    inside = re.split(r"\bwhere\b", inside)[0].strip()
    trait, is_for, of = inside.partition(" for ")
    return (trait, of) if is_for else ("", inside)


def head_of(text):
    """The name of a type before its parameters, without references."""
    found = re.match(r"(?:&(?:'\w+ )?(?:mut )?)*((?:\w+::)*\w+)", text)
    return found[1] if found else ""
