"""Turns clauses and definitions into HTML in which each word leads to its definition."""
import html
import re

from . import surface as surfaces
from .words import LANGUAGE, NAME, Target, imports

TOKEN = re.compile(rf'--[^\n]*|"[^"]*"|\.(?:{NAME}|\d+)|{NAME}|\d\w*|\+\+|&&|==|\[\]|\s+|\S')
IS_NAME = re.compile(NAME)


def escape(text):
    return html.escape(str(text))


def link(target, text, kind="word"):
    said = f' title="{escape(target.said)}"' if target.said else ""
    place = f"#{target.anchor}" if target.anchor else ""
    own = "" if target.page != "words.toolchain.html" else " std"
    return f'<a class="{kind}{own}" href="{escape(target.page + place)}"{said}>{escape(text)}</a>'


def bound_in(text):
    """The names that a text binds: by a λ or a `let`, or before a colon in parentheses or braces."""
    found = set()
    for names in re.findall(r"λ ([^.]*)\.", text) + re.findall(r"[({;]\s*([\w' ]+) :", text) + re.findall(rf"\blet ({NAME})", text):
        found |= {*re.findall(NAME, names)}
    return found


def named_fields(text):
    """The names of fields that a text sets in a record."""
    return {*re.findall(rf"[{{;]\s*({NAME}) =", text)}


def parameters_of(head, sign):
    """The names of the types that an impl or a trait and a function take in angle brackets, and of the function's own parameters."""
    types = set()
    for text, ahead in ((head, r"(?:unsafe )?impl|pub trait \w+|trait \w+"), (sign, r".*?\bfn \w+")):
        found = re.match(rf"(?:{ahead})(?=<)", text)
        if found:
            rest = text[found.end() :]
            inside = rest[1 : len(rest) - len(surfaces.past_brackets(rest))]
            types |= {*re.findall(r"(?:^|, )(?:const )?([A-Z]\w*)(?=[:,>= ]|$)", surfaces.outermost(inside))}
    return types, {*re.findall(r"[(,]\s*(?:mut )?([a-z_]\w*):(?!:)", sign)}


def bounds_in(sign):
    """The names of the traits that a signature or the head of an impl asks of each of its types."""
    found = {}
    for name, bound in re.findall(r"\b([A-Z]\w*):(?!:) ?((?:[\w:'+ ]|<(?:[^<>]|<[^<>]*>)*>)+)", sign):
        found.setdefault(name, set()).update(re.findall(r"\w+", surfaces.outermost(bound)))
    return found


class Linker:
    """Leads the words of texts to their definitions, and keeps those that have none."""

    def __init__(self, surface, words):
        self.surface, self.words, self.lacking = surface, words, []
        self.traits = {it.name: it for it in surface.types if it.item.kind == "trait"}
        self.imports_of = {}

    def imports(self, module):
        """The names that a file's and an impl's `ghost use` bring."""
        if module not in self.imports_of:
            self.imports_of[module] = imports("\n".join(it.text for it in module.items if it.kind == "ghost use"))
        return self.imports_of[module]

    def clause(self, text, owner, call, module):
        """A clause of a call, or a ghost member, in an impl or a trait."""
        types, values = parameters_of(owner.text if owner else "", call.text if call else "")
        there = dict(self.imports(module))
        if owner:
            there |= imports("\n".join(it.text for it in owner.members if it.kind == "ghost use"))
        said = re.sub(r"^(?:\w+\*? *\w* *|ghost \w+)(?=[{:=])", "", text)
        names = Names(self, module, there, types | {"Self"}, (values | bound_in(text) | named_fields(text)) - {""}, ghosts_of(owner, self.traits))
        names.bounds = bounds_in(f"{owner.text if owner else ''} {call.text if call else ''}")
        ahead = text[: len(text) - len(said)].rstrip()
        word, _, label = ahead.partition(" ")
        space = text[len(ahead) : len(text) - len(said)]
        return f"<b>{escape(word)}</b>{' <i>' + escape(label) + '</i>' if label else ''}{space}{self.text(said, names, f'{module.path}: {ahead}')}"

    def definition(self, word):
        """The code of a definition."""
        if word.module == "type":
            return escape(word.code)
        file = self.words.file(word.crate, word.module)
        code = re.sub(r"--.*", "", word.code)
        bound = bound_in(code) | named_fields(code) | {it for each in word.given for it in bound_in(each)}
        bound |= {it for line in code.splitlines() for it in variables_of(line, word.name) if it not in file.imports} | fields_of(code)
        names = Names(self, None, {**file.imports, **{it: (f"Rattle.{word.crate}.specs.{word.module}", it) for it in file.words}}, set(), bound - {""}, {})
        return self.text(word.code, names, f"{word.path}: {word.name}")

    def text(self, text, names, where):
        """A text with its words linked."""
        done, before = [], ("", "")
        for token in TOKEN.findall(text):
            if token.startswith("--"):
                done.append(f"<i>{escape(token)}</i>")
                continue
            target = names.target(token, before)
            before = (before[0] + token, target) if token.startswith(".") and IS_NAME.match(token[1:]) else (token, target)
            if isinstance(target, Target):
                shown = token.removeprefix(".")
                done.append("." * token.startswith(".") + link(target, shown))
                continue
            if target == "lacking":
                self.lacking.append(f"{where}: {token}")
            done.append(escape(token))
        return "".join(done)


def variables_of(line, name):
    """The variables on the left of an equation."""
    found = re.match(rf"{re.escape(name)} (.*?) =(?: |$)", line)
    return {*re.findall(NAME, found[1])} if found else set()


def fields_of(code):
    """The fields of a record."""
    return {*re.findall(rf"(?m)^ +(?:pub )?({NAME}) :", code)}


def ghosts_of(owner, traits):
    """The ghost members that a trait, or an impl of one, can name without a path: pairs of a name and a page."""
    if owner is None:
        return {}
    name = owner.name if owner.kind == "trait" else surfaces.head_of(surfaces.parts_of_impl(owner.text)[0])
    return {it.name: traits[name] for it in traits[name].item.of_kind("ghost")} if name in traits else {}


class Names:
    """What the names of one text lead to."""

    def __init__(self, linker, module, there, types, bound, ghosts):
        self.linker, self.module, self.there, self.types, self.bound, self.ghosts = linker, module, there, types, bound, ghosts
        self.bounds = {}
        self.signs = {it.replace("◌", ""): at for it, at in there.items() if not IS_NAME.fullmatch(it) and "◌then◌" not in it}
        self.signs |= {each: at for it, at in there.items() if "◌then◌" in it for each in it.split("◌") if each}

    def target(self, token, before):
        """Where a token leads, 'lacking' where it should lead somewhere, or None."""
        if token.startswith("."):
            return self.member(token[1:], before) if IS_NAME.match(token[1:]) else None
        if token in self.signs:
            return self.linker.words.in_module(*self.signs[token])
        if not IS_NAME.fullmatch(token) or token in self.bound or token in self.types or token == "_":
            return None
        if token in self.ghosts:
            return ghost_target(self.ghosts[token], token)
        if token in self.there:
            module, name = self.there[token]
            return (self.linker.words.in_module(module, name) or "lacking") if name else None
        return self.in_code(token)

    def in_code(self, name):
        """A name of the file's code, or one of the language."""
        words = self.linker.words
        if (LANGUAGE, name) in words.meanings:
            return None
        if self.module is not None:
            target = self.linker.surface.look_up(self.module, name)
            if isinstance(target, tuple) and target[0].kind in surfaces.TYPES:
                return words.type_target(*target)
            if name in self.linker.surface.names(self.module) and target is None:
                return words.toolchains("::".join(self.linker.surface.names(self.module)[name][0][:-1]), name)
        return "lacking"

    def member(self, name, before):
        """A member of what stands before the point: of a module, of a type's traits, or of an enum."""
        path, target = before
        head = path.split(".")[0]
        if head in self.there and not self.there[head][1]:
            return self.linker.words.in_module(self.there[head][0], name)
        if head in self.types and path == head:
            traits = [self.linker.traits[it] for it in sorted(self.bounds.get(head, ())) if it in self.linker.traits]
            found = [it for it in traits if any(each.name == name for each in it.item.of_kind("ghost"))]
            if found:
                return ghost_target(found[0], name)
            return self.linker.words.toolchains(LANGUAGE, f"T.{name}")
        if isinstance(target, Target) and target.page != "words.toolchain.html" and not target.anchor:
            return Target(target.page, f"variant.{name}")
        return None


def ghost_target(public, name):
    """A ghost member of a trait, on the trait's page."""
    item = next(it for it in public.item.of_kind("ghost") if it.name == name)
    return Target(public.page, f"ghost.{name}", " ".join(item.remarks))
