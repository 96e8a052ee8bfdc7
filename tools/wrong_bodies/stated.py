"""What sources and definitions state, item by item. tools/edits.py holds records to it, and tools/counts.py finds functions by it.

Needed where the language gets a form of item or of clause that this does not know yet. It has no command of its own."""
import pathlib
import re

TOP = pathlib.Path(__file__).resolve().parent.parent.parent
TEXTS = r"""//[^\n]*|/\*.*?\*/|b?r(\#*)".*?"\1|b?"(?:\\.|[^"\\])*"|b?'(?:\\(?:x[0-9a-fA-F]{2}|u\{[^}]*\}|.)|[^'\\])'"""
CLAUSE = r"\b(?:requires|ensures|ghost)\b"
# A size counts as its number, so that a name in the number's place changes no statement, and another number does.
SIZES = "Rattle.fc_base.specs.Sizes"
# What says nothing by itself: a remark, and that there is a file of definitions.
SILENT = r"--( |$)|pub mod \w+$"
NUMBERS = dict(re.findall(r"(?m)^(\w+) = (\d+)$", (TOP / "crates/fc_base/specs/Sizes.antt").read_text()))
TOKEN = re.compile(TEXTS + r"|(?P<gap>\s+)|\w+|.", re.S)
# What has to be seen on the way to the end of brackets.
MARK = re.compile(TEXTS + r"|[][(){};]|" + CLAUSE, re.S)
IN_CLAUSE = re.compile(r'"(?:\\.|[^"\\])*"|[{};]')
BRACKETS = {"(": 1, "[": 1, "{": 1, ")": -1, "]": -1, "}": -1}


def plain(text):
    return " ".join(text.split())


def with_numbers(text, names):
    """The text with its number in the place of each of these sizes, and of each sum of one of them and a number."""
    one = "|".join(names)
    number = lambda it: str(int(NUMBERS[it[1] or it[3] or it[5]]) + int(it[2] or it[4] or 0))
    return re.sub(rf"\( ?({one}) \+ (\d+) ?\)|(?<![*/^-] )\b({one}) \+ (\d+)\b(?! [*/^])|\b({one})\b", number, text) if names else text


def clause_end(text, at):
    """The end of a clause or ghost item, whose braces hold terms of the logic."""
    depth = 0
    for found in IN_CLAUSE.finditer(text, at):
        depth += BRACKETS.get(found[0], 0)
        if depth == 0 and found[0] in "};":
            return found.end()
    return len(text)


def closing(text, at, clauses, ends):
    """The end of the first bracket or semicolon of `ends` that stands outside all brackets from there on. Adds the clauses on the way to the list."""
    depth = 0
    while found := MARK.search(text, at):
        at = found.end()
        depth += BRACKETS.get(found[0], 0)
        if re.fullmatch(CLAUSE, found[0]):
            at = clause_end(text, at)
            clauses.append(plain(text[found.start() : at]))
        elif depth == 0 and found[0] in ends:
            return at
    return len(text)


def imports(tree, path=""):
    """The names that a use item brings, each with its path."""
    head, brace, inner = tree.strip().partition("{")
    if not brace:
        whole, _, alias = (path + head.strip()).partition(" as ")
        whole = whole.removesuffix("::self")
        return [(alias or re.split(r"::|\.", whole)[-1], whole)]
    parts = re.findall(r"(?:[^,{}]|\{(?:[^{}]|\{[^{}]*\})*\})+", inner.rpartition("}")[0])
    return [it for part in parts if part.strip() for it in imports(part, path + head.strip())]


def exports(tree, visible="pub"):
    """The names that a use item hands on, each with what says so. All that stands in a module goes by no name."""
    return [("use", {*name.split("*")} - {""}, f"{visible} use {path} as {name}") for name, path in imports(tree)]


def words_of(text):
    return {*re.findall(r"\w+", text)}


def trait_of(header):
    """The name of a trait, of whose block this is the header; else none."""
    return header[header.index("trait") + 1] if "trait" in header else ""


def stated_by(item):
    """The name of the type or the constant that an item is, if so."""
    kinds = [at for at, it in enumerate(item[:-1]) if it in ("struct", "enum", "const", "static", "type")]
    return {item[kinds[0] + 1]} if kinds else set()


def implementer(text):
    """The name of the type that an impl block is of, by its text after `impl`, or from the type on; none if it is of no type with a name."""
    words, depth = text.replace("- >", "").split(), 0
    for at, it in enumerate(words):
        if depth == 0 and it != "<":
            while words[at + 1 : at + 3] == [":", ":"]:
                at += 3
            return {*words[at : at + 1]} if re.fullmatch(r"\w+", words[at]) else set()
        depth += {"<": 1, ">": -1}.get(it, 0)
    return set()


def implemented(text):
    """The trait that an item implements, if it is of an impl block of one, and the item's text without that."""
    head, is_of_trait, rest = text.partition(" for ")
    if not is_of_trait or not re.match(r"(unsafe )?impl\b", head) or "fn" in head.split():
        return "", text
    depth = 0
    for found in reversed([*re.finditer(r"[<>]|\w+", head.replace("- >", "--"))]):
        depth += {">": 1, "<": -1}.get(found[0], 0)
        if depth == 0 and found[0] != "<":
            return found[0], head[: found.start()] + head[found.end() :] + rest
    return "", text


def block_of(header):
    """How symbols begin that name what stands in an impl block: by its type and trait, without parameters."""
    depth, flat = 0, ""
    for it in header.replace("->", ""):
        depth += it == "<"
        flat += it if depth == 0 else ""
        depth -= it == ">"
    trait, _, of = flat.partition(" for ")
    words = re.findall(r"&|\[|\(\)|(?<!')\b\w\w+", f"{of} {trait}".partition(" where ")[0])
    return "".join({"&": "Ref", "[": "Slice", "()": "Unit"}.get(it, it) for it in words).lower()


def used_in(text, used):
    """What the imports bring that the text names."""
    words = words_of(text)
    # (an operator's name has a sign at the place of each argument)
    is_named = lambda name: all(it in words if re.fullmatch(r"\w+", it) else it in text for it in name.split("◌"))
    return sorted(f"use {path} as {name}" for name, path in used if name == "*" or is_named(name))


def defined(lines):
    """The names that lines of definitions define, with those of fields and constructors; none where there is an operator."""
    heads = [plain(it).partition(" : ")[0] for it in lines if " : " in plain(it) and not plain(it).startswith("module ")]
    names = {it for head in heads if "=" not in head for it in words_of(re.split(r"[({]", head)[0])} - {"pub", "abbrev", "unfoldable", "record", "data"}
    return set() if any(re.match(r"((abbrev|pub|private) )*\S*◌|infix", plain(it)) for it in lines) else names


def definitions(text):
    """What a file of definitions states, part by part as blank lines divide it: each with the `module` line above it and the imports that it names."""
    used, around, parts = [], "", []
    for part in re.split(r"\n\s*\n", text):
        lines = [it for it in part.split("\n") if it.strip() and not re.match(SILENT, plain(it))]
        used += [it for line in lines if line.startswith("use ") for it in imports(plain(line)[4:].replace(".{", "::{"))]
        used += [("*", plain(line)) for line in lines if line.startswith("pub use ")]
        lines = [it for it in lines if not it.startswith(("use ", "pub use "))]
        if not lines:
            continue
        indent = len(lines[0]) - len(lines[0].lstrip())
        if indent > 2 * bool(around):  # what stands above it goes on
            parts[-1] += lines
            continue
        around = around if indent else ""
        parts.append([around, *lines])
        around = next((it for it in lines if it.startswith("module ")), around)
    sizes = [name for name, path in used if path == f"{SIZES}::{name}"]
    texts = [with_numbers("\n".join(plain(it) for it in lines if it), sizes) for lines in parts]
    handed = [("is", *it[1:]) for name, line in used if name == "*" for it in exports(line.removeprefix("pub use ").replace(".{", "::{"))]
    return [("is", defined(lines), "\n".join([it, *used_in(it, used)])) for lines, it in zip(parts, texts)] + handed


class Statements:
    """What a source file states: what is kept of its text, item by item, what it exports by `use`, the places, names and blocks of its functions, and the
    modules that it names. A function with a body that stands in an impl block or a trait is an item with the block's header, and so is each clause that it
    ensures; what else stands there is one. An item has the names that lead to it, if no other way does."""

    def __init__(self, text):
        self.text, self.kept, self.exported, self.functions, self.modules, self.used, self.block = text, [], [], [], [], [], ""
        # The items so far, the place in `kept` at which the next begins and at which its body does, its open brackets, and the block around it: its header
        # and what else it states.
        self.items, self.begun, self.body, self.depth, self.around, self.lengths = [], 0, 0, 0, None, []
        at = 0
        while found := TOKEN.match(text, at):
            at = found.end()
            if not found["gap"] and not found[0].startswith(("//", "/*")):
                at = self.item(found[0], found.start(), at)
                self.divide(found[0])
        self.sizes = [name for name, path in self.used if path == f"{SIZES}.{name}"]
        self.kept = [with_numbers(it, self.sizes) for it in self.kept]
        self.kept += used_in(" ".join(self.kept), self.used)
        self.items = [(*named, with_numbers(" ".join(it), self.sizes)) for *named, it in self.items]
        self.items = [(*named, "\n".join([it, *used_in(it, self.used)])) for *named, it in self.items]

    def divide(self, token):
        """Ends an item after the token that was read, if it ends there."""
        self.depth += BRACKETS.get(token, 0) if self.kept[-1:] == [token] else 0
        item = self.kept[self.begun :]
        words = {*item[: item.index("{")]} if "{" in item else {*item}
        if token == "{" and self.depth == 1 and not self.around and words & {"impl", "trait"}:
            self.around, self.depth = (item[:-1], []), 0
        elif self.depth < 0:  # the block's end
            if self.around[1] or {"for", "trait"} & {*self.around[0]}:
                self.items.append(("is", {trait_of(self.around[0])} - {""}, [*self.around[0], *self.around[1], *item]))
            self.around, self.depth = None, 0
        elif token == "fn" and self.depth == 0:
            self.divide_function(item, self.around[0] if self.around else [])
        elif item and self.depth == 0 and (token in ";}" or re.fullmatch(CLAUSE, token)):
            self.around[1].extend(item) if self.around else self.items.append(("is", stated_by(item), item))
        else:
            return
        self.begun = len(self.kept)

    def divide_function(self, item, around):
        """Adds the items of a function: that of each clause which it ensures, and that of what else it states."""
        name = item[item.index("fn") + 1]
        by_name = {name}
        is_ensured = lambda at: re.match(r"ensures\b", item[at]) and at < self.body - self.begun
        self.items.append(("fn", by_name, [*around, *(it for at, it in enumerate(item) if not is_ensured(at))]))
        self.items += [("fn", by_name, [*around, "fn", name, it]) for at, it in enumerate(item) if is_ensured(at)]

    def item(self, token, start, end):
        """Reads what begins with a token outside bodies, and returns where it ends."""
        if token == "#":
            return self.attribute(end)
        imported = re.compile(r"\s*use\b" if token == "ghost" else "").match(self.text, end)
        if token == "use" or token == "ghost" and imported:
            return self.imported(imported.end())
        if re.fullmatch(CLAUSE, token):
            end = clause_end(self.text, end)
        if token == "impl":
            self.block = block_of(self.text[end : self.text.find("{", end)])
        named = re.compile(r"\s+(\w+)\s*(;?)").match(self.text, end)
        if token == "trait" and named:
            self.block = named[1].lower()
        if token == "mod" and named and named[2]:
            self.modules.append(named[1])
            self.taken_visibility()
            return named.end()
        self.kept.append(plain(self.text[start:end]))
        return self.function(start, end, named[1]) if token == "fn" and named else end

    def attribute(self, at):
        end = closing(self.text, at, [], "]")
        said = plain(self.text[at:end]).lstrip("!")
        if said in ("[cfg(test)]", "[test]"):
            return closing(self.text, end, [], "};")
        if not said.startswith(("[tactic(", "[inline")):
            self.kept.append(said)
        return end

    def imported(self, at):
        end = self.text.index(";", at)
        tree = plain(self.text[at:end])
        if visible := self.taken_visibility():
            self.exported += exports(tree, visible)
        else:
            self.used += imports(tree)
        return end + 1

    def taken_visibility(self):
        """Takes back the `pub` or `pub(crate)` that was kept last."""
        for length in (1, 4):
            taken = "".join(self.kept[-length:])
            if re.fullmatch(r"pub(\((crate|super)\))?", taken):
                del self.kept[-length:]
                return taken
        return ""

    def function(self, start, at, name):
        """Keeps a function's header with its clauses, and passes over its body, but for the clauses of closures."""
        depth, self.body, body = 0, len(self.kept), False
        while found := TOKEN.match(self.text, at):
            at = clause_end(self.text, found.end()) if re.fullmatch(CLAUSE, found[0]) else found.end()
            depth += BRACKETS.get(found[0], 0) if found[0] != "{" else 0
            self.body = len(self.kept)
            if found[0] == "{":
                body, at = True, closing(self.text, found.start(), self.kept, "}")
                break
            if not found["gap"] and not found[0].startswith(("//", "/*")):
                self.kept.append(plain(self.text[found.start() : at]))
            if found[0] == ";" and depth == 0:
                break
        self.functions.append((self.text.rfind("\n", 0, start) + 1, at, name, self.block))
        self.lengths.append(sum(bool(re.match(r"\s*(?!//)\S", it)) for it in self.text[start:at].split("\n")) if body else 0)
        return at

    def block_around(self, at):
        """The header of the impl block or trait in which a place stands."""
        found = [it for it in re.finditer(r"(?m)^(?:pub |unsafe )*(?:impl|trait)\b[^{]*|^\}", self.text[:at])]
        return found[-1][0] if found else ""

    def function_at(self, at):
        """The place in the list of the function around a place in the text."""
        return next((number for number, (start, end, *_) in enumerate(self.functions) if start <= at < end), None)

    def function_text(self, at):
        """What the function around a place says, without comments and gaps, and without what it ensures, clause by clause an item of its own."""
        at, end = next((it[:2] for it in self.functions if it[0] <= at < it[1]), (0, 0))
        said = []
        while at < end and (found := TOKEN.match(self.text, at)):
            at = clause_end(self.text, found.end()) if found[0] == "ensures" else found.end()
            if not found["gap"] and not found[0].startswith(("//", "/*", "ensures")):
                said.append(found[0])
        return with_numbers(" ".join(said), self.sizes)
