"""Quotations: what stands in a block of code after one of the marks that tools/pages.py has in its head. Needed where a mark is new, or the sources have
another form."""
import functools
import re
import sys

from paging.sources import calls_in, handed_on, is_inner, read, top
from surface import COUNTED, Call, call_at, clause, function, whole_item

QUOTATION = re.compile(r"(?sm)(<!-- (code|body|proved|caller|imports|contracts|counted|clauses|literal|lines|file): ([^\n]+?) -->\n```\w*\n).*?^```$")


def functions(path, names, keeps_clauses):
    """The functions of these names, each from its line to its closing brace, moved to the left."""
    texts, lines = [], read(path)
    for name in names:
        starts = [i for i, line in enumerate(lines) if (it := function.match(line.strip())) and it[1] == name]
        if len(starts) != 1:
            sys.exit(f"tools/pages.py: {path} has {len(starts)} functions {name}")
        start = starts[0]
        indent = len(lines[start]) - len(lines[start].lstrip())
        end = next(i for i in range(start, len(lines)) if lines[i] == " " * indent + "}")
        while keeps_clauses and lines[start - 1].strip().startswith("#[tactic"):
            start -= 1
        kept = [line[indent:] for line in lines[start : end + 1] if keeps_clauses or not clause.match(line.strip())]
        text = "\n".join(kept)
        if not keeps_clauses:
            text = re.sub(r"\n\{\n", " {\n", text, count=1)
            text = re.sub(r"^pub ", "", text)
        texts.append(text)
    return "\n\n".join(texts)


@functools.cache
def trait_calls():
    """The calls of each of the library's traits, which want the trait imported."""
    found = {}
    for file in top.glob("crates/fc_*/src/**/*.rt"):
        for it in calls_in(str(file.relative_to(top))):
            if isinstance(it, Call) and (trait := re.match(r"(?:pub )?trait (\w+)", it.owner)):
                found.setdefault(trait[1], []).append(it.name)
    return found


def handed_words(file):
    """The names that a file of `fallible_collections` hands on, without other names that it gives them, by the module that has them."""
    return {module: {it for it in names if " as " not in it} for module, names in handed_on(f"crates/fallible_collections/{file}").items()}


def words_of_maps():
    """The words that `fc_laws` hands on."""
    return {it for names in handed_on("crates/fc_laws/specs/Words.antt").values() for it in names}


MODULES = {"fc_map::map": "btree::map", "fc_set::set": "btree::set", "fc_vec::vec": "vec", "fc_hash::hashmap": "hashmap", "fc_command::command": "command", "fc_base": ""}


def as_users_write(path, name, crate):
    """The path of an import, as a crate writes it that names this crate, `fallible_collections` or `fc_map`."""
    if crate == "fc_map":
        if path.startswith("ghost use "):
            return path if path.startswith("ghost use Rattle.std.") or name not in words_of_maps() else "ghost use Rattle.fc_laws.specs.Words."
        return re.sub(r"^use fallible_collections::(btree::(?:map::)?)?", lambda it: "use fc_map::map::" if it[1] else "use fc_base::", path)
    if path.startswith("ghost use "):
        module = path.removeprefix("ghost use ").rstrip(".")
        of = [("specs.Words", "specs/Words.antt"), ("proofs.Laws", "proofs/Laws.antt")]
        return next((f"ghost use Rattle.fallible_collections.{it}." for it, file in of if name in handed_words(file).get(module, ())), path)
    module = path.removeprefix("use ").rstrip(":")
    if name in ("BTreeMap", "BTreeSet") and module in ("fc_map::map", "fc_set::set"):
        return "use fallible_collections::btree::"
    if module not in MODULES or module == "fc_base" and not re.search(rf"\b{name}\b", (top / "crates/fallible_collections/src/lib.rt").read_text()):
        return path
    return "use " + "::".join(it for it in ("fallible_collections", MODULES[module]) if it) + "::"


def imports(path, text, crate="fallible_collections"):
    """The names that a text of a file takes from the imports of the file, by what they are imported from."""
    found_at, lines = {}, text.splitlines()
    said_in_clauses = "\n".join(whole_item(lines, at)[0] for at, it in enumerate(lines) if clause.match(it.strip()))
    for found in re.finditer(r"(?ms)^((?:ghost )?use [\w:.]+(?:::|\.))(\{[^}]*\}|\w+);", (top / path).read_text()):
        names = [it.strip() for it in found[2].strip("{}").split(",") if it.strip()]
        said = [(it, it.replace("self", re.split(r"::|\.", found[1].rstrip(":."))[-1])) for it in names]
        looked_at = said_in_clauses if found[1].startswith("ghost") else text
        used = [it for it, name in said if (re.search(rf"(?<![\w.]){re.escape(name)}(?!\w)", looked_at) if re.match(r"\w", name) else re.sub("^◌|◌$", " ", name) in looked_at)]
        used += [it for it in names if it not in used and any(re.search(rf"(\.|::){call}\(", text) for call in trait_calls().get(it, []))]
        for it in used:
            found_at.setdefault(as_users_write(found[1], it, crate), []).append(it)
    return found_at


def import_lines(*each):
    """The lines of imports in the layout: std's words, the library's, and then Rust's names."""
    found_at = {}
    for at, names in (it for found in each for it in found.items()):
        found_at.setdefault(at, []).extend(it for it in names if it not in found_at.get(at, ()))
    of_std = [f"{at}{{{', '.join(names)}}};" for at, names in found_at.items() if at.startswith("ghost use Rattle.std.")]
    ghosts = [f"{at}{{{', '.join(names)}}};" for at, names in found_at.items() if at.startswith("ghost use ") and not at.startswith("ghost use Rattle.std.")]
    sorts = lambda names: sorted(names, key=lambda it: (it != "self", it))
    uses = sorted(f"{at}{{{', '.join(sorts(names))}}};" if len(names) > 1 else f"{at}{names[0]};" for at, names in found_at.items() if at.startswith("use "))
    return "\n\n".join("\n".join(it) for it in ([*of_std, *ghosts], uses) if it)


def page_imports(crate, below):
    """The imports of all functions that are quoted below on a page, up to the next such imports."""
    pieces = re.findall(r"(?m)^<!-- proved: (\S+) ([^\n]+) -->$", re.split(rf"(?m)^<!-- imports: {crate} -->$", below)[0])
    return import_lines(*(imports(path, functions(path, names.split(), True), crate) for path, names in pieces))


def signatures(path, is_shown=lambda it: True):
    """Those public functions of a file that are shown, with their clauses, under the line of their impl or trait, which stands once for those in a row. A
    counted form, and any other that follows the function whose name it lengthens, tells what it promises beside that one."""
    shown, last, owner_before, before = [], None, "", None
    for it in calls_in(path):
        if isinstance(it, Call) and is_inner(it):
            continue
        owner = it[0]
        owner_before, before = owner, before if owner == owner_before else None
        clauses, ahead = (it.clauses, []) if isinstance(it, Call) else ([it[1]], [])
        if isinstance(it, Call):
            if before and it.name.startswith(before.name + "_") and before.clauses and all(each in clauses for each in before.clauses):
                ahead = [f"    all that {before.name} asks and promises, and"]
                clauses = [each for each in clauses if each not in before.clauses]
            else:
                before = it
            ahead.insert(0, "  " * bool(owner) + it.line)
        if not is_shown(it):
            continue
        if owner != last:
            shown += ["", owner] if owner else [""] * (last is not None)
            last = owner
        shown += [*ahead, *("    " + each for each in clauses)]
    return shown


def is_counted(call):
    """Whether a call is the counted form of another, by comparisons and moves or by requests as well."""
    return isinstance(call, Call) and call.name.endswith(COUNTED)


def contracts_of(text):
    """The files whose contracts a page quotes."""
    return [path for found in re.findall(r"(?m)^<!-- contracts: (.+) -->", text) for path in found.split()]


def calls_quoted(text):
    """The calls, and the ghost members of traits, that a page quotes with their clauses."""
    plain_ones = [it for path in contracts_of(text) for it in calls_in(path) if not is_counted(it)]
    pages = [page for page in re.findall(r"(?m)^<!-- counted: (.+) -->", text)]
    return plain_ones + [it for page in pages for path in contracts_of("\n".join(read(page))) for it in calls_in(path) if is_counted(it)]


def clauses_of(path, name, wanted):
    """The first line of a function, and those of its clauses that have these names."""
    lines = read(path)
    starts = [at for at, line in enumerate(lines) if (it := function.match(line.strip())) and it[1] == name]
    if len(starts) != 1:
        sys.exit(f"tools/pages.py: {path} has {len(starts)} functions {name}")
    call, _ = call_at(lines, starts[0], "", name)
    named = {re.match(r"\w+\*? ?(\w*)", it)[1]: it for it in call.clauses}
    if lacking := [it for it in wanted if it not in named]:
        sys.exit(f"tools/pages.py: {name} of {path} has no clause {lacking[0]}")
    return "\n".join([call.line, *("    " + named[it] for it in wanted)])


def literal(path, name):
    """The text of a constant of this name, which has no escapes."""
    found = re.search(rf'const {name}: &str = "([^"\\]*)";', "\n".join(read(path)))
    if not found:
        sys.exit(f"tools/pages.py: {path} has no constant {name}")
    return found[1].rstrip("\n")


def quoted(kind, words, below):
    if kind == "imports":
        return page_imports(words[0], below)
    if kind == "body":
        body = functions(words[0], words[1:], True).partition("\n{\n")[2].splitlines()[:-1]
        return "\n".join(line[4:] for line in body)
    if kind == "literal":
        return "\n\n".join(literal(words[0], name) for name in words[1:])
    if kind == "file":
        return "\n".join(read(words[0]))
    if kind == "lines":
        return b"\n".join((top / words[0]).read_bytes().split(b"\n")[int(words[1]) - 1 : int(words[2])]).decode()
    if kind == "clauses":
        return clauses_of(words[0], words[1], words[2:])
    if kind == "contracts":
        return "\n".join(it for path in words for it in signatures(path, lambda it: not is_counted(it))).strip("\n")
    if kind == "counted":
        return "\n".join(it for path in contracts_of("\n".join(read(words[0]))) for it in signatures(path, is_counted)).strip("\n")
    text = functions(words[0], words[1:], kind in ("proved", "caller"))
    if kind != "caller":
        return text
    taken = import_lines(imports(words[0], text))
    laws = handed_words("proofs/Laws.antt")
    text = re.sub(r"\b(fc_\w+)::proofs::(\w+)::(\w+)", lambda it: f"fallible_collections::proofs::Laws::{it[3]}" if it[3] in laws.get(f"Rattle.{it[1]}.proofs.{it[2]}", ()) else it[0], text)
    return f"{taken}\n\n{text}"
