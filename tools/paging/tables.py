"""The tables that tools/pages.py writes between marks: calls of a page, words of its contracts, what stands for calls of std's, and what crates are and
promise. Needed where a table is new, or a call hands something else back."""
import functools
import re

from paging.quoted import calls_quoted
from paging.sources import below, calls_in, handed_on, here, is_inner, read, top, uses, wrong
from surface import COUNTED, COUNTED_FORMS, Call, clause, plain


def parameters(line):
    """The names of a function's parameters but for self, as a caller writes them."""
    inside = re.sub(r"^.*?fn \w+", "", line)
    while re.match(r"\s*<", inside):
        depth, at = 0, 0
        for at, each in enumerate(inside):
            depth += (each == "<") - (each == ">" and inside[at - 1] != "-")
            if depth == 0 and each == ">":
                break
        inside = inside[at + 1 :]
    depth, names, word = 0, [], ""
    for at, each in enumerate(inside):
        depth += (each in "(<[") - (each in ")]" or each == ">" and inside[at - 1] != "-")
        if depth == 0:
            break
        word = "" if depth == 1 and each in "(," else word + each
        if depth == 1 and each == ":" and word.count(":") == 1:  # and not that of a path in the type
            names.append(word.rstrip(":").strip().removeprefix("mut "))
    return ", ".join(names)


BACK = {"K, V": "the key and the value come back", "T, V": "the time and the value come back", "K": "the key comes back", "V": "the value comes back", "T": "the item comes back", "K, V, L, W": "all four come back"}


def comes_back(line):
    """What a refused call hands back, by its type, as the table of calls tells it."""
    found = re.search(r"-> Result<.*, \(([\w, ]+), TryReserveError\)>(?: where .*)?$", line)
    return f"; refused, {BACK[found[1]]}" if found else ""


def row_of_call(call, main):
    """The row of a call in the table of calls: its name and parameters, what is said of it, and how it is refused."""
    of = plain(call.owner).rpartition(" for ")[2].strip("&' ")
    name = f"{call.name}({parameters(call.line)})" if of in ("", main) else f"{of}::{call.name}({parameters(call.line)})"
    back = comes_back(call.line).removeprefix("; refused, ")
    errors = "; ".join([call.errors] * bool(call.errors) + [back] * (bool(back) and not re.search("comes? back", call.errors)))
    cell = lambda text: text.replace("|", "\\|")
    return f"| `{name}` | {cell(call.said)} | {cell(errors)} |"


def calls_of_page(text):
    """The table of calls: for each group of contracts, under its heading, what the comment above each function says, but for what upstream has in its place."""
    rows, main, forms = ["| Call | What it does | Refused |", "|---|---|---|"], "", set()
    heading = ""
    for line in text.splitlines():
        heading = line.lstrip("# ") if line.startswith("### ") else heading
        if not (found := re.match(r"<!-- contracts: (.+) -->", line)):
            continue
        group = [it for path in found[1].split() for it in calls_in(path) if isinstance(it, Call) and not is_inner(it)]
        main = main or plain(group[0].owner).rpartition(" for ")[2].strip("&' ") if group else main
        forms.update(form for it in group for form in COUNTED if it.name.endswith(form))
        told = [row_of_call(it, main) for it in group if it.said and not it.name.endswith(COUNTED)]
        rows += [f"| **{heading}** | | |"] * bool(told and heading) + told
    rows += [f"| `..{it}` | the call of that name, {COUNTED_FORMS[it]}: [COUNTED.md](COUNTED.md) | |" for it in COUNTED if it in forms]
    return "\n".join(rows)


def taken_with(crate):
    """The crates that `tools/take.py` takes with one: all below it, and with the map the laws on maps."""
    found = below(crate)
    return found | below("fc_laws") if "fc_map" in found and "fc_laws" in uses() else found


def stands(crate):
    """What a crate stands on, and which crates stand on it, by crates.txt."""
    names = lambda found: ", ".join(f"`{it}`" for it in found) or "none"
    under = [it for it in uses().get(crate, ()) if it in uses()]
    above = sorted(it for it, found in uses().items() if crate in found)
    return f"It stands on {names(under) if under else 'no other crate'} of this repository; on it stand {names(above)}."


def crates():
    """What each crate of the library is, by the first sentence of its README."""
    names = [it for it in uses() if it.startswith("fc_") or it == "fallible_collections"]
    said = {it: " ".join(read(f"crates/{it}/README.md")[2:]).split("  ")[0] for it in names}
    return "\n".join(["| Crate | What it is |", "|---|---|", *(f"| `{it}` | {re.split('[.] (?=[A-Z`])', text)[0].removesuffix('.')} |" for it, text in said.items())])


def promises():
    """What is proved of each crate of the library, only tested, or neither, as its README says it. A README that says neither of them is told, if its crate
    has a function."""
    kinds, rows = ("Proved", "Only tested", "Neither"), ["| Crate | Proved | Only tested | Neither |", "|---|---|---|---|"]
    for crate in (it for it in uses() if it.startswith("fc_")):
        text = "\n".join(read(f"crates/{crate}/README.md"))
        said = {kind: " ".join(words.split()) for kind, words in re.findall(r"(?ms)^- \*\*([\w ]+)\*\*: (.*?)(?=\n- |\n\n|\Z)", text)}
        if "Proved" in said:
            rows.append(f"| `{crate}` | " + " | ".join(said.get(kind, "") for kind in kinds) + " |")
        elif any(calls_in(str(it.relative_to(top))) for it in here.files([crate])):
            wrong.append(f"crates/{crate}/README.md does not say what is proved")
    return "\n".join(rows)


def costs():
    """What a proof costs a user: of each example the lines of code, clauses, definitions and proofs."""
    rows = ["| Program | Code | Clauses | Definitions | Proofs |", "|---|---|---|---|---|"]
    for crate in sorted(top.glob("crates/example_*")):
        lines = [it.strip() for file in crate.glob("src/**/*.rt") for it in file.read_text().partition("#[cfg(test)]")[0].splitlines()]
        clauses = [it for it in lines if clause.match(it) or it.startswith("ghost invariant")]
        code = [it for it in lines if it and not it.startswith(("//", "ghost ", "#![")) and not clause.match(it)]
        count = lambda pattern: sum(len(it.read_text().splitlines()) for it in crate.glob(pattern) if it.name != "Lib.antt")
        rows.append(f"| `{crate.name}` | {len(code)} | {len(clauses)} | {count('specs/*.antt')} | {count('proofs/**/*.antt')} |")
    return "\n".join(rows)


@functools.cache
def proved_by_hand():
    """The functions that have a proof written by hand: crate, module and name of each."""
    found = [it.relative_to(top / "crates").parts for it in top.glob("crates/fc_*/proofs/**/Proof.antt")]
    return {(it[0], it[2], it[-2]) for it in found if it[-2] != "TheLaw"}


def by_hand():
    """The functions that have a proof written by hand, file by file."""
    rows = ["| File | Proved by hand |", "|---|---|"]
    for file in sorted(top.glob("crates/fc_*/src/**/*.rt")):
        crate, _, module, *_ = file.with_suffix("").relative_to(top / "crates").parts
        named = re.findall(r"(?m)^ *(?:pub |pub\(crate\) )?(?:unsafe )?fn (\w+)", file.read_text())
        names = [f"`{it}`" for it in named if (crate, module, it) in proved_by_hand()]
        rows += [f"| `{file.relative_to(top / 'crates')}` | {', '.join(names)} |"] * bool(names)
    return "\n".join(rows)


@functools.cache
def words_handed_on():
    """The words of fallible_collections.specs.Words, and where each word of the library's definitions stands."""
    known = {name for names in handed_on("crates/fallible_collections/specs/Words.antt").values() for it in names for name in it.split(" as ")}
    there = {}
    for file in sorted(top.glob("crates/fc_*/specs/*.antt")):
        text = file.read_text()
        for it in re.findall(r"(?m)^ *(?:abbrev |record |data )*pub (?:abbrev |record |data )*([A-Za-z]\w+)\b", text):
            if re.search(rf"(?m)^ *(?:pub )?(?:(?:record|data) (?:pub )?{it}\b|{it}\b[^:]* = )", text):  # and no field of a record
                there.setdefault(it, f"Rattle.{file.parent.parent.name}.specs.{file.stem}")
    return known, there


def words_of_page(text):
    """The words of the page's contracts that `Words` does not hand on, with the module that has them."""
    known, there = words_handed_on()
    used, members = set(), set()
    for it in calls_quoted(text):
        if isinstance(it, Call) and is_inner(it):
            continue
        members |= set() if isinstance(it, Call) else {*re.findall(r"^ghost (\w+)", it[1])}
        said = " ".join(re.sub(r"^\w+\*? *\w* *\{", "", each) for each in it.clauses) if isinstance(it, Call) else it[1].partition("=")[2]
        bound = {*re.findall(r"\w+", " ".join(re.findall(r"λ ([^.]*)\.", said))), *re.findall(r"\w+", " ".join(re.findall(r"[({]([\w ]+) :", said)))}
        bound |= {*parameters(it.line).split(", ")} if isinstance(it, Call) else set()
        used |= {*re.findall(r"(?<![.\w])[A-Za-z]\w+(?!\w| =)", said)} - bound
    rows = [f"| `{it}` | `{there[it]}` |" for it in sorted(used - members, key=str.lower) if it in there and it not in known]
    if not rows:
        return "Every word above is one of `fallible_collections.specs.Words`, of std, or bound in its clause."
    return "\n".join(["| Word that `Words` has not | Its module |", "|---|---|", *rows])


def may_be_refused(line):
    """Whether what a call answers, by its first line, may be a refusal."""
    return re.search(r"-> .*(TryReserveError|AllocError|ServeError|io::Result|Reply\b)", line)


def named_call(name, types):
    """A public call by its name in tools/std.txt, of the type before it or else of those of its table."""
    of, _, last = name.rpartition("::")
    found = [it for each in ([of] if of else [*types, ""]) if (it := here.public_calls.get(each, {}).get(last))]
    if not found:
        wrong.append(f"tools/std.txt names {name}, which is no public call")
    return found[0] if found else Call("", last, "", [], "")


def row_of_std(line, types):
    """The row of a line of tools/std.txt that tells what stands for a call of std's."""
    ahead, _, note = line.partition(" | ")
    std, sign, ours = re.fullmatch(r"(.*?) (==?)(?: (.*))?", ahead).groups()
    shown, back = [], ""
    for name, given in re.findall(r"([\w:]+)(\((?:[^()]|\(\))*\))?", ours or ""):
        call = named_call(name, types)
        back = back or comes_back(call.line).removeprefix("; ")
        shown.append(f"`{name}{given or f'({parameters(call.line)})'}{'?' * bool(may_be_refused(call.line))}`")
    cells = [", ".join(it if it == ".." else f"`{it}`" for it in re.split(r", (?![^()]*\))", std)), "the same" if sign == "==" else ", ".join(shown) or "none", note or back]
    return "| " + " | ".join(cells) + " |"


def table_of_forms(title, lines):
    """The table of forms that are refused, or do another thing than one thinks: what is written, what stands for it, and what tells it."""
    rows = [re.fullmatch(r"(.*?) => (.*?)(?: \| (.*))?", it).groups() for it in lines]
    made = [f"| {written} | {instead} | {told or ''} |" for written, instead, told in rows]
    return "\n".join([f"## {title}", "", "| Written | Here | What the compiler says, or why |", "|---|---|---|", *made])


def table_of_std(section):
    """The table of one of std's types, by its lines in tools/std.txt."""
    head, *lines = section.strip().splitlines()
    title, _, types = head.removeprefix("== ").partition(": ")
    if any(" => " in it for it in lines):
        return table_of_forms(title, lines)
    types = types.split()
    rows, same, none = [], [], []
    for line in lines:
        if line.startswith("- "):
            none += line.removeprefix("- ").split()
        elif " = " in line or " == " in line:
            rows.append(row_of_std(line, types))
        else:
            same += [named_call(name, types) for name in line.split()]
    of = lambda found: ", ".join(f"`{it}`" for it in found)
    refused = [it.name for it in same if may_be_refused(it.line)]
    ahead = [f"| {of([it.name for it in same if it.name not in refused])} | the same | |"] * (len(same) > len(refused)) + [f"| {of(refused)} | the same, with `?` | |"] * bool(refused)
    return "\n".join([f"## {title}", "", "| std's call | Here | |", "|---|---|---|", *ahead, *rows, *[f"| {of(none)} | none | |"] * bool(none)])


def from_std():
    """The tables of what stands here for each call of std's collections, by tools/std.txt."""
    return "\n\n".join(table_of_std(it) for it in (top / "tools/std.txt").read_text().split("\n\n")[1:])


NAMED = "BTreeMap|BTreeSet|TryVec|TryHashMap|TryHashSet|TryBox|Budget|SharedBudget|Cache|IntervalMap|Table|TimerQueue"  # what users name


def bytes_of_types():
    """The bytes of each type by itself, as tests ask them: with `Global`, and where it takes its memory of a budget."""
    asked = [it for file in sorted(top.glob("crates/test_*/src/**/*.rt")) for it in re.findall(rf"size_of::<((?:{NAMED})<.*>)>\(\) == (\d+)\)", file.read_text())]
    within = {text.replace(", &Budget<Global>>", ">"): count for text, count in asked if "&Budget" in text}
    rows = [f"| `{text}` | {count} | {within.get(text, '')} |" for text, count in asked if "&Budget" not in text]
    wrong.extend(["docs/USING.md: no test asks the bytes of a type"] * (not rows))
    return "\n".join(["| Type | Bytes | With `&Budget<Global>` |", "|---|---|---|", *rows])
