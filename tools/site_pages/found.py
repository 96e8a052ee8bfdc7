"""What the search of the site finds: names with where they lead, texts, and std's names that have another here. Needed where a name is not found, or is not
the first."""
import re

from . import markdown

# What users name, and what they get of these.
FIRST = ["BTreeMap", "BTreeSet", "TryVec", "TryHashMap", "TryHashSet", "Budget", "IntervalMap", "TimerQueue", "Table", "Cache", "FallibleVec"]
LAST = ["Entry", "OccupiedEntry", "VacantEntry", "ReadyEntry"]
FROM_STD = "docs/FROM_STD.md"
PLAIN = ("README.md", "docs/")  # the pages whose texts are looked into


def row_id(heading, cell):
    """The address of a row of the page of std's calls, by the name that it begins with."""
    name = re.search(r"\w+", re.sub(r".*\(\.\.\)\.|.*::", "", cell.split("`")[1] if "`" in cell else cell))
    return f"std.{heading}.{name[0]}" if name else ""


def names_of(cell):
    """The names of std's that a row's first cell has."""
    for code in re.findall(r"`([^`]+)`", cell):
        plain = re.sub(r".*\(\.\.\)\.|.*::|[(\[].*", "", code.replace("\\|", "|"))
        if re.fullmatch(r"\w+", plain):
            yield plain


def std_names(site):
    """An entry for each of std's names that stands for another here, or for none: to its row."""
    page, heading = site.guides[FROM_STD], ""
    for line in (site.top / FROM_STD).read_text().splitlines():
        heading = line.removeprefix("## ") if line.startswith("## ") else heading
        cells = [it.strip() for it in re.split(r"(?<!\\)\|", line)[1:-1]] if line.startswith("| `") else []
        if not cells or cells[1].startswith("the same"):
            continue
        here = re.sub(r"[`*]", "", cells[1].replace("\\|", "|"))
        anchor = row_id(markdown.slug(heading, {}), cells[0])
        for name in names_of(cells[0]):
            yield [name, f"std's {heading.split(',')[0]}: here {here}", f"{page}#{anchor}", "std", 0, ""]


def sections(site):
    """The sections of the pages: each by its heading, with its text."""
    for path, page in site.guides.items():
        if not path.startswith(PLAIN):
            continue
        text = re.sub(r"(?ms)<!--.*?-->|^```.*?^```$", "", (site.top / path).read_text())
        taken = {}
        for part in re.split(r"(?m)^(?=#+ )", text):
            heading = re.match(r"#+ (.+)", part)
            if not heading:
                continue
            anchor = markdown.slug(heading[1], taken)
            said = re.sub(r"\[([^\]]*)\]\([^)]*\)", r"\1", heading[1]).replace("`", "")
            yield [said, site.plain_title(path), f"{page}#{anchor}", "guide", 0, plain(part)]


def plain(text):
    """A text without marks, in small letters, as the search looks into it."""
    return " ".join(re.sub(r"[`*|#]|\]\([^)]*\)|\[", " ", text).lower().split())


def weight(entry):
    """How far behind a name stands among those that fit as well: what is of a type that users name comes first."""
    of = entry[1].rpartition("::")[2]
    if " as " in of or entry[3] != "call":
        return 90
    return FIRST.index(of) if of in FIRST else 80 + LAST.index(of) if of in LAST else 50


def entries(site):
    """All that the search finds: a name, where it is, its address, what it is, its weight and a text."""
    named = [[*it, weight(it), plain(site.texts.get(it[2], ""))] for it in site.names if it[3] != "guide"]
    return named + [*std_names(site)] + [*sections(site)]
