#!/usr/bin/env python3
"""Looks that the sizes of a tree are said by their names (crates/fc_base/specs/Sizes.antt; in code by a constant), and tells each number in the place of one.
Needed where it tells a number: that gets the size's name, or a reason.

In the crates of the tree it looks at every line of code, clauses, definitions and proofs, for each size, one more, one less, and twice it. In the code of
tests it looks at clauses, at types with a length, and at comparisons of lengths, for the sizes alone; in their proofs at every line.
A number that has to stay has its reason in a comment with the words 'by number', on its line or above it in the same paragraph.

Not looked at: 3 and 4, which moves add to a length; a constant's own line; hand proofs about the cells of a list, which name places
(fc_tree_slots/proofs/raw); what the toolchain makes of types (specs/formers); in tests the keys, values and costs of a worked row."""
import pathlib
import re
import sys

TREE = """fc_base fc_tree_slots fc_tree_node fc_tree_search fc_tree_insertion fc_tree_removal fc_tree_split fc_tree_cursor fc_map_iter fc_tree_for_each fc_tree_copy
fc_tree_build fc_tree_append fc_map fc_set""".split()
TESTS = "test_node test_tree test_map test_keys test_whole_trees probe_map probe_set probe_rows".split()
NAMED = {"fc_base/specs/Sizes.antt"}
PLACES = "fc_tree_slots/proofs/raw/"

top = pathlib.Path(__file__).resolve().parent.parent / "crates"
named = {name: int(n) for name, n in re.findall(r"(?m)^(\w+) = (\d+)$", (top / "fc_base/specs/Sizes.antt").read_text(encoding="utf-8"))}
near = {n for size in named.values() for n in (size - 1, size, size + 1, 2 * size) if n > 4}
lengths = {n for name, n in named.items() if "moves" not in name and "comparisons" not in name}


def one_of(numbers):
    return r"(?<![\w.\-])(?:" + "|".join(map(str, sorted(set(numbers)))) + r")(?![\w.])"


ANY = re.compile(one_of(near))
CLAUSE = re.compile(r"\s*(?:requires|ensures|ghost (?!use))")
COST = re.compile(r"\b(?:moves|comparisons) [≡≤] \d+")
IN_CLAUSE = re.compile(one_of(named.values()))
LENGTH = re.compile(r"(?:\b(?:len|child_count)\(\) (?:==|!=|<=?|>=?) |\b(?:Slots|Children|ArrayVec)<[^;]*, |\[[^][]*; )(?=" + one_of(lengths) + r")(\d+)")
CONSTANT = re.compile(r"\s*(?:pub(?:\(crate\))? )?const \w+: \w+ =")


def bare(line, is_code):
    """The line without its comment, texts and a constant's value."""
    if not is_code:
        return "" if line.startswith("use ") else line.split("--")[0]
    line = re.sub(r'"(?:\\.|[^"\\])*"', '""', line).split("//")[0]
    return "" if CONSTANT.match(line) else line


def found_in(path, is_test):
    """The lines of a file with a number that has no reason, and the number."""
    is_code = path.suffix == ".rt"
    mark, has_reason = ("//" if is_code else "--"), False
    for at, line in enumerate(path.read_text(encoding="utf-8").splitlines(), 1):
        has_reason = bool(line.strip()) and (has_reason or mark in line and "by number" in line)
        text = bare(line, is_code)
        if has_reason:
            continue
        if not is_test:
            numbers = ANY.findall(text)
        elif CLAUSE.match(text):
            numbers = IN_CLAUSE.findall(COST.sub("", text))
        else:
            numbers = LENGTH.findall(text)
        yield from ((at, number) for number in numbers)


wrong = []
for crate in [*TREE, *TESTS]:
    is_test = crate in TESTS
    for path in sorted([*top.glob(f"{crate}/src/**/*.rt"), *top.glob(f"{crate}/specs/*.antt"), *top.glob(f"{crate}/proofs/**/*.antt")]):
        name = str(path.relative_to(top))
        if name not in NAMED and not name.startswith(PLACES):
            wrong += [f"{name}:{at} says {number}" for at, number in found_in(path, is_test and path.suffix == ".rt")]
if wrong:
    print("\n".join(wrong[:20]))
    print(f"{len(wrong)} numbers in the place of a size")
sys.exit(1 if wrong else 0)
