#!/usr/bin/env python3
"""Looks for comparisons, moves and requests that would not reach the caller's count, which no contract across crates can refuse. Needed where it tells a
body: that hands its count not on, or compares without one.

Only the calls of `Slots`, and of the cells under it, add moves. A new `Count` is made by public calls that take none, on a caller's behalf, and by those
of OWN. A function that takes a caller's count calls no such function, nor a public one round it, without handing that count on. Keys are compared by
`compare` alone, which counts, but in those of UNCOUNTED. In the tree's crates a request is added just where one is made (MAKES), elsewhere none, and whoever
takes an `Asked` begins no other. Neither of these types, nor what adds to one, goes by another name. Each place where it is otherwise is told, and the status
is 1. Tests and probes are not looked at, and no operator: where `<` stands between two keys is not seen."""
import re
import sys

sys.dont_write_bytecode = True
from wrong_bodies.records import crates
from wrong_bodies.stated import CLAUSE, TOKEN, clause_end

MOVERS = {"fc_base/src/count.rt", "fc_tree_slots/src/cells.rt", "fc_tree_slots/src/cells/moves.rt", "fc_tree_slots/src/slots.rt"}
# What asks for a tree's memory: each such call has its request added beside it, and nothing else adds one.
MAKES = r"\b(?:with_capacity|Cells : : try_new)\b"
# What compares keys without a count: methods, by a dot or their trait.
COMPARES = r"[.:] (?:order_of|cmp|partial_cmp)\b"
UNCOUNTED = {
    # what `compare` counts, and queries are made of
    "fc_base/src/count.rt": {"compare"},
    "fc_base/src/query.rt": {"order_of", "compare_slices"},
    # the searches for the ends of a range, and whether it is one
    "fc_tree_cursor/src/cuts.rt": {"first_not_before"},
    "fc_map/src/map/bounds.rt": {"is_range"},
    # items that ascend, put after the last, whose comparisons no contract tells of
    "fc_tree_build/src/growing.rt": {"is_after"},
    "fc_map/src/map/bulk_insert.rt": {"is_after"},
    "fc_map/src/map/extend.rt": {"is_after_all"},
    "fc_tree_append/src/items.rt": {"step", "pass"},
    "fc_tree_append/src/sorted.rt": {"by_key"},
    "fc_tree_build/src/ordered.rt": {"is_after_all"},
    # items of an index, whose comparisons no contract tells of
    "fc_index/src/edge.rt": {"order_of"},
    "fc_index/src/steps.rt": {"take_out_old"},
    # times of timers, and ranges that are written, or walked over, whose comparisons no contract tells of
    "fc_timers/src/order.rt": {"precedes"},
    "fc_timers/src/slots.rt": {"first_due", "pop_due"},
    "fc_intervals/src/gaps.rt": {"next"},
    "fc_intervals/src/map.rt": {"try_put", "try_cut"},
    "fc_intervals/src/map/handed.rt": {"try_cut_with"},
    "fc_intervals/src/map/joined.rt": {"try_put_joined"},
    "fc_intervals/src/joins.rt": {"joint_end"},
    "fc_intervals/src/steps.rt": {"is_free", "rest_after", "end_at"},
    # collections compared with one another
    "fc_map_iter/src/compare.rt": {"pair_order", "partial_pair_order"},
    "fc_set/src/set/compare.rt": {"partial_cmp", "cmp"},
    "fc_command/src/command/sets.rt": {"compare"},
    "fc_vec/src/vec/try_vec/compare.rt": {"partial_cmp", "cmp"},
}
# Bodies in each of which a part of the above is to be seen.
SEEN = {
    "begins": ["let mine = &mut Count::new();", "let mine = &mut <Count>::new();", "let begin = Count::new; let mine = begin();"],
    "compares": ["query.order_of(key)", "Query::order_of(&query, key)"],
    "asks": ["let mine = &mut Asked::new();", "let begin = Asked::new; let mine = begin();"],
    "makes": ["let list = Vec::with_capacity(alloc, 2)?;", "let cells = Cells::try_new(alloc, 15)?;"],
    "adds": ["add_request(asked);"],
}
# The tree's moves of children, which nobody reads, are counted for nobody.
CHILDREN = {"fc_tree_slots/src/children.rt", "fc_tree_slots/src/children/push.rt"}
OWN = {
    # where the walk over a range without an end begins, whose comparisons nothing promises
    "fc_intervals/src/map/open.rt": {"first_from"},
    # pairs that come into nodes which no map holds yet
    "fc_tree_build/src/spine.rt": {"put_pair"},
    "fc_tree_copy/src/copy.rt": {"try_copy_pairs"},
    # a whole tree is grafted on another, whose moves nothing promises
    "fc_tree_append/src/grafting.rt": {"graft", "graft_below"},
    "fc_tree_append/src/join.rt": {"join", "join_under_root"},
    # pairs asked in turn, and the tree rebalanced after, whose moves nothing promises
    "fc_tree_retain/src/rebalancing.rt": {"join"},
    "fc_tree_retain/src/filtering.rt": {"filter_pair", "filter_separator", "remove_with_separator", "take_last_of_underfull", "take_last_of_unbalanced"},
    # items of an iterator, whose comparisons and moves nothing promises
    "fc_map/src/map/extend.rt": {"put_next", "put_last"},
    # the set operations, whose comparisons of items of two sets nothing promises
    "fc_set/src/set.rt": {"order_of"},
}


class Function:
    def __init__(self, crate, path, text, name):
        self.crate, self.path, self.name, at, said = crate, f"{crate.name}/{path}", name, 0, []
        while found := TOKEN.match(text, at):
            at = found.end()
            if re.fullmatch(CLAUSE, found[0]):
                at = clause_end(text, at)
            elif not found["gap"] and not found[0].startswith(("//", "/*")):
                said.append(found[0])
        body = said.index("{") if "{" in said else len(said)
        header, self.body = " ".join(said[:body]), said[body:]
        self.is_pub = header.startswith(("pub fn ", "fn index "))
        self.counts = {*re.findall(r"(\w+) : & (?:' \w+ )?mut Count\b", header)}
        said = " ".join(self.body)
        self.begins = len(re.findall(r"\bCount (?:> )?: : new\b", said)) if self.path != "fc_base/src/count.rt" else 0
        self.takes_asked = bool(re.search(r": & (?:' \w+ )?mut Asked\b", header))
        self.asks = len(re.findall(r"\bAsked (?:> )?: : new\b", said)) if self.path != "fc_base/src/asked.rt" else 0
        self.makes, self.adds = len(re.findall(MAKES, said)), self.body.count("add_request")
        self.renames = bool(re.search(r"\b(?:Count|add_moves|Asked|add_request) as\b|\btype \w+[^;]* (?:Count|Asked) ;", said))
        self.compares = bool(re.search(COMPARES, said))
        self.uncounted = {name for name, given in self.calls() if not self.counts & {*given}}

    def calls(self):
        """The names that it calls, or hands on as a path, each with the words of the arguments."""
        words = self.body
        for at, word in enumerate(words):
            if word in (",", ")", ";") and words[at - 3 : at - 1] == [":", ":"]:
                yield words[at - 1], []
            if word == "[" and words[at - 1] in ("self", "map", "other"):
                yield "index", []
            if word != "(":
                continue
            depth, end = 1, at + 1
            while depth:
                depth += {"(": 1, ")": -1}.get(words[end], 0)
                end += 1
            yield callee(words, at), words[at:end]


def callee(words, at):
    """The name before an opening bracket, and before the types that it is given, if so."""
    depth, start = 0, at - 1
    while words[at - 1] == ">" and start > 0:
        depth += {">": 1, "<": -1}.get(words[start], 0)
        if depth == 0:
            return words[start - 3] if words[start - 2 : start] == [":", ":"] else ""
        start -= 1
    return words[at - 1]


def plain_forms(functions):
    """The functions that begin a count of their own, and the public ones round those that have a counted form, by name: the crates of each."""
    forms, twins = {}, {}
    counted = {(it.crate.name, it.name.removesuffix("_counted")) for it in functions if it.name.endswith("_counted")}
    for it in functions:
        if it.begins and it.path not in CHILDREN:
            forms.setdefault(it.name, set()).add(it.crate.name)
            if (it.crate.name, it.name) in counted:
                twins.setdefault(it.name, set()).add(it.crate.name)
    found = True
    while found:
        found = [it for it in functions if it.is_pub and not it.counts and it.crate.name not in forms.get(it.name, ()) and called(it, twins)]
        for it in found:
            for names in (forms, twins):
                names.setdefault(it.name, set()).add(it.crate.name)
    return forms


def called(function, forms):
    """The forms that it may call, of its own crate and those below, without handing a count on."""
    return sorted(name for name in function.uncounted if forms.get(name, set()) & function.crate.below() and name != function.name)


def renamed(path, read):
    """What a file calls by another name."""
    handed = [re.split(r" use | as ", it)[1:] for *_, it in read.exported]
    named = [(name, what) for name, what in read.used if "Rattle." not in what] + [(name, what) for what, name in handed]
    found = [what for name, what in named if what.rpartition("::")[2] in ("Count", "add_moves", "Asked", "add_request") and not what.endswith(f"::{name}") and what != name]
    return found + ["a count"] * bool(re.search(r"\btype \w+[^;]* (?:Count|Asked) ;", " ".join(read.kept)))


def main():
    see = lambda body: Function(next(iter(crates())), "", f"fn tried(count: &mut Count) {{ {body} }}", "tried")
    wrong = [f"this tool does not see '{body}'" for what, bodies in SEEN.items() for body in bodies if not getattr(see(body), what)]
    functions = [
        Function(crate, path, read.text[start:end].lstrip(), name)
        for crate in crates()
        if not re.search("^(test|probe)_", crate.name)
        for path, read in crate.sources().items()
        for start, end, name, _ in read.functions
    ]
    for crate in crates():
        files = [] if re.search("^(test|probe)_", crate.name) else crate.sources().items()
        wrong += [f"{crate.name}/{path}: {what} goes by another name" for path, read in files for what in renamed(path, read)]
        takes = [path for path, read in files if any(what.endswith("::add_moves") for _, what in read.used)]
        wrong += [f"{crate.name}/{path}: it takes add_moves" for path in takes if f"{crate.name}/{path}" not in MOVERS]
    forms = plain_forms(functions)
    for it in functions:
        if "add_moves" in it.body and it.path not in MOVERS:
            wrong.append(f"{it.path}: moves are added outside fc_tree_slots, in {it.name}")
        if it.adds != it.makes * it.path.startswith("fc_tree_"):
            wrong.append(f"{it.path}: {it.name} makes {it.makes} requests, and adds {it.adds}")
        if it.takes_asked and it.asks:
            wrong.append(f"{it.path}: {it.name} takes requests to count, and begins a count of its own")
        if it.renames:
            wrong.append(f"{it.path}: a count, or what adds to one, goes by another name, in {it.name}")
        if it.compares and it.path.startswith("fc_") and it.name not in UNCOUNTED.get(it.path, ()):
            wrong.append(f"{it.path}: keys are compared without a count, in {it.name}")
        if it.begins and (not it.is_pub or it.counts) and it.name not in OWN.get(it.path, ()):
            wrong.append(f"{it.path}: a count of its own in {it.name}")
        if it.counts:
            wrong += [f"{it.path}: {it.name} calls {name}, and hands its count not on" for name in called(it, forms)]
    print("\n".join(wrong), end="\n" * bool(wrong))
    return 1 if wrong else 0


sys.exit(main())
