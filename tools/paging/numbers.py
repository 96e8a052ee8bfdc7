"""The numbers that pages tell, by the names after them. Needed where a page tells a new one."""
import functools
import re

from paging.looks import waiting_edits
from paging.sources import calls_in, handed_on, top, uses
from paging.tables import proved_by_hand


@functools.cache
def numbers():
    """What pages tell numbers of, under the name after each."""
    edits = lambda folder: [*top.glob(f"crates/*/{folder}/*.edit")]
    waiting = len(waiting_edits())
    figures = {}
    for whose, title in [("instructions", "calls of the map"), ("own", "instructions, 1000 pairs")]:
        rows = (top / "bench/figures" / whose).read_text().partition(f"\n{title}\n")[2]
        for name in ("insert", "get", "remove"):
            ours, stds = re.search(rf"(?m)^  {name} +([\d.]+) +/ ([\d.]+) ", rows).groups()
            figures |= {f"own {name}": ours} if whose == "own" else {f"our {name}": ours, f"std {name}": stds}
    commit, _, cores, minutes, processor = re.findall(r"(?m)^\| (\w+) \| (\S+) \| (\d+) \| (\d+) \| (\d+) \|", (top / "docs/GATE.md").read_text())[-1]
    return figures | {
        "crates": len(uses()),
        "crates of the library": sum(it.startswith("fc_") for it in uses()),
        "wrong bodies tried each time": len(edits("must-fail")),
        "crates with them": len({it.parent for it in edits("must-fail")}),
        "wrong bodies on demand": len(edits("edits")),
        "wrong bodies": len(edits("must-fail")) + len(edits("edits")),
        "waiting": waiting,
        "may wait": re.search(r"(?m)^MOST_WAITING = (\d+)$", (top / "tools/edits.py").read_text())[1],
        "tried": len(edits("edits")) - waiting,
        "files of a call": re.search(r"(?m)^FILES = (\d+)\b", (top / "tools/new_call.py").read_text())[1],
        "commit": commit,
        "cores": cores,
        "minutes": minutes,
        "processor minutes": processor,
        "functions proved by hand": len(proved_by_hand()),
        "functions over raw memory": sum(crate == "fc_tree_slots" for crate, *_ in proved_by_hand()),
        "tests": sum(len(re.findall(r"#\[test\]", it.read_text())) for it in top.glob("crates/*/src/**/*.rt")),
        "definitions": len([it for it in top.glob("crates/fc_*/specs/*.antt") if it.name not in ("Lib.antt", "formers.antt") and it.parent.parent.name != "fc_laws"]),
        "laws on contracts": len(calls_in("crates/fc_base/src/list_laws.rt")),
        "laws for callers": sum(map(len, handed_on("crates/fallible_collections/proofs/Laws.antt").values())),
    }
