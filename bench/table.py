#!/usr/bin/env python3
"""Makes the tables of docs/PERFORMANCE.md out of what the scripts printed, so that nobody copies a number.

  bench/instructions.py >bench/figures/instructions      (and so bench/own.py, and bench/run of walks, sets, map, whole, vec, hash, read and kinds: each into a
                                 file of its name; kinds depths into depths, loads loads into loads, loads append into append)
  bench/instructions.py --unproved budget_driver >bench/figures/instructions_budget, and so of intervals_driver, timers_driver, tables_driver and
                                 caches_driver in one run into instructions_uses, of kinds_driver and loads_driver into instructions_kinds, and all but these
                                 into instructions; misses into instructions_misses
  bench/table.py                 prints the tables
  bench/table.py --write         writes them into the page

A table stands on the page between the lines '<!-- table: NAME -->' and '<!-- end -->'. NAME is 'instructions TITLE', with a title that bench/instructions.py
prints: a row is then what it was before (figures/before, if it is there), what it is now, std's, and the most that was aimed at (figures/aims, lines
'MOST  TITLE: ROW'); of maps in a budget it is theirs, that of the same jobs at `Global`, and what another title has as std's. Or NAME is a script, and maybe a
unit: a column is then each of its titles that end in ': UNIT', and a cell ours, std's and the multiple that the script gave; before these stands a column of
instructions where BESIDE names their title. Of a script with no file in figures/ the page stays as it is.

The table 'above' has each row of the others in which ours are more than std's, by more than a twentieth where they are times, and its reason (figures/reasons,
lines 'ROW  REASON', 'of sets' after a row of those; that of 'KIND' is the reason of each row 'KIND: CALL' or 'KIND, CALL' with none of its own). Without a
reason of each the page is not written.
"""
import pathlib
import re
import sys

BENCH = pathlib.Path(__file__).resolve().parent
PAGE = BENCH.parent / "docs/PERFORMANCE.md"
FIGURES = BENCH / "figures"
ROW = re.compile(r"  (\S.*?) +([\d.]+) +/ ([\d.]+) +\( *([\d.]+)\)")
MARKED = re.compile(r"(?m)^(<!-- table: (.+) -->\n)(?:.*\n)*?(<!-- end -->)$")


def printed(path):
    """What a script printed: its first line, and of each title the rows (name, ours, std's, multiple)."""
    lines = path.read_text().splitlines()
    titles = {}
    rows = None
    for line in lines[1:]:
        if row := ROW.match(line):
            rows.append(row.groups())
        elif not line.startswith(" "):
            rows = titles.setdefault(line, [])
    return lines[0], titles


def aims():
    found = {}
    for line in (FIGURES / "aims").read_text().splitlines():
        most, row = line.split(maxsplit=1)
        found[row] = most
    return found


# What was counted for itself, by how its title begins.
USES = ["the map of stretches", "timers, a call", "the table of rows", "the cache"]
KINDS = "keys and values of other kinds, a call"
LOADS = "loads and appends, a pair"
APART = {"maps in a budget": "instructions_budget", "reads": "instructions_misses"}
APART |= dict.fromkeys(USES, "instructions_uses") | dict.fromkeys([KINDS, LOADS], "instructions_kinds")
# The instructions that stand beside times.
BESIDE = {"kinds": KINDS, "loads": LOADS, "append": LOADS}


def counts_of(title):
    """The file of the instructions under a title."""
    return FIGURES / next((file for begin, file in APART.items() if title.startswith(begin)), "instructions")


def commit(path):
    """Where the figures were measured, as their head says, or nothing."""
    said = re.search(r"(?m)^(?:instructions )?at (\S+?(?:, unproved)?):", "\n".join(path.read_text().splitlines()[:3]))
    return said[1] if said else ""


def of_instructions(title):
    before, now = FIGURES / "before", counts_of(title)
    of = [path for path in (before, now) if path.is_file()]
    rows = [{row[0]: row for row in printed(path)[1].get(title, [])} for path in of]
    most = aims()
    lines = ["| | " + "".join(f"at {commit(path)} | " for path in of) + "std | at most |", "|---" * (len(of) + 3) + "|"]
    for name, row in rows[-1].items():
        ours = [each[name][1] if name in each else "" for each in rows]
        cells = [name, *ours, row[2], most.get(f"{title}: {name}", "")]
        lines.append("| " + " | ".join(cells) + " |")
    return lines


def of_budget(title):
    path = counts_of(title)
    of_std = {name: stds for rows in reversed(printed(FIGURES / "instructions")[1].values()) for name, _, stds, _ in rows}
    lines = [f"| | in a budget, at {commit(path)} | the same jobs at `Global` | std |", "|---|---|---|---|"]
    return lines + [f"| {name} | {ours} | {at_global} | {of_std[name]} |" for name, ours, at_global, _ in printed(path)[1][title]]


def columns(script, unit):
    """The columns of a table of times, each by its head: the row of each name (ours, std's, multiple)."""
    times = {title: {row[0]: row[1:] for row in rows} for title, rows in printed(FIGURES / script)[1].items() if rows and title.endswith(unit)}
    path = counts_of(BESIDE.get(script, ""))
    if script not in BESIDE or not path.is_file():
        return times
    counted = {row[0]: row[1:] for row in printed(path)[1].get(BESIDE[script], []) if any(row[0] in rows for rows in times.values())}
    at = "" if commit(path) == commit(FIGURES / script) else f" at {commit(path)}"
    return {f"instructions{at}, 1000 pairs": counted, **times}


def of_times(script, unit):
    by_head = columns(script, unit)
    names = list(dict.fromkeys(name for rows in by_head.values() for name in rows))
    at = commit(FIGURES / script)
    lines = [f"| {at and f'at {at} '}| " + " | ".join(head.split(":")[0] for head in by_head) + " |", "|---" * (len(by_head) + 1) + "|"]
    for name in names:
        cells = ["{} / {} ({})".format(*rows[name]) if name in rows else "" for rows in by_head.values()]
        lines.append(f"| {name} | " + " | ".join(cells) + " |")
    return lines


def reasons():
    """Why a row is above std's, by its name."""
    lines = [line.split("  ", 1) for line in (FIGURES / "reasons").read_text().splitlines() if line]
    return {row: reason.strip() for row, reason in lines}


def multiples(name):
    """Of a table's rows the multiples of std's that are too many, each with where it was measured: (row, where, multiple)."""
    script, _, title = name.partition(" ")
    if script == "instructions":
        of_rows = {row[0]: row[1:] for row in printed(counts_of(title))[1].get(title, [])}
        by_head = {"misses" if "miss" in title else "instructions": of_rows}
    else:
        by_head = columns(script, title and f": {title}")
    for head, rows in by_head.items():
        where = "instructions" if head.startswith("instructions") else re.split(r"[,:]", head)[0]
        is_counted = where in ("misses", "instructions")
        for row, (ours, stds, median) in rows.items():
            multiple = float(ours) / float(stds) if is_counted else float(median)
            if multiple > (1 if is_counted else 1.05):
                yield row, where, multiple


def reason(call, why):
    """That of the call, or of what it is made on or with, which stands before it."""
    return why.get(call) or why.get(re.split("[:,] ", call)[0])


def above(names):
    why, found = reasons(), {}
    for name in names:
        for row, where, multiple in multiples(name):
            call, _, size = row.partition(", ")
            call = row if size and not size[0].isdigit() else call
            of = " of sets" if name.startswith("sets") or "over sets" in name else ""
            told = f"{where} at {size}" if call != row else where
            # Some rows are counted by two drivers.
            found.setdefault(call + of, {}).setdefault(told, f"{multiple:.2f} ({told})")
    lines = ["| Call | Ours as a multiple of std's | Why |", "|---|---|---|"]
    for call, told in found.items():
        if not reason(call, why):
            sys.exit(f"figures/reasons has none of {call}: {', '.join(told.values())}")
        lines.append(f"| {call} | {', '.join(told.values())} | {reason(call, why)} |")
    return lines


def table(name, names=()):
    if name == "above":
        return above([it for it in names if it not in ("above", "own") and "budget" not in it and (FIGURES / it.split(" ")[0]).is_file()])
    script, _, title = name.partition(" ")
    if not (FIGURES / script).is_file():
        return None
    if script != "instructions":
        return of_times(script, title and f": {title}")
    return of_budget(title) if title.startswith("maps in a budget") else of_instructions(title)


def main():
    text = PAGE.read_text()
    names = [name for _, name, _ in MARKED.findall(text)]
    tables = {name: table(name, names) for name in names}

    def filled(mark):
        lines = tables[mark[2]]
        return mark[0] if lines is None else mark[1] + "".join(line + "\n" for line in lines) + mark[3]

    if sys.argv[1:] == ["--write"]:
        PAGE.write_text(MARKED.sub(filled, text))
    elif not sys.argv[1:]:
        for name, lines in tables.items():
            print(name, *(lines or ["(not measured)"]), "", sep="\n")
    else:
        sys.exit(__doc__)


main()
