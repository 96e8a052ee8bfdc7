#!/usr/bin/env python3
"""Draws figures of docs/PERFORMANCE.md as multiples of std's: docs/multiples.svg (instructions) and docs/times.svg (times by size). Needed where
bench/table.py wrote other figures.

  tools/plot.py            fails where a drawing is not that of the tables
  tools/plot.py --write    draws both"""
import re
import sys

sys.dont_write_bytecode = True
from paging.sources import WRITES, ended, top, wrong

PAGE = (top / "docs/PERFORMANCE.md").read_text()
MOST = 2.0  # what is more is drawn at the edge, with its number
LEFT, WIDTH, ROW = 265, 430, 19
COLOURS = ["#1f6fb4", "#d97a1e", "#3d9142"]
INSTRUCTIONS = {
    "calls of the map": ["insert", "get", "remove", "entry, of keys that come ten times", "into_iter, a pair", "drop, a pair"],
    "calls for the pair next to a key": ["first_at_or_after", "last_before", "range(k..).next()"],
    "walks over the map, a pair": ["iter", "both ends", "range of 100", "values_mut by for_each", "values_mut by next"],
    "walks over sets, an item given": ["union", "intersection", "difference", "symmetric difference", "bitor, built"],
    "whole maps, a pair": ["append, interleaved", "append, one behind the other", "split_off in the middle", "try_clone", "pop_first until empty", "try_from_iterator, ascending", "try_from_iterator, random"],
}
TIMES = {"map": "the map", "walks": "walks", "sets nanoseconds a call": "sets"}


def table(name):
    """The rows of a table of the page, as lists of cells, its head first."""
    found = re.search(rf"(?ms)^<!-- table: {re.escape(name)} -->\n(.*?)^<!-- end -->$", PAGE)
    if not found:
        sys.exit(f"tools/plot.py: docs/PERFORMANCE.md has no table '{name}'")
    rows = [[cell.strip().replace("`", "") for cell in re.split(r"(?<!\\)\|", line)[1:-1]] for line in found[1].splitlines()]
    return [rows[0], *rows[2:]]


def multiple(cell):
    """The multiple that a cell tells: alone, or in brackets behind both figures."""
    found = re.search(r"\(([\d.]+)\)$", cell) or re.fullmatch(r"([\d.]+)", cell)
    return float(found[1]) if found else None


def instructions():
    """For each title the rows (name, [multiple])."""
    groups = []
    for title, names in INSTRUCTIONS.items():
        head, *rows = table(f"instructions {title}")
        at = head.index("std")
        by_name = {row[0]: float(row[at - 1]) / float(row[at]) for row in rows}
        groups.append((title, [(name, [by_name[name]]) for name in names if name in by_name]))
    return groups, ["at 1,000 pairs or items"]


def times():
    sizes, groups = [], []
    for name, title in TIMES.items():
        head, *rows = table(name)
        sizes = head[1:]
        groups.append((title, [(row[0], [multiple(cell) for cell in row[1:]]) for row in rows if not row[0].startswith("bytes")]))
    return groups, [re.sub(r"10\^(\d)", lambda it: f"{10 ** int(it[1]):,}", size).split(":")[0] + " pairs or items" for size in sizes]


def place(value):
    return LEFT + WIDTH * min(value, MOST) / MOST


def drawing(title, groups, legend):
    """The drawing as text: a line a row, a mark at each multiple, std's as a line at 1."""
    shown, y = [], 62
    for group, rows in groups:
        shown.append(f'<text x="12" y="{y}" font-weight="bold">{group}</text>')
        for name, values in rows:
            y += ROW
            shown.append(f'<text x="{LEFT - 10}" y="{y}" text-anchor="end">{name.replace("&", "&amp;").replace("<", "&lt;")}</text>')
            shown.append(f'<line x1="{LEFT}" y1="{y - 4}" x2="{LEFT + WIDTH}" y2="{y - 4}" stroke="#dddddd"/>')
            for colour, value in zip(COLOURS, values):
                if value is None:
                    continue
                if len(values) == 1:
                    shown.append(f'<rect x="{LEFT}" y="{y - 10}" width="{place(value) - LEFT:.1f}" height="12" fill="{colour}"/>')
                    shown.append(f'<text x="{place(value) + 5:.1f}" y="{y}" font-size="11" stroke="#ffffff" stroke-width="3" paint-order="stroke">{value:.2f}</text>')
                else:
                    shown.append(f'<circle cx="{place(value):.1f}" cy="{y - 4}" r="5" fill="{colour}" fill-opacity="0.85"/>')
            over = [value for value in values if value is not None and value > MOST]
            if over and len(values) > 1:
                shown.append(f'<text x="{LEFT + WIDTH + 10}" y="{y}" font-size="11">{", ".join(f"{it:.1f}" for it in over)}</text>')
        y += ROW + 9
    ticks = [f'<line x1="{place(it):.1f}" y1="48" x2="{place(it):.1f}" y2="{y - 14}" stroke="{"#333333" if it == 1 else "#eeeeee"}"/>' for it in (0, 0.5, 1, 1.5, 2)]
    ticks += [f'<text x="{place(it):.1f}" y="{y + 2}" text-anchor="middle" font-size="11">{it:g}{" (std)" if it == 1 else ""}</text>' for it in (0, 0.5, 1, 1.5, 2)]
    at, keys = 12, []
    for colour, word in zip(COLOURS, legend):
        keys.append(f'<rect x="{at}" y="{y + 14}" width="10" height="10" fill="{colour}"/><text x="{at + 15}" y="{y + 23}">{word}</text>')
        at += 40 + 7 * len(word)
    return "\n".join(
        [
            f'<svg xmlns="http://www.w3.org/2000/svg" width="{LEFT + WIDTH + 70}" height="{y + 36}" font-family="sans-serif" font-size="12" fill="#222222">',
            f'<rect width="{LEFT + WIDTH + 70}" height="{y + 36}" fill="#ffffff"/>',
            f'<text x="12" y="26" font-size="15" font-weight="bold">{title}</text>',
            *ticks[:5],
            *shown,
            *ticks[5:],
            *keys,
            "</svg>",
            "",
        ]
    )


for file, title, (groups, legend) in [
    ("multiples.svg", "Instructions as multiples of std's: shorter is better", instructions()),
    ("times.svg", "Times as multiples of std's: further left is better", times()),
]:
    text, path = drawing(title, groups, legend), top / "docs" / file
    if not path.is_file() or path.read_text() != text:
        wrong.append(f"docs/{file} is not drawn from docs/PERFORMANCE.md as it is: tools/plot.py --write")
        if WRITES:
            path.write_text(text)
ended()
