#!/usr/bin/env python3
"""Writes SPEED.md and speed.svg into a folder, with the least time of each row on standard input: report.py FOLDER"""

import math
import re
import sys
from collections import defaultdict
from datetime import date
from pathlib import Path

PAGE = """# Speed

`make bench` wrote this page on {today}, on {processor}, with {versions}.{missing}

![How many times as long other code takes](speed.svg)

Nanoseconds for one value: the least of several rounds over 10,000 random numbers below 2^40, 2^64 and 2^128, numbers of 1 to
128 bits (mixed), and UUIDs, which are encoded as keys. In parentheses: how many times as long as base62. Below 1, the other
code is faster.

The loops in C and Rust detect no errors. shortuuid and base64url write other strings; `hex` writes hexadecimal digits of the
same bytes. Queries include the time to read the table.

| package | call | code | 40 bits | 64 bits | 128 bits | mixed | UUID |
|---|---|---|---|---|---|---|---|
{rows}"""
PICTURE = """<svg xmlns="http://www.w3.org/2000/svg" viewBox="-20 0 860 {height}" role="img" aria-labelledby="title"
    font-family="sans-serif" font-size="13" fill="#737b85" stroke-width="0.5">
  <title id="title">How many times as long as base62 other code takes</title>
  <text x="10" y="20">How many times as long as base62 other code takes, for numbers of 64 bits unless named, to
    <tspan fill="#2f6fd0" font-weight="bold">encode</tspan> and <tspan fill="#b07a10" font-weight="bold">decode</tspan></text>
{parts}</svg>
"""

times = defaultdict[tuple[str, str, str], dict[str, float]](dict)
notes = []
for line in sys.stdin:
    match line.rstrip("\n").split("\t"):
        case [package, kind, call, code, time]:
            cells = times[package, call, code]
            cells[kind] = min(float(time), cells.get(kind, math.inf))
        case [note] if note not in notes and re.fullmatch(r"left out: .*|[\w ]+ [\d.]+", note):
            notes.append(note)


def ratio(package, call, code, kind):
    own = "base62, Numbers" if code.endswith(", Numbers") else "base62"
    return times[package, call, code][kind] / max(times[package, call, own][kind], 0.1)


def short(value):
    return f"{value:.1f}" if value < 9.95 else f"{value:,.0f}"


def show(row, kind):
    if kind not in times[row]:
        return ""
    time = times[row][kind]
    if row[0] == "command":
        return f"{short(time)}: {short(1000 / time)} million lines a second"
    return short(time) if row[2].startswith("base62") else f"{short(time)} ({short(ratio(*row, kind))})"


def bars(others):
    """On a logarithmic axis from 1/4 to 256."""
    place = lambda factor: round(400 + 50 * math.log2(min(max(factor, 1 / 4), 256)))
    for factor in (1 / 4, 1, 4, 16, 64, 256):
        yield f'  <path d="M{place(factor)} 50 V{60 + 17 * len(others)}" stroke="#737b85"/>\n'
        yield f'  <text x="{place(factor)}" y="44" text-anchor="middle">{factor:g}</text>\n'
    for i, (package, call, code) in enumerate(others):
        kind = next(kind for kind in ("64", "UUID", "40") if kind in times[package, call, code])
        name = {"64": "", "UUID": ", UUID", "40": ", 40 bits"}[kind]
        factor = ratio(package, call, code, kind)
        start, end = sorted([place(1), place(factor)])
        color, top = "#2f6fd0" if call == "encode" else "#b07a10", 56 + 17 * i
        yield f'  <text x="285" y="{top + 11}" text-anchor="end">{package}: {code}{name}</text>\n'
        yield f'  <rect x="{start}" y="{top}" width="{end - start}" height="13" fill="{color}"/>\n'
        yield f'  <text x="{end + 4}" y="{top + 11}">{short(factor)}</text>\n'


packages = [row[0] for row in times]
times = dict(sorted(times.items(), key=lambda item: (packages.index(item[0][0]), item[0][1] == "decode")))
table = [[*row, *(show(row, kind) for kind in ("40", "64", "128", "mixed", "UUID"))] for row in times]
left_out = [note.split(": ")[1] for note in notes if note.startswith("left out: ")]
page = {
    "today": date.today(),
    "processor": re.search(r"(?m)^model name\s*: (.*)$|\Z", Path("/proc/cpuinfo").read_text())[1],
    "versions": ", ".join(note for note in notes if not note.startswith("left out: ")),
    "missing": f" Left out: {', '.join(left_out)}." if left_out else "",
    "rows": "".join(f"| {' | '.join(cells)} |\n" for cells in table),
}
Path(sys.argv[1], "SPEED.md").write_text(PAGE.format(**page))
others = [row for row in times if not row[2].startswith("base62")]
Path(sys.argv[1], "speed.svg").write_text(PICTURE.format(height=70 + 17 * len(others), parts="".join(bars(others))))
