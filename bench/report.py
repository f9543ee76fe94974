"""Tables and a chart of what measure.c writes.

usage: report.py TIMES FOLDER < MACHINE     MACHINE is a line for each fact
"""

import math
import sys
from pathlib import Path
from typing import NamedTuple

SORTS = {
    "near-tree": "Near-tree sheets: every possible group is listed",
    "random": "Unstructured random sheets",
}
KINDS = {"strong": "#0072b2", "clean": "#d55e00", "splits": "#007a5a"}
ENGINES = ["farzhudyl", "plain C"]

METHOD = """\
Microseconds of the whole C call: the sheet is read and checked, the groups are found, the listing is written. Both engines run in one
process and take turns on the same 32 sheets, many short repeats each; the time is that which the process has had on a processor. Before
that, `tests/comparison.sh` has held both against the second engine.

The plain C engine (`plain.c`) stops the search for a set's index as soon as it is known to be below half a point, since the set is then
not listed. It is measured as it is. On near-tree sheets every set that it tries is listed, so nothing is stopped; on the larger random
sheets most searches are.

The ratio is that of the best times. Bytes and lines (after the first) are means over the sheets."""

HALVES = """\
The same call on near-tree sheets in which half of the values, chosen at random, end in `.5`."""

SHARED = """\
Microseconds of `farzhudyl_smallest_shared` on the same sheets' pair lists, for the first and the last entry; beside it, the plain engine's
groups as numbers, and a search through their sets. The engine makes its checks, plain C makes none here. In a group: the share of the
lists in which a group holds both."""

POOL = """\
Microseconds of `farzhudyl_pool` on two near-tree sheets of scores of the same entries, the second in another order; beside it, the plain
engine's. Both read and check the two sheets, find the names, add, and write the pool. Bytes are means: of the two sheets together, and of
their pool."""

WEIGHT = """\
Microseconds of `farzhudyl_refined_weight` on near-tree lists of distances; beside it, the plain engine's. Both check the list and the side,
and go through all quartets. Listed: of each list's own splits one with the most quartets. Half: the first half of the entries, in none of
these lists a listed split, and of negative weight. Quartets are means."""

# What is told of the sheets beside the times of a call.
FACTS = {
    "listing": ["bytes", "lines"],
    "halves": ["bytes", "lines"],
    "shared": ["in a group"],
    "pool": ["bytes read", "bytes written"],
    "weight": ["quartets"],
}


class Cell(NamedTuple):
    """The sheets of one sort, kind and number of entries; a pool's kind is empty, a weight's says which side."""

    facts: list[str]
    best: list[float]
    median: list[float]


def read_times(path):
    cells = {call: {} for call in FACTS}
    for line in Path(path).read_text().splitlines():
        call, sort, kind, n, *words = line.split("\t")
        facts = len(FACTS[call])
        times = [float(time) for time in words[facts:]]
        cells[call][sort, kind, int(n)] = Cell(words[:facts], times[0::2], times[1::2])
    return cells


def entries(cells):
    return sorted({n for _, _, n in cells})


def shown(time):
    """Three digits that count, or all before the point."""
    return f"{time:.{max(0, 2 - math.floor(math.log10(time)))}f}"


# ---- tables


def table(head, rows):
    rule = ["---" if i == 0 else "---:" for i in range(len(head))]
    return "\n".join("| " + " | ".join(row) + " |" for row in [head, rule, *rows])


def times_table(cells, call, sort):
    kinds = any(kind for _, kind, _ in cells)
    head = [*["side" if call == "weight" else "kind"] * kinds, "entries", *FACTS[call]]
    head += [f"{engine}, {what}" for engine in ENGINES for what in ("best", "median")]
    rows = []
    for kind, n in [(kind, n) for of, kind, n in cells if of == sort]:
        cell = cells[sort, kind, n]
        times = [shown(t) for pair in zip(cell.best, cell.median) for t in pair]
        ratio = f"{cell.best[0] / cell.best[1]:.2f}"
        rows.append([*[kind] * kinds, str(n), *cell.facts, *times, ratio])
    return table([*head, "ratio"], rows)


def growth_table(cells, sort):
    steps = list(zip(entries(cells), entries(cells)[1:]))
    rows = []
    for kind in KINDS:
        for place, engine in enumerate(ENGINES):
            best = [[cells[sort, kind, n].best[place] for n in step] for step in steps]
            rows.append([f"{kind}, {engine}", *(f"{b / a:.1f}" for a, b in best)])
    return table(["growth of the best time", *(f"{a} to {b} entries" for a, b in steps)], rows)


def results(cells, machine):
    listing, halves, shared, pool, weight = (cells[call] for call in FACTS)
    parts = ["# The engine beside plain C", METHOD, "![Times by number of entries](chart.svg)"]
    for sort, title in SORTS.items():
        parts += [f"## {title}", times_table(listing, "listing", sort), growth_table(listing, sort)]
    parts += ["## Sheets with half points", HALVES, times_table(halves, "halves", "near-tree")]
    parts += ["## The smallest group that two entries share", SHARED]
    for sort in SORTS:
        parts += [f"{sort.capitalize()} lists:", times_table(shared, "shared", sort)]
    parts += ["## The pool of two sheets", POOL, times_table(pool, "pool", "near-tree")]
    parts += ["## The refined weight of a split", WEIGHT, times_table(weight, "weight", "near-tree")]
    parts += ["## Measured on", "\n".join(f"- {fact}" for fact in machine)]
    return "\n\n".join(parts) + "\n"


# ---- chart

WIDTH, HEIGHT, LEFT, TOP = 330, 270, 70, 40
GAP = 30


def chart(cells):
    """A panel for each sort, both axes logarithmic."""
    sizes = entries(cells)
    times = [time for cell in cells.values() for time in cell.best]
    low, high = math.floor(math.log10(min(times))), math.ceil(math.log10(max(times)))

    def x(panel, n):
        share = math.log(n / sizes[0]) / math.log(sizes[-1] / sizes[0])
        return LEFT + panel * (WIDTH + GAP) + 20 + share * (WIDTH - 40)

    def y(time):
        return TOP + HEIGHT * (high - math.log10(time)) / (high - low)

    parts = []
    for panel, sort in enumerate(SORTS):
        left = LEFT + panel * (WIDTH + GAP)
        parts += frame(left, SORTS[sort], low, high, y, labelled=panel == 0)
        for n in sizes:
            parts.append(text(x(panel, n), TOP + HEIGHT + 18, n, "middle"))
        parts.append(text(left + WIDTH / 2, TOP + HEIGHT + 38, "entries", "middle"))
        for kind, colour in KINDS.items():
            for place in range(len(ENGINES)):
                points = [(x(panel, n), y(cells[sort, kind, n].best[place])) for n in sizes]
                parts += curve(points, colour, place)
    middle = TOP + HEIGHT / 2
    parts.append(text(20, middle, "microseconds per call, best", "middle", f' transform="rotate(-90 20 {middle})"'))
    bottom = TOP + HEIGHT + 66
    for place, engine in enumerate(ENGINES):
        for column, (kind, colour) in enumerate(KINDS.items()):
            at, line = LEFT + 60 + column * 210, bottom + place * 22
            parts += curve([(at, line - 4), (at + 44, line - 4)], colour, place)
            parts.append(text(at + 54, line, f"{kind}, {engine}", "start"))
    width, height = LEFT + 2 * WIDTH + GAP + 20, bottom + 36
    return "\n".join(
        [
            f'<svg xmlns="http://www.w3.org/2000/svg" viewBox="0 0 {width} {height}" width="{width}" height="{height}" '
            'font-family="sans-serif" font-size="13">',
            f'<rect width="{width}" height="{height}" fill="white"/>',
            *parts,
            "</svg>\n",
        ]
    )


def frame(left, title, low, high, y, labelled):
    parts = [text(left + WIDTH / 2, TOP - 14, title, "middle")]
    for power in range(low, high + 1):
        for step in range(1, 10 if power < high else 2):
            at, colour = y(step * 10.0**power), "#bbb" if step == 1 else "#eee"
            parts.append(f'<path d="M{left} {at:.1f}h{WIDTH}" stroke="{colour}"/>')
        if labelled:
            parts.append(text(left - 8, y(10.0**power) + 4, f"{10.0**power:,.{max(0, -power)}f}", "end"))
    parts.append(f'<rect x="{left}" y="{TOP}" width="{WIDTH}" height="{HEIGHT}" fill="none" stroke="#555"/>')
    return parts


def curve(points, colour, place):
    """The first engine's line is full, the second's is broken and its points are hollow."""
    path = " ".join(f"{a:.1f},{b:.1f}" for a, b in points)
    dashes, fill = ("", colour) if place == 0 else (' stroke-dasharray="6 4"', "white")
    parts = [f'<polyline points="{path}" fill="none" stroke="{colour}" stroke-width="2"{dashes}/>']
    for a, b in points:
        parts.append(f'<circle cx="{a:.1f}" cy="{b:.1f}" r="3.5" fill="{fill}" stroke="{colour}" stroke-width="1.5"/>')
    return parts


def text(x, y, words, anchor, more=""):
    return f'<text x="{x:.1f}" y="{y:.1f}" text-anchor="{anchor}"{more}>{words}</text>'


def main():
    times, folder = sys.argv[1:]
    cells = read_times(times)
    page = results(cells, sys.stdin.read().splitlines())
    Path(folder, "RESULTS.md").write_text(page)
    Path(folder, "chart.svg").write_text(chart(cells["listing"]))
    print(page, end="")


main()
