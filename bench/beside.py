"""A table of what beside.c writes, once for each link order.

usage: beside.py TIMES...
"""

import math
import statistics
import sys
from pathlib import Path

BEFORE, AFTER, AGAIN, PLAIN = range(4)


def read(file: str) -> dict[tuple[str, str, int], list[float]]:
    """The best times by call, sheets and entries; NaN where there is none."""
    rows = {}
    for line in Path(file).read_text().splitlines():
        call, sort, n, *times = line.split("\t")
        rows[call, sort, int(n)] = [math.nan if time == "-" else float(time) for time in times]
    return rows


def ns(time: float) -> str:
    return "-" if math.isnan(time) else f"{time:.0f}"


def ratio(value: float) -> str:
    return "-" if math.isnan(value) else f"{value:.2f}"


def mean(values: list[float]) -> float:
    """The geometric mean of those that are there."""
    values = [value for value in values if not math.isnan(value)]
    return math.exp(statistics.fmean(map(math.log, values))) if values else math.nan


def show(widths: list[int], cells: list[str]) -> None:
    """The first two at the left, the others at the right."""
    pairs = enumerate(zip(cells, widths))
    print("  ".join(cell.ljust(width) if i < 2 else cell.rjust(width) for i, (cell, width) in pairs).rstrip())


def main() -> None:
    runs = [read(file) for file in sys.argv[1:]]
    if not runs or any(run.keys() != runs[0].keys() for run in runs):
        sys.exit(__doc__)
    widths = [20, 11, 2, 8, 8, 8, 12, 12, 10, 12]
    show(widths, "call|sheets|n|before|after|plain C|after/before|by order|after/plain|before/itself".split("|"))
    calls: dict[str, list[list[float]]] = {}
    places = {word: place for place, row in reversed(list(enumerate(runs[0]))) for word in row[:2]}
    for call, sort, n in sorted(runs[0], key=lambda row: (places[row[0]], places[row[1]], row[2])):
        times = [run[call, sort, n] for run in runs]
        before, after, again, plain = map(min, zip(*times))
        by_order = [time[AFTER] / time[BEFORE] for time in times]
        ratios = [after / before, after / plain, again / before]
        calls.setdefault(call, []).append(ratios)
        spread = f"{min(by_order):.2f}-{max(by_order):.2f}"
        cells = [call, sort, str(n), *map(ns, (before, after, plain)), ratio(ratios[0]), spread, *map(ratio, ratios[1:])]
        show(widths, cells)
    print()
    show([20, 0, 12, 11], ["mean of a call", "", "after/before", "after/plain"])
    for call, rows in calls.items():
        show([20, 0, 12, 11], [call, "", *(ratio(mean([row[i] for row in rows])) for i in (0, 1))])
    noise = sorted(row[2] for rows in calls.values() for row in rows)
    tenth = len(noise) // 10
    alone = sorted(run[row][AGAIN] / run[row][BEFORE] for run in runs for row in run)
    print(
        f"\nnoise: the library of before beside itself, {len(noise)} rows, best of {len(runs)} link orders: "
        f"{noise[0]:.2f} to {noise[-1]:.2f}, 8 of 10 rows {noise[tenth]:.2f} to {noise[-1 - tenth]:.2f}; "
        f"in one link order alone: {alone[0]:.2f} to {alone[-1]:.2f}"
    )


main()
