"""Plots a table that `sweep` made, as SVG or PNG, by matplotlib.

    steps      steps of the machine and of its reversible machine against the word's length, with 4i + 4L + 5 beside them
    elements   elements against the window's cells
    exits      how each word came out, in each form and window

docs/use/many.md has examples. For the picture of the growth of `generate`, in docs/use/benchmarks.md, there is tools/plot.
"""
from __future__ import annotations

import argparse
import csv
import os
import sys
from collections import Counter, defaultdict
from collections.abc import Iterable, Mapping
from typing import Any, Callable

from .faults import FULL, Fault, cause
from .sweep.command import Parser
from .sweep.rows import COLUMNS, ELEMENTS, FORM, MACHINE, OUTCOME, OUTPUT, QUADRUPLE, STEPS, WINDOW, WORD, Row

ENDINGS = (".svg", ".png")
MOST_NAMES = 40
COLOURS = {
    "halted": "#2c6da3",
    "end": "#2c6da3",
    "compiled": "#2c6da3",
    "stuck": "#e0a030",
    "window": "#c0392b",
    "running": "#8e6bb0",
    "time": "#555",
    "refused": "#bbb",
}


# The points of a series, each once and in their order.
Points = dict[tuple[int, int], None]


def rows_of(path: str) -> list[Row]:
    """The rows of a table."""
    try:
        with open(path, encoding="utf-8", errors="surrogateescape", newline="") as file:
            rows = list(csv.reader(file))
    except OSError as error:
        raise Fault(f"{path}: {cause(error)}") from None
    if not rows or tuple(rows[0]) != COLUMNS:
        raise Fault(f"{path} isn't the table of a sweep: `hithwelor sweep .. --out {path}` makes one")
    found = [row for row in rows[1:] if len(row) == len(COLUMNS)]
    if not found:
        raise Fault(f"{path}: the table has no row yet")
    return found


def canvas() -> Any:
    """matplotlib's figures, without a display, and with the same bytes in each run."""
    try:
        import matplotlib
    except ImportError:
        raise Fault("plot needs matplotlib: install it by pip, or as python3-matplotlib") from None
    matplotlib.use("Agg")
    matplotlib.rcParams["svg.hashsalt"] = "hithwelor"
    from matplotlib import pyplot

    return pyplot


def namer(rows: list[Row]) -> Callable[[Row], str]:
    """What names a row's series: its form, and its machine where the table has several."""
    if len({row[MACHINE] for row in rows}) == 1:
        return lambda row: row[FORM]
    return lambda row: f"{os.path.basename(row[MACHINE])} {row[FORM]}"


def scatter(axes: Any, series: Mapping[str, Iterable[tuple[int, int]]]) -> None:
    """Points of each series."""
    for marker, (name, points) in zip("osv^Dx+*" * len(series), series.items()):
        axes.plot(*zip(*points), marker, markersize=4, fillstyle="none", label=name)


def draw_steps(axes: Any, rows: list[Row]) -> None:
    """Steps against length."""
    series: defaultdict[str, Points] = defaultdict(dict)
    beside: Points = {}
    named = namer(rows)
    for row in rows:
        length, name = len(row[WORD]), named(row)
        if row[FORM].endswith("machine") and row[STEPS]:
            series[f"{name}: steps i"][length, int(row[STEPS])] = None
            if row[OUTCOME] == "halted":
                beside[length, 4 * int(row[STEPS]) + 4 * len(row[OUTPUT]) + 5] = None
        elif row[QUADRUPLE]:
            series[f"{name}: quadruple steps"][length, int(row[QUADRUPLE])] = None
    if not series:
        raise Fault(
            "no row of the table has steps of `machine` or quadruple steps of `run`, so there is nothing to plot"
        )
    scatter(axes, series)
    if beside:
        axes.plot(*zip(*beside), ".", markersize=3, color="#222", label="4i + 4L + 5, of the machine's rows")
    axes.set(xlabel="letters of the word", ylabel="steps", ylim=(0, None))
    axes.legend()


def cells_of(window: str) -> int:
    """How many cells a window has on its three tapes."""
    left, right, history, output = map(int, window.split(" "))
    return left + right + 1 + history + 1 + output + 1


def draw_elements(axes: Any, rows: list[Row]) -> None:
    """Elements against the window."""
    series: defaultdict[str, Points] = defaultdict(dict)
    named = namer(rows)
    for row in rows:
        if row[ELEMENTS] and row[WINDOW].count(" ") == 3:
            series[named(row)][cells_of(row[WINDOW]), int(row[ELEMENTS])] = None
    if not series:
        raise Fault("no row of the table has elements: sweep with --form run, or compile, in several windows")
    scatter(axes, series)
    axes.set(xlabel="cells of the window", ylabel="elements", ylim=(0, None))
    axes.legend()


def lines_of(rows: list[Row]) -> list[str]:
    """The line of each row: its form with its window, where all words of its machine were asked in it, else `found window`."""
    named = namer(rows)
    words: defaultdict[str, set[str]] = defaultdict(set)
    counts = Counter((row[MACHINE], row[FORM], row[WINDOW]) for row in rows)
    for row in rows:
        words[row[MACHINE]].add(row[WORD])

    def line(row: Row) -> str:
        given = counts[row[MACHINE], row[FORM], row[WINDOW]] >= len(words[row[MACHINE]])
        return f"{named(row)} {row[WINDOW] if given else '(found window)'}".strip()

    return list(map(line, rows))


def draw_exits(axes: Any, rows: list[Row]) -> None:
    """How each word came out: a column a word, a line a form and window."""
    words = {word: place for place, word in enumerate(dict.fromkeys(row[WORD] for row in rows))}
    names: dict[str, int] = {}
    points: defaultdict[str, list[tuple[int, int]]] = defaultdict(list)
    for row, name in zip(rows, lines_of(rows)):
        kind = row[OUTCOME].split(" ")[0]
        points[kind if kind in COLOURS else "refused"].append((words[row[WORD]], names.setdefault(name, len(names))))
    for kind, found in points.items():
        axes.plot(*zip(*found), "s", markersize=5, color=COLOURS[kind], label=kind)
    axes.set_yticks(range(len(names)), names)
    axes.set(xlabel="words, in the table's order", ylim=(-0.6, len(names) - 0.4))
    if len(words) <= MOST_NAMES:
        axes.set_xticks(range(len(words)), [word or "(no letter)" for word in words], rotation=90)
    axes.figure.set_size_inches(8, max(5, len(names) / 4 + 2))
    axes.legend(loc="lower right", bbox_to_anchor=(1, 1), ncol=len(points), fontsize=8)


DRAWN = {"steps": draw_steps, "elements": draw_elements, "exits": draw_exits}


def plot(words: list[str]) -> int:
    """The command `plot`: gives its status."""
    it = Parser(prog="hithwelor plot", description=__doc__, formatter_class=argparse.RawDescriptionHelpFormatter)
    it.add_argument("table", metavar="TABLE", help="the table")
    it.add_argument("--of", choices=DRAWN, default="steps", metavar="WHAT", help="steps, elements or exits (steps)")
    it.add_argument("--out", metavar="PICTURE", help="the picture's file, .svg or .png (the table's name with .svg)")
    options = it.parse_args(words)
    out = options.out or os.path.splitext(options.table)[0] + ".svg"
    if not out.endswith(ENDINGS):
        raise Fault(f"{out}: a picture's name ends in .svg or .png")
    rows, pyplot = rows_of(options.table), canvas()
    figure, axes = pyplot.subplots(figsize=(8, 5), layout="constrained")
    DRAWN[options.of](axes, rows)
    try:
        figure.savefig(out, dpi=150, metadata={"Date": None} if out.endswith(".svg") else None)
    except OSError as error:
        raise Fault(f"{out}: {cause(error)}", FULL) from None
    return 0


def main(words: list[str]) -> int:
    """The command of the package: gives its status, and tells a fault in one line."""
    try:
        return plot(words)
    except Fault as fault:
        print(f"hithwelor plot: {fault}", file=sys.stderr)
        return fault.status
