#!/usr/bin/env python3
"""Measures how steps, reading and compiling grow from 1,000 elements to 4,194,304, and plots it. It proves nothing
and is no part of rt ci.

    bench/growth.py > bench/growth.csv                by the proved program, crates/bn_main/out/bn_main
    bench/growth.py --most 64000 --program 'node bin/hithwelor'
                                                      by any command line, on smaller circuits alone
    bench/growth.py --plot bench/growth.csv docs/pictures/growth-elements.svg
                                                      needs matplotlib

Each size has a line: the elements; millions of steps a second forward on a ring in order and on a shuffled one;
seconds of `step 0` on their texts, in version 2; the elements of a board and the seconds of its `compile`. The boards
are those of examples/least.csv and the empty word, with a longer and longer history. Seconds are of the processor, the
best of --runs; of steps those of `step 0` are taken off. Lines with # tell what it was measured beside, and the sizes
of a core's caches by lscpu. The plot marks where what a ring's steps forward read fills them, 4 bytes an element: of the
16 for its four lines those of the north line, which lie side by side for 1,024 elements.
"""
import argparse
import csv
import os
import subprocess
import sys
import tempfile

sys.dont_write_bytecode = True
from bench import RING_IN_TWO, TOP
import measuring

SIZES = [1000 * 2**power for power in range(12)] + [RING_IN_TWO]
LEAST = os.path.join(TOP, "examples", "least.csv")
# Its board on the empty word has so many elements beside its history's cells, and so many for each of them.
LEAST_BASE, LEAST_CELL = 1042, 90
HEADS = ["elements", "steps in order", "steps shuffled", "reading in order", "reading shuffled", "board", "compile"]
BYTES_AN_ELEMENT = 4
# Steps are timed by ten times as many until they take so long.
LEAST_SECONDS, FIRST_STEPS, MOST_STEPS = 0.1, 10_000_000, 1_000_000_000
BLUE, RED, GREY = "#2c6da3", "#c0392b", "#555"


def options_of():
    parser = argparse.ArgumentParser(description=__doc__, formatter_class=argparse.RawDescriptionHelpFormatter)
    measuring.add_program(parser)
    parser.add_argument("--runs", type=int, default=3, metavar="N", help="how often each is run (3)")
    parser.add_argument("--least", type=int, default=SIZES[0], metavar="N", help="the fewest elements (1,000)")
    parser.add_argument("--most", type=int, default=RING_IN_TWO, metavar="N", help="the most elements (4,194,304)")
    parser.add_argument("--plot", nargs=2, metavar=("CSV", "PICTURE"), help="plots what was measured, as SVG")
    return parser.parse_args()


def caches():
    """Name and bytes of each cache of data that a core has."""
    ran = subprocess.run(["lscpu", "-B", "-C=NAME,ONE-SIZE,TYPE"], stdout=subprocess.PIPE, text=True, check=True)
    lines = [line.split() for line in ran.stdout.splitlines()[1:]]
    return [(name, int(size)) for name, size, kind in lines if kind != "Instruction"]


def best(command, source, runs):
    """Seconds of the processor of the quickest run."""
    return min(measuring.run_once(command, source).processor for _ in range(runs))


def ring_figures(program, path, runs):
    """Of a ring's text: millions of steps a second, and seconds of `step 0`."""
    reading = best([*program, "step", "0"], path, runs)
    steps = FIRST_STEPS
    while True:
        taken = best([*program, "step", str(steps)], path, runs) - reading
        if taken > LEAST_SECONDS or steps == MOST_STEPS:
            return steps / max(taken, 1e-6) / 1e6, reading
        steps *= 10


def board_figures(program, elements, folder, runs):
    """Of the greatest board with at most so many elements: its elements, and the seconds of `compile`."""
    cells, text = max(1, (elements - LEAST_BASE) // LEAST_CELL), os.path.join(folder, "text")
    command = [*program, "compile", "=", "0", "1", str(cells), "1"]
    measuring.run_once(command, LEAST, text)
    return measuring.elements_of(text), best(command, LEAST, runs)


def measure(options):
    """Prints the table, line by line."""
    program, load = measuring.program_of(options), os.getloadavg()[0]
    for name, size in caches():
        print(f"# cache {name} {size}")
    print(",".join(HEADS), flush=True)
    with tempfile.TemporaryDirectory() as folder:
        for elements in [size for size in SIZES if options.least <= size <= options.most]:
            path, found = os.path.join(folder, "text"), []
            for is_shuffled in (False, True):
                measuring.write_ring(path, elements, is_shuffled, 2)
                found.append(ring_figures(program, path, options.runs))
            board, seconds = board_figures(program, elements, folder, options.runs)
            (in_order, read_in_order), (mixed, read_mixed) = found
            print(
                f"{elements},{in_order:.1f},{mixed:.1f},{read_in_order:.4f},{read_mixed:.4f},{board},{seconds:.4f}",
                flush=True,
            )
    print(f"# {measuring.circumstances(load)}, the best of {options.runs}")


def measured(path):
    """The columns by their heads, and the caches, of a file with a table."""
    with open(path, encoding="utf-8") as file:
        lines = file.read().splitlines()
    sizes = [line.split()[2:] for line in lines if line.startswith("# cache ")]
    heads, *rows = csv.reader(line for line in lines if not line.startswith("#"))
    if heads != HEADS or not rows:
        sys.exit(f"{path} isn't what bench/growth.py prints")
    columns = {head: [float(row[place]) for row in rows] for place, head in enumerate(heads)}
    return columns, [(name, int(size)) for name, size in sizes]


def pyplot():
    """matplotlib's figures, without a display, and with the same bytes in each run."""
    try:
        import matplotlib
    except ImportError:
        sys.exit("--plot needs matplotlib: install it by pip, or as python3-matplotlib")
    matplotlib.use("Agg")
    matplotlib.rcParams.update(
        {
            "svg.hashsalt": "hithwelor",
            "font.size": 9,
            "font.family": "sans-serif",
            "svg.fonttype": "none",
            "axes.spines.top": False,
            "axes.spines.right": False,
        }
    )
    from matplotlib import pyplot as it

    return it


def size_told(size):
    """A cache's size in KiB or MiB."""
    return f"{size / 1024:.0f} KiB" if size < 1 << 20 else f"{size / (1 << 20):.3g} MiB"


def draw_panel(axes, title, series, sizes):
    """One panel: its series over the elements, and a mark for each cache that they come to fill."""
    for label, places, values, colour, style in series:
        axes.plot(
            places, values, style, color=colour, linewidth=1.6, markersize=4, markerfacecolor="white", label=label
        )
    axes.set_xscale("log")
    axes.set_title(title, loc="left", fontsize=10, pad=26)
    axes.set_xlabel("elements")
    axes.set_xticks([10**power for power in range(3, 7)], [f"{10 ** power:,}" for power in range(3, 7)])
    axes.grid(axis="y", color="#e4e4e4", linewidth=0.8)
    axes.set_axisbelow(True)
    most = max(max(places) for _, places, *_ in series)
    for name, size in sizes:
        place = size / BYTES_AN_ELEMENT
        if place > most:
            continue
        axes.axvline(place, color="#888", linewidth=0.9, linestyle=(0, (2, 3)))
        axes.annotate(
            f"{name}\n{size_told(size)}",
            (place, 1),
            xycoords=("data", "axes fraction"),
            xytext=(0, 2),
            textcoords="offset points",
            ha="center",
            va="bottom",
            fontsize=7.5,
            color="#666",
        )
    axes.legend(frameon=False, fontsize=8.5)


def plot(path, picture):
    """Steps a second on the left, seconds on the right."""
    columns, sizes = measured(path)
    figure, (left, right) = pyplot().subplots(1, 2, figsize=(10, 4.4), layout="constrained")
    places = columns["elements"]
    draw_panel(
        left,
        "million steps a second",
        [
            ("ring in order", places, columns["steps in order"], BLUE, "o-"),
            ("ring shuffled", places, columns["steps shuffled"], RED, "s--"),
        ],
        sizes,
    )
    left.set_ylim(0, None)
    draw_panel(
        right,
        "seconds",
        [
            ("step 0, ring in order", places, columns["reading in order"], BLUE, "o-"),
            ("step 0, ring shuffled", places, columns["reading shuffled"], RED, "s--"),
            ("compile", columns["board"], columns["compile"], GREY, "^:"),
        ],
        sizes,
    )
    right.set_yscale("log")
    right.yaxis.set_major_formatter(lambda value, _: f"{value:g}")
    figure.savefig(picture, metadata={"Date": None})


def main():
    options = options_of()
    if options.plot:
        plot(*options.plot)
    else:
        measure(options)


if __name__ == "__main__":
    main()
