"""Pictures for the lab sheets, as SVG: an element, the moments of a trace, the hill of the history, points with a fit.

They draw what the program printed and compute no step. Nothing but Python is needed. A notebook shows a Picture.

In a clone of the repository importing this module puts the package hithwelor on the path, unless one is installed.
"""
import html
import importlib.util
import math
import os
import sys

PACKAGES = os.path.join(os.path.dirname(os.path.dirname(os.path.abspath(__file__))), "python")
if not importlib.util.find_spec("hithwelor"):
    if not os.path.isdir(os.path.join(PACKAGES, "hithwelor")):
        raise ImportError("the package hithwelor is missing: install its wheel by pip, or open the sheet in a clone")
    sys.path.append(PACKAGES)

BLUE, RED, GREY, INKS = "#2c6da3", "#c0392b", "#999", ["#2c6da3", "#c0392b", "#3a7d44", "#8a5a00"]
MARGIN, WIDTH, HEIGHT = 56, 520, 300


class Picture:
    """A drawing of this size, by its parts in SVG."""

    def __init__(self, width, height, body):
        self.width, self.height, self.body = width, height, body

    def __repr__(self):
        return f"a picture, {self.width:g} by {self.height:g}"

    def _repr_svg_(self):
        return (
            f'<svg xmlns="http://www.w3.org/2000/svg" width="{self.width:g}" height="{self.height:g}" '
            f'viewBox="0 0 {self.width:g} {self.height:g}" font-family="sans-serif" font-size="12">'
            f"{self.body}</svg>"
        )


def text(x, y, words, anchor="middle", more=""):
    return f'<text x="{x:g}" y="{y:g}" text-anchor="{anchor}" {more}>{html.escape(str(words))}</text>'


def beside(*pictures):
    """Several pictures in one row."""
    body, at = "", 0
    for it in pictures:
        body += f'<g transform="translate({at:g} 0)">{it.body}</g>'
        at += it.width + 16
    return Picture(at - 16, max(it.height for it in pictures), body)


ENDS = {"n": (60, 10), "e": (110, 60), "s": (60, 110), "w": (10, 60)}


def element(configuration):
    """A configuration text of one element: its bar, and the signal where it comes in (full) or has gone out (open)."""
    lines = configuration.splitlines()
    (kind, place), bar = lines[5].split(" "), lines[6].split(" ")[2]
    x, y = ENDS[place[-1]]
    lies = 'x1="36" y1="60" x2="84" y2="60"' if bar == "H" else 'x1="60" y1="36" x2="60" y2="84"'
    body = "".join(
        f'<path d="M{a},{b} L{60 + (a - 60) * .62:g},{60 + (b - 60) * .62:g}" stroke="{GREY}"/>'
        for a, b in ENDS.values()
    )
    body += '<rect x="29" y="29" width="62" height="62" rx="6" fill="#f7f5ef" stroke="#444"/>'
    body += f'<line {lies} stroke="{BLUE}" stroke-width="8" stroke-linecap="round"/>'
    fill = RED if kind == "at" else "white"
    body += f'<circle cx="{x}" cy="{y}" r="6" fill="{fill}" stroke="{RED}" stroke-width="2"/>'
    return Picture(120, 140, body + text(60, 134, lines[4]))


def moments(trace):
    """What `trace` printed, a row a moment: the number of steps, the state, the tape with the head's cell in red."""
    rows = []
    for line in trace.splitlines()[:-1]:
        words = line.split(" ")
        count = int(words[7].rstrip(":"))
        rows.append((words[0], words[1], int(words[3]), int(words[5]), words[8 : 8 + count]))
    first = min(row[2] for row in rows)
    last = max(row[2] + len(row[4]) for row in rows)
    body = ""
    for number, (steps, state, begin, head, letters) in enumerate(rows):
        y = 4 + 20 * number
        body += text(26, y + 15, steps, "end") + text(34, y + 15, state, "start")
        for place, letter in enumerate(letters, begin):
            x = 110 + 20 * (place - first)
            ink, width = (RED, 2.5) if place == head else ("#bbb", 1)
            body += f'<rect x="{x}" y="{y}" width="18" height="18" fill="white" stroke="{ink}" stroke-width="{width}"/>'
            body += text(x + 9, y + 14, "" if letter == "_" else letter, more='font-family="monospace"')
    return Picture(110 + 20 * (last - first) + 4, 8 + 20 * len(rows), body)


def views_of(machine, word, window):
    """The views of a run at the moments of Bennett's machine: one session, with a breakpoint at each of its states."""
    rows = [line.split(",") for line in machine.bennett().splitlines()]
    names = list(dict.fromkeys(name for row in rows for name in (row[0], row[-1])))
    room = 4 * (window[2] + window[3]) + 8
    script = [f"break s{number} state {name}" for number, name in enumerate(names)]
    views = machine.session(word, window, script + [f"go {2 ** 62}", "view"] * room)[len(names) + 1 :: 2]
    end = next((number for number, view in enumerate(views) if view.has_left), len(views) - 1)
    return views[: end + 1]


STAGES = {"compute": "#cfe0f3", "copy": "#fbe6a8", "retrace": "#d3ebcb"}


def hill(machine, word, window):
    """How many cells of the history are full, at each moment of the run of Bennett's machine."""
    views = views_of(machine, word, window)
    lengths = [sum(symbol != "_" for symbol in view.tapes[1].symbols) for view in views]
    step, unit = max(2, 640 / len(views)), max(2, 140 / max(1, *lengths))
    high, body, before = 30 + unit * max(1, *lengths), "", None
    for number, (view, length) in enumerate(zip(views, lengths)):
        x = number * step
        body += f'<path d="M{x:g},22 h{step + .3:g} V{high:g} h{-step - .3:g} z" fill="{STAGES[view.stage]}"/>'
        body += f'<path d="M{x:g},{high:g} v{-unit * length:g} h{step * .86:g} V{high:g} z" fill="#445"/>'
        if view.stage != before:
            body += text(x + 2, 16, view.stage, "start")
        before = view.stage
    said = f"{len(views)} moments, at most {max(lengths)} numbers in the history"
    body += text(step * len(views), high + 16, said, "end")
    return Picture(step * len(views), high + 22, body)


def fit(points):
    """The exponent and the factor with which factor * x ^ exponent comes nearest to the points: least squares, of the
    logarithms."""
    logs = [(math.log(x), math.log(y)) for x, y in points]
    mean_x, mean_y = (sum(column) / len(logs) for column in zip(*logs))
    slope = sum((x - mean_x) * (y - mean_y) for x, y in logs) / sum((x - mean_x) ** 2 for x, _ in logs)
    return slope, math.exp(mean_y - slope * mean_x)


def spread(values, is_log):
    """A function that takes a value to a share of the axis, and the values at the axis' marks."""
    if is_log:
        low, high = math.floor(math.log10(min(values))), math.ceil(math.log10(max(values)))
        high += high == low
        return lambda it: (math.log10(it) - low) / (high - low), [10**power for power in range(low, high + 1)]
    size = 10 ** math.floor(math.log10(max(values)))
    size = next(it for it in (size / 5, size / 2, size, 2 * size) if max(values) / it <= 6)
    count = math.ceil(max(values) / size)
    return lambda it: it / (size * count), [size * number for number in range(count + 1)]


def shown(number):
    """A number of an axis, with commas and no exponent."""
    return f"{number:,.0f}" if number >= 1 or not number else f"{number:g}"


def axes(xs, ys, at, x, y):
    """The lines of the values upward, the values at both axes, and the axes' names."""
    body = ""
    for it in ys:
        left, high = at(xs[0], it)
        body += f'<path d="M{left:g},{high:g} h{WIDTH}" stroke="#ddd"/>' + text(left - 6, high + 4, shown(it), "end")
    body += "".join(text(at(it, ys[0])[0], HEIGHT + 28, shown(it)) for it in xs)
    body += text(MARGIN + 24 + WIDTH / 2, HEIGHT + 48, x)
    return body + f'<g transform="translate(12 {10 + HEIGHT / 2}) rotate(-90)">{text(0, 0, y)}</g>'


def plot(series, x="", y="", is_log=False, fits=()):
    """Points by name, each a list of pairs; for the names in `fits` a line of the power that comes nearest."""
    values = [point for points in series.values() for point in points]
    across, xs = spread([a for a, _ in values], is_log)
    upward, ys = spread([b for _, b in values], is_log)

    def at(a, b):
        return MARGIN + 24 + WIDTH * across(a), 10 + HEIGHT * (1 - upward(b))

    body = axes(xs, ys, at, x, y)
    for number, (name, points) in enumerate(series.items()):
        ink = INKS[number % len(INKS)]
        if name in fits:
            power, factor = fit(points)
            (left, low), (right, high) = (at(a, factor * a**power) for a, _ in (min(points), max(points)))
            body += f'<path d="M{left:g},{low:g} L{right:g},{high:g}" stroke="{ink}" stroke-dasharray="5 4"/>'
            name += f": about {factor:,.3g} x ^ {power:.2f}"
        for left, high in (at(*it) for it in points):
            body += f'<circle cx="{left:g}" cy="{high:g}" r="4" fill="none" stroke="{ink}" stroke-width="2"/>'
        body += text(MARGIN + 36, 28 + 17 * number, name, "start", f'fill="{ink}"')
    return Picture(WIDTH + MARGIN + 50, HEIGHT + 56, body)
