"""The data files of bench/results, which bench/results.py writes, and what is made of them: tables of Markdown and
a picture.

A line of a file has the date, the commit, the machine, its load, what was measured, the value, its unit, and what
is wanted."""
import csv
import math
import os

from repository import TOP

FOLDER = os.path.join(TOP, "bench", "results")
FIELDS = ["date", "commit", "machine", "load", "what", "value", "unit", "wanted"]


def rows(name):
    """The lines of a file, each by its fields, from the oldest on."""
    with open(os.path.join(FOLDER, f"{name}.csv"), encoding="utf-8", newline="") as file:
        return list(csv.DictReader(file))


def latest(name):
    """The latest line of everything that a file has, in the order in which each came first."""
    return list({it["what"]: it for it in rows(name)}.values())


# ---- what is made of the files


def value_of(it):
    """A value with its unit."""
    number = float(it["value"])
    return f"{number:,.0f} {it['unit']}" if number >= 1000 else f"{it['value']} {it['unit']}"


def table(name):
    """The latest values as a table of Markdown."""
    has_aim = any(it["wanted"] for it in latest(name))
    heads = ["What", "Measured", *(["Wanted"] if has_aim else []), "On", "Load"]
    lines = [heads, ["---"] * len(heads)]
    for it in latest(name):
        aim = [it["wanted"]] if has_aim else []
        lines.append([it["what"], value_of(it), *aim, it["date"], it["load"]])
    return "".join(f"| {' | '.join(cells)} |\n".replace("|  |", "| |") for cells in lines)


WIDTH, PANEL, GAP, LEFT, HIGH = 760, 100, 46, 70, 1000.0
STYLE = "".join(
    [
        "text{font:12px sans-serif;fill:#222}.grid{stroke:#ddd}",
        ".line{fill:none;stroke:#2c6da3;stroke-width:2}.dot{fill:#2c6da3}",
    ]
)


def plot():
    """The history of the steps a second: a panel for each kind, a point for each series, on one scale."""
    series = {}
    for it in rows("steps"):
        series.setdefault(it["what"].replace("`", ""), []).append((it["date"], float(it["value"]), it["load"]))
    body, top = "", 20
    for what, points in series.items():
        body += panel(what, points, top)
        top += PANEL + GAP
    size = f'width="{WIDTH}" height="{top}" viewBox="0 0 {WIDTH} {top}"'
    ground = f'<rect width="{WIDTH}" height="{top}" fill="#fff"/>'
    return f'<svg xmlns="http://www.w3.org/2000/svg" {size}>\n<style>{STYLE}</style>\n{ground}\n{body}</svg>\n'


def panel(what, points, top):
    """The points of one kind, from left to right as they were measured."""
    wide = WIDTH - LEFT - 40

    def place(k, value):
        return (
            round(LEFT + wide * k / max(1, len(points) - 1), 1),
            round(top + 12 + PANEL * (1 - math.log10(value) / math.log10(HIGH)), 1),
        )

    lines = [f'<text x="{LEFT}" y="{top}" font-weight="bold">{what}: million steps a second</text>']
    for power in (1, 10, 100, 1000):
        y = place(0, power)[1]
        lines.append(
            f'<path class="grid" d="M{LEFT},{y}h{wide}"/><text x="{LEFT - 8}" y="{y + 4}" text-anchor="end">{power:,}</text>'
        )
    places = [place(k, value) for k, (_, value, _) in enumerate(points)]
    lines.append('<path class="line" d="M' + " L".join(f"{x},{y}" for x, y in places) + '"/>')
    for (x, y), (date, value, load) in zip(places, points):
        lines.append(
            f'<circle class="dot" cx="{x}" cy="{y}" r="4"><title>{date}, load {load}: {value:g}</title></circle>'
        )
        lines.append(f'<text x="{x}" y="{y - 8}" text-anchor="middle">{value:g}</text>')
        lines.append(f'<text x="{x}" y="{top + PANEL + 27}" text-anchor="middle">{date[5:]}</text>')
    return "\n".join(lines) + "\n"
