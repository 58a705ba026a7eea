"""The floor plan of a circuit as SVG: elements in one line, and each wire on its track."""
import re

from page import escaped
from workbench_text import Fault

SIDES = "nesw"
POSITIONS = 8
UNIT = 11
TRACK = 13
MARGIN = 24
BOX = 30
WIRE = re.compile(r"wire (\d+)\.([nesw]) (\d+)\.([nesw]) track (\d+)")
STYLE = """
  .plan text { font: 12px sans-serif; fill: #222; }
  .plan .side { font-size: 9px; fill: #555; text-anchor: middle; }
  .plan .box { fill: #fff; stroke: #444; stroke-width: 1.3; }
  .plan .wire { fill: none; stroke: #4f7396; stroke-width: 1.6; }
  .plan .end { fill: #4f7396; }
  .plan g:hover > .wire { stroke: #111; stroke-width: 3.5; }
  .plan .densest { stroke: #c0272b; stroke-width: 1.2; stroke-dasharray: 5 4; }
  .plan .red { fill: #c0272b; }
"""


def number_behind(lines, place, word):
    """The number of a line that is a word and a number."""
    found = re.fullmatch(rf"{word} (\d+)", lines[place]) if place < len(lines) else None
    if not found:
        raise Fault(f"the plan's line {place + 1} isn't `{word}` and a number")
    return int(found.group(1))


def read_plan(text):
    """The number of elements and of tracks, the densest position, and the wires: two positions and a track each."""
    lines = text.splitlines()
    elements, _, tracks, densest = (
        number_behind(lines, place, word) for place, word in enumerate(["elements", "wires", "tracks", "densest"])
    )
    wires = []
    for number, line in enumerate(lines[4:], 5):
        found = WIRE.fullmatch(line)
        if not found:
            raise Fault(f"the plan's line {number} is no wire with its track")
        source = POSITIONS * int(found.group(1)) + SIDES.index(found.group(2))
        target = POSITIONS * int(found.group(3)) + len(SIDES) + SIDES.index(found.group(4))
        wires.append((source, target, int(found.group(5)), line))
    return elements, tracks, densest, wires


def across(position):
    """How far to the right a position stands."""
    return MARGIN + UNIT * position + UNIT / 2


def element_svg(element, top):
    """The box of an element with the names of its lines, outputs and then inputs."""
    left = MARGIN + UNIT * POSITIONS * element
    parts = [f'<rect class="box" x="{left + 1}" y="{top}" width="{UNIT * POSITIONS - 2}" height="{BOX}" rx="3"/>']
    for place, side in enumerate(SIDES + SIDES):
        parts.append(f'<text class="side" x="{across(POSITIONS * element + place):g}" y="{top + 10}">{side}</text>')
    parts.append(f'<text x="{left + UNIT * POSITIONS / 2:g}" y="{top + 25}" text-anchor="middle">{element}</text>')
    return "".join(parts)


def wire_svg(wire, top):
    """A wire: up from its output, along its track, and down to its input, with a dot where it comes in."""
    source, target, track, line = wire
    height = top - TRACK * track
    path = f"M{across(source):g} {top} V{height} H{across(target):g} V{top}"
    return (
        f'<g><title>{escaped(line)}</title><path class="wire" d="{path}"/>'
        f'<circle class="end" cx="{across(target):g}" cy="{top - 2}" r="2.6"/></g>'
    )


def tracks_svg(text, made):
    """The picture of a plan's text. `made` is the sentence that says which run made it."""
    elements, tracks, densest, wires = read_plan(text)
    top = MARGIN + TRACK * (tracks + 1)
    width, height = 2 * MARGIN + UNIT * POSITIONS * elements, top + BOX + 2 * MARGIN
    parts = [
        f'<svg class="plan" xmlns="http://www.w3.org/2000/svg" width="{width}" height="{height}" '
        f'viewBox="0 0 {width} {height}" role="img">',
        f"<desc>{escaped(made)}</desc>",
        f"<style>{STYLE}</style>",
    ]
    parts += [wire_svg(wire, top) for wire in wires]
    parts += [element_svg(element, top) for element in range(elements)]
    if wires:
        parts.append(f'<path class="densest" d="M{across(densest):g} {MARGIN} V{top + BOX + 6}"/>')
        said = f"position {densest}: {tracks} wires"
        parts.append(f'<text class="red" x="{across(densest) - 8:g}" y="{top + BOX + 20}">{said}</text>')
    return "\n".join([*parts, "</svg>"]) + "\n"
