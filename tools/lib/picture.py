"""The picture of a circuit of rotary elements as SVG, at one frame of a run."""
from dataclasses import dataclass

from page import escaped
from wiring import BOX, IN, OUT, STEP
from workbench_text import Frame

STYLE = """
  .circuit text { font: 12px sans-serif; fill: #222; }
  .circuit .name { paint-order: stroke; stroke: #fff; stroke-width: 4px; }
  .circuit .box { fill: #fff; stroke: #444; stroke-width: 1.3; }
  .circuit .box.turned { stroke: #111; stroke-width: 3.6; }
  .circuit .turn { visibility: hidden; font-size: 14px; font-weight: bold; }
  .circuit .turn.turned { visibility: visible; }
  .circuit .bar { stroke: #222; stroke-width: 5; stroke-linecap: round; }
  .circuit .span { fill: #f3f5f7; stroke: #b9c2cb; stroke-width: 1; }
  .circuit .span.marked { fill: #fbe2ae; stroke: #8a5a00; stroke-width: 2.4; }
  .circuit .mark { visibility: hidden; font-weight: bold; fill: #6b4600; }
  .circuit .mark.marked { visibility: visible; }
  .circuit .halo { fill: none; stroke: #fff; stroke-width: 5; stroke-linejoin: round; }
  .circuit .wire { fill: none; stroke: #4f7396; stroke-width: 1.3; stroke-linejoin: round; }
  .circuit .tip { fill: #4f7396; }
  .circuit g:hover > .wire { stroke: #111; stroke-width: 3.5; }
  .circuit .past .wire { stroke: #d9822b; stroke-width: 2.6; stroke-dasharray: 7 3; }
  .circuit .past .tip { fill: #d9822b; }
  .circuit .now .wire { stroke: #c0272b; stroke-width: 4; stroke-dasharray: none; }
  .circuit .now .tip { fill: #c0272b; }
  .circuit .free { stroke: #777; stroke-width: 1.3; fill: none; }
  .circuit .signal { fill: #c0272b; stroke: #fff; stroke-width: 1.5; }
  .circuit .ring { fill: none; stroke: #c0272b; stroke-width: 2; }
"""

SCRIPT = """
const bars = frames.map(() => null), started = JSON.parse(document.getElementById("bars").textContent);
bars[0] = started.slice();
for (let t = 1; t < frames.length; t++) {
  bars[t] = bars[t - 1].slice();
  for (const [element, bar] of frames[t].changed) bars[t][element] = bar;
}
const get = id => document.getElementById(id);
function show(number) {
  const frame = frames[number], turned = new Set(frame.changed.map(pair => pair[0]));
  bars[number].forEach((bar, element) => {
    get("bar-" + element).setAttribute("transform", get("bar-" + element).dataset[bar === "H" ? "lying" : "upright"]);
    for (const kind of ["box-", "turn-"]) get(kind + element).classList.toggle("turned", turned.has(element));
  });
  for (const span of document.querySelectorAll("[data-bottom]"))
    span.classList.toggle("marked", bars[number][Number(span.dataset.bottom)] === "H");
  for (const wire of document.querySelectorAll(".circuit .past, .circuit .now")) wire.classList.remove("past", "now");
  for (let t = 1; t <= number; t++) if (frames[t].wire) get(frames[t].wire).classList.add("past");
  if (frame.wire) {
    const wire = get(frame.wire);
    wire.classList.remove("past");
    wire.classList.add("now");
    wire.parentNode.appendChild(wire);
  }
  get("signal").setAttribute("transform", "translate(" + frame.at + ")");
}
"""


def rounded(points, radius=4):
    """The path of a wire through these points, with round corners, so that bends and crossings look different."""
    kept = [points[0]]
    for point in points[1:]:
        if point != kept[-1]:
            kept.append(point)
    path = f"M{kept[0][0]},{kept[0][1]}"
    for before, here, after in zip(kept, kept[1:], kept[2:]):
        (bx, by), (ax, ay) = toward(here, before, radius), toward(here, after, radius)
        path += f" L{bx:g},{by:g} Q{here[0]},{here[1]} {ax:g},{ay:g}"
    return path + f" L{kept[-1][0]},{kept[-1][1]}"


def toward(start, goal, far):
    """The point so far from the start toward the goal, at most half the way; the two are level or plumb."""
    dx, dy = goal[0] - start[0], goal[1] - start[1]
    length = abs(dx) + abs(dy)
    part = min(far, length / 2) / length if length else 0
    return start[0] + dx * part, start[1] + dy * part


def tip(point, side, size=5):
    """The tip of an arrow that enters a box by this side."""
    x, y = point
    dx, dy = STEP[side]
    base = (x + dx * 1.6 * size, y + dy * 1.6 * size)
    left = (base[0] - dy * size * 0.7, base[1] + dx * size * 0.7)
    right = (base[0] + dy * size * 0.7, base[1] - dx * size * 0.7)
    return f"M{x},{y} L{left[0]:g},{left[1]:g} L{right[0]:g},{right[1]:g} z"


def wire_of(configuration, frame):
    """The output line whose wire leads to the place of a frame, or by which the signal has left; else None."""
    if frame.has_left:
        return frame.place
    for out, into in configuration.wires():
        if into == frame.place:
            return out
    return None


def drawn_wire(configuration, frame):
    """The output line of wire_of where a wire or the end is drawn behind it; else None."""
    out = wire_of(configuration, frame)
    return out if out is not None and (configuration.target(out) is not None or out == configuration.end) else None


def wire_id(out):
    return f"wire-{out.element}{out.side}"


def signal_at(plan, frame):
    """Where the signal's mark stands: before the line that it enters, or behind that by which it has left."""
    x, y = plan.port(frame.place, OUT if frame.has_left else IN)
    dx, dy = STEP[frame.place.side]
    return x + dx * 9, y + dy * 9


def stub(plan, line, way, name):
    """The short line of a start or an end, with its name."""
    x, y = plan.port(line, way)
    dx, dy = STEP[line.side]
    reach = plan.reaches[(line, way)]
    far = (x + dx * reach, y + dy * reach)
    ends = (far, (x, y)) if way == IN else ((x, y), far)
    head = tip((x, y), line.side) if way == IN else tip(far, {"n": "s", "s": "n", "e": "w", "w": "e"}[line.side])
    beside = "end" if plan.offsets[(line, way)] < 0 else "start"
    anchor = {"w": "end", "e": "start"}.get(line.side, beside)
    return (
        f'<path class="halo" d="M{ends[0][0]},{ends[0][1]} L{ends[1][0]},{ends[1][1]}"/>'
        f'<path class="wire" d="M{ends[0][0]},{ends[0][1]} L{ends[1][0]},{ends[1][1]}"/><path class="tip" d="{head}"/>'
        f'<text class="name" x="{far[0] + dx * 4}" y="{far[1] + (4 if dx else dy * 4 + (0 if dy < 0 else 10))}" '
        f'text-anchor="{anchor}">{name}</text>'
    )


def element_group(number, middle, bar, is_turned, is_bottom, ids=""):
    """A numbered box with its bar."""
    x, y = middle
    half, reach = BOX // 2, BOX // 2 - 9
    turned = " turned" if is_turned else ""
    small = ' style="font-size:10px"' if number > 99 else ""
    upright, lying = f"translate({x} {y}) rotate(90)", f"translate({x} {y})"
    return (
        f'<g><title>element {number}</title><rect id="{ids}box-{number}" class="box{turned}" '
        f'x="{x - half}" y="{y - half}" width="{BOX}" height="{BOX}" rx="{12 if is_bottom else 5}"/>'
        f'<line id="{ids}bar-{number}" class="bar" x1="{-reach}" y1="0" x2="{reach}" y2="0" '
        f'data-upright="{upright}" data-lying="{lying}" transform="{lying if bar == "H" else upright}"/>'
        f'<text x="{x - half + 3}" y="{y - half + 12}"{small}>{number}</text>'
        f'<text id="{ids}turn-{number}" class="turn{turned}" x="{x + half - 15}" y="{y + half - 4}">'
        f"&#8635;</text></g>\n"
    )


def spans_group(plan, banks, bars):
    """The grounds of the columns; a marked one is tinted, has a strong border and is called M."""
    body = ""
    for bank, spans in zip(banks, plan.spans):
        for column, (left, top, right, bottom) in zip(bank.columns, spans):
            kind = " marked" if bars[column.bottom] == "H" else ""
            body += (
                f'<rect class="span{kind}" data-bottom="{column.bottom}" x="{left}" y="{top}" '
                f'width="{right - left}" height="{bottom - top}" rx="6"/>'
                f'<text class="mark{kind}" data-bottom="{column.bottom}" x="{right - 12}" y="{bottom + 13}">M</text>\n'
            )
    return body


def wires_group(configuration, plan, kinds, ids=""):
    """All wires with a start and an end; those of the path come last, so that they lie above."""

    def rank(route):
        return ["", "past", "now"].index(kinds.get(route.out, ""))

    body = ""
    for route in sorted(plan.routes, key=rank):
        path = rounded(route.points)
        body += (
            f'<g id="{ids}{wire_id(route.out)}" class="{kinds.get(route.out, "")}">'
            f"<title>{route.out} leads to {route.into}</title>"
            f'<path class="halo" d="{path}"/><path class="wire" d="{path}"/>'
            f'<path class="tip" d="{tip(route.points[-1], route.into.side)}"/></g>\n'
        )
    body += f"<g>{stub(plan, configuration.start, IN, 'start')}</g>\n"
    end = configuration.end
    return body + f'<g id="{ids}{wire_id(end)}" class="{kinds.get(end, "")}">{stub(plan, end, OUT, "end")}</g>\n'


def path_kinds(configuration, frames, number):
    """For each output line on the signal's path up to a frame: past, or now for the last one."""
    kinds = {}
    for place, frame in enumerate(frames[: number + 1]):
        out = wire_of(configuration, frame) if place else None
        if out is not None:
            kinds[out] = "now" if place == number else "past"
    return kinds


def bars_at(configuration, frames, number):
    """The bars at a frame."""
    bars = list(configuration.bars)
    for frame in frames[: number + 1]:
        for element, bar in frame.changed:
            bars[element] = bar
    return bars


@dataclass
class Moment:
    """What a picture shows of a run: a frame, all bars, the elements that have just turned, the kinds of wires."""

    frame: Frame
    bars: list
    turned: set
    kinds: dict


def moment_of(configuration, frames, number):
    """The moment of a frame behind those before it."""
    turned = {element for element, _ in frames[number].changed} if number else set()
    bars, kinds = bars_at(configuration, frames, number), path_kinds(configuration, frames, number)
    return Moment(frames[number], bars, turned, kinds)


def circuit_group(configuration, plan, banks, moment, ids=""):
    """A circuit at a moment.

    The ids of its parts name elements and lines, with `ids` before them; a page's script finds the parts by them.
    """
    bottoms = {column.bottom for bank in banks for column in bank.columns}
    x, y = signal_at(plan, moment.frame)
    body = spans_group(plan, banks, moment.bars) + f"<g>\n{wires_group(configuration, plan, moment.kinds, ids)}</g>\n"
    for element, middle in enumerate(plan.middles):
        body += element_group(element, middle, moment.bars[element], element in moment.turned, element in bottoms, ids)
    return body + (
        f'<g id="{ids}signal" transform="translate({x} {y})"><circle class="ring" r="9"/>'
        f'<circle class="signal" r="5.5"/></g>\n'
    )


def circuit_svg(configuration, plan, banks, frames, number, made, caption="", zoom=1):
    """The picture of a frame, with how it was made as its description."""
    left, top, bottom = 46, 30, 30 + (18 if caption else 0)
    body = circuit_group(configuration, plan, banks, moment_of(configuration, frames, number))
    if caption:
        body += f'<text x="{-left + 8}" y="{plan.height + bottom - 8}">{caption}</text>\n'
    width, height = max(plan.width + 2 * left, 8 * len(caption)), plan.height + top + bottom
    return (
        f'<svg class="circuit" xmlns="http://www.w3.org/2000/svg" width="{width * zoom:g}" height="{height * zoom:g}" '
        f'viewBox="{-left} {-top} {width} {height}" role="img">\n<desc>{escaped(made)}</desc>\n<style>{STYLE}</style>\n'
        f'<rect x="{-left}" y="{-top}" width="{width}" height="{height}" fill="#fff"/>\n{body}</svg>\n'
    )


def frame_data(configuration, plan, frames):
    """The frames as the page's script wants them."""
    data = []
    for number, frame in enumerate(frames):
        out = drawn_wire(configuration, frame) if number else None
        x, y = signal_at(plan, frame)
        data.append(
            {
                "place": f"steps {frame.steps} {frame.place_text}",
                "changed": frame.changed if number else [],
                "wire": wire_id(out) if out else "",
                "at": f"{x} {y}",
            }
        )
    return data
