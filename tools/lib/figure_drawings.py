"""The drawings of tools/figure, as scenes: a circuit, a machine's diagram, three tapes at a moment, and the hill."""
import math

import picture
from figure_scene import Area, Box, Disc, Line, Scene, Words, arrow_tip
from tape_picture import NAMES, STAGES, history_length
from wiring import BOX, IN, OPPOSITE, OUT, STEP

AWAY = {side: (dx, dy) for side, (dx, dy) in STEP.items()}


def into(side):
    """The direction in which a wire comes in by a side."""
    dx, dy = STEP[side]
    return -dx, -dy


# ---- a circuit


def moved(points, left, top):
    return [(x + left, y + top) for x, y in points]


def wire_shapes(points, side, kind):
    """A wire with its white rim, so that crossings are seen, and its tip."""
    ink = {"past": "past", "now": "signal"}.get(kind, "wire")
    width = {"past": 2.6, "now": 4}.get(kind, 1.3)
    return [
        Line(points, "paper", width + 3.4, radius=4),
        Line(points, ink, width, kind == "past", 4),
        arrow_tip(points[-1], into(side), 9 if kind else 8, ink),
    ]


def span_shapes(box, is_marked, left, top):
    """The ground of a column; where the column is marked it is tinted, has a strong border, and is called M."""
    x, y, right, bottom = box[0] + left, box[1] + top, box[2] + left, box[3] + top
    kind = ("marked", "mark", 2.4) if is_marked else ("pale", "rim", 1)
    shapes = [Box(x, y, right - x, bottom - y, *kind, radius=6)]
    return shapes + ([Words(right - 12, bottom + 13, "M", is_bold=True, ink="mark")] if is_marked else [])


def element_shapes(number, middle, bar, is_turned, is_bottom):
    """A numbered box with its bar; the border is thick where the bar has just turned."""
    x, y = middle
    half, reach = BOX // 2, BOX // 2 - 9
    ends = [(x - reach, y), (x + reach, y)] if bar == "H" else [(x, y - reach), (x, y + reach)]
    return [
        Box(x - half, y - half, BOX, BOX, "paper", "ink", 3.6 if is_turned else 1.3, 12 if is_bottom else 5),
        Line(ends, "ink", 5),
        Words(x - half + 4, y - half + 12, str(number), "start", 10 if number > 99 else 12),
    ]


def stub_shapes(plan, line, way, name, kind, left, top):
    """The short line of a start or an end, with its name."""
    x, y = plan.port(line, way)
    (dx, dy), reach = AWAY[line.side], plan.reaches[(line, way)]
    port, far = (x + left, y + top), (x + dx * reach + left, y + dy * reach + top)
    points, side = ([far, port], line.side) if way == IN else ([port, far], OPPOSITE[line.side])
    beside = "end" if plan.offsets[(line, way)] < 0 else "start"
    anchor = {"w": "end", "e": "start"}.get(line.side, beside)
    low = far[1] + (4 if dx else dy * 4 + (0 if dy < 0 else 10))
    return [*wire_shapes(points, side, kind), Words(far[0] + dx * 4, low, name, anchor)]


def circuit_scene(configuration, plan, banks, frames, made):
    """A circuit at its last frame, with the way of its signal."""
    left, top = 46, 30
    moment = picture.moment_of(configuration, frames, len(frames) - 1)
    scene = Scene(plan.width + 2 * left, plan.height + top + 30, made)
    bottoms = {column.bottom for bank in banks for column in bank.columns}
    for bank, spans in zip(banks, plan.spans):
        for column, box in zip(bank.columns, spans):
            scene.add(*span_shapes(box, moment.bars[column.bottom] == "H", left, top))
    ranks = ["", "past", "now"]
    for route in sorted(plan.routes, key=lambda it: ranks.index(moment.kinds.get(it.out, ""))):
        scene.add(*wire_shapes(moved(route.points, left, top), route.into.side, moment.kinds.get(route.out, "")))
    scene.add(*stub_shapes(plan, configuration.start, IN, "start", "", left, top))
    kind = moment.kinds.get(configuration.end, "")
    scene.add(*stub_shapes(plan, configuration.end, OUT, "end", kind, left, top))
    for element, middle in enumerate(plan.middles):
        at = (middle[0] + left, middle[1] + top)
        scene.add(*element_shapes(element, at, moment.bars[element], element in moment.turned, element in bottoms))
    x, y = picture.signal_at(plan, moment.frame)
    scene.add(Disc(x + left, y + top, 9, "", "signal", 2), Disc(x + left, y + top, 5.5, "signal", "paper", 1.5))
    return scene


# ---- the diagram of a machine

STATE = 27


def labels_of(rows):
    """The rules from state to state: for each pair, in order, what stands at its arrow."""
    found = {}
    for state, read, write, shift, after in rows:
        found.setdefault((state, after), []).append(f"{read}/{write} {shift}")
    return found


def on_circle(names, rows):
    """Where states stand: on a circle with room for the arrows, in the order of the table, the first one left."""
    count = len(names)
    longest = max((len(labels) for labels in labels_of(rows).values()), default=1)
    radius = 0 if count == 1 else max(95, (STATE * 2 + 62 + 7 * longest) / (2 * math.sin(math.pi / count)))
    angles = [math.pi + 2 * math.pi * place / count for place in range(count)]
    return {name: (radius * math.cos(angle), radius * math.sin(angle)) for name, angle in zip(names, angles)}


def unit(dx, dy):
    length = math.hypot(dx, dy) or 1
    return dx / length, dy / length


def label_shapes(x, y, labels):
    """Labels one below the other around a point, each on paper, so that no arrow goes through them."""
    shapes, top = [], y - 6.5 * (len(labels) - 1)
    for place, label in enumerate(labels):
        width = 6.1 * len(label) + 4
        shapes += [
            Box(x - width / 2, top + 13 * place - 7, width, 13, "paper", ""),
            Words(x, top + 13 * place + 4, label, size=11),
        ]
    return shapes


def arrow_shapes(start, goal, bend):
    """A curved arrow between two states, which bends to its left by so much; and the middle of the curve."""
    dx, dy = unit(goal[0] - start[0], goal[1] - start[1])
    middle = ((start[0] + goal[0]) / 2 + dy * bend * 2, (start[1] + goal[1]) / 2 - dx * bend * 2)
    out = unit(middle[0] - start[0], middle[1] - start[1])
    home = unit(middle[0] - goal[0], middle[1] - goal[1])
    begin = (start[0] + out[0] * STATE, start[1] + out[1] * STATE)
    tip_at = (goal[0] + home[0] * (STATE + 1), goal[1] + home[1] * (STATE + 1))
    end = (tip_at[0] + home[0] * 6, tip_at[1] + home[1] * 6)
    curve = [begin, *(tuple(a + (m - a) * 0.6 for a, m in zip(point, middle)) for point in (begin, end)), end]
    half = tuple((a + 3 * b + 3 * c + d) / 8 for a, b, c, d in zip(*curve))
    return [Line(curve, "wire", 1.5, is_curved=True), arrow_tip(tip_at, (-home[0], -home[1]), 9)], half


def loop_shapes(at, away, count):
    """The arrow from a state to itself, on the side that is away from the middle; and where its labels stand."""
    (x, y), (dx, dy) = at, away
    aside, far = (-dy, dx), STATE + 44
    begin = (x + dx * STATE * 0.86 + aside[0] * STATE * 0.5, y + dy * STATE * 0.86 + aside[1] * STATE * 0.5)
    tip_at = (x + dx * STATE * 0.86 - aside[0] * STATE * 0.5, y + dy * STATE * 0.86 - aside[1] * STATE * 0.5)
    first = (x + dx * far + aside[0] * 26, y + dy * far + aside[1] * 26)
    second = (x + dx * far - aside[0] * 26, y + dy * far - aside[1] * 26)
    home = unit(tip_at[0] - second[0], tip_at[1] - second[1])
    end = (tip_at[0] - home[0] * 6, tip_at[1] - home[1] * 6)
    high = STATE + 40 + 6.5 * (count - 1) * abs(dy) + 8 * abs(dx)
    return [Line([begin, first, second, end], "wire", 1.5, is_curved=True), arrow_tip(tip_at, home, 9)], (
        x + dx * high,
        y + dy * high,
    )


def state_shapes(at, name, is_start, is_final):
    """A state with its name; the one in which it halts has two rings, and an arrow leads to the first one."""
    (x, y), size = at, min(12, 2 * STATE * 1.55 / max(1, len(name)))
    shapes = [Disc(x, y, STATE, "paper", "ink", 1.5), Words(x, y + size * 0.33, name, size=size)]
    if is_final:
        shapes.insert(1, Disc(x, y, STATE - 4, "", "ink", 1.2))
    if is_start:
        shapes += [
            Line([(x - STATE - 26, y), (x - STATE - 8, y)], "ink", 1.5),
            arrow_tip((x - STATE - 1, y), (1, 0), 9, "ink"),
        ]
    return shapes


def points_of(shape):
    """The corners of what a shape covers."""
    if isinstance(shape, (Line, Area)):
        return shape.points
    if isinstance(shape, Disc):
        return [(shape.x - shape.radius, shape.y - shape.radius), (shape.x + shape.radius, shape.y + shape.radius)]
    if isinstance(shape, Box):
        return [(shape.x, shape.y), (shape.x + shape.width, shape.y + shape.height)]
    return [(shape.x, shape.y)]


def shifted(shape, dx, dy):
    """A shape that stands elsewhere."""
    if isinstance(shape, (Line, Area)):
        shape.points = [(x + dx, y + dy) for x, y in shape.points]
    else:
        shape.x, shape.y = shape.x + dx, shape.y + dy
    return shape


def fitted(shapes, made, margin=10):
    """A scene that has these shapes, wherever they stand, within its margin."""
    corners = [point for shape in shapes for point in points_of(shape)]
    left, top = (min(column) - margin for column in zip(*corners))
    right, bottom = (max(column) + margin for column in zip(*corners))
    return Scene(right - left, bottom - top, made, [shifted(shape, -left, -top) for shape in shapes])


def diagram_scene(rows, made):
    """The states of a table with its rules: at each arrow what is read and written, and the move."""
    names = list(dict.fromkeys(name for row in rows for name in (row[0], row[4])))
    at, shapes, labels = on_circle(names, rows), [], []
    pairs = labels_of(rows)
    for (state, after), told in pairs.items():
        if state == after:
            away = unit(*at[state]) if len(names) > 1 else (0, -1)
            drawn, place = loop_shapes(at[state], away, len(told))
        else:
            drawn, place = arrow_shapes(at[state], at[after], 17 if (after, state) in pairs else 9)
        shapes += drawn
        labels += label_shapes(*place, told)
    for name in names:
        shapes += state_shapes(at[name], name, name == rows[0][0], name == rows[-1][4])
    return fitted(shapes + labels, made)


# ---- tapes, and the hill

TITLES = {number: f"tape {number}: {name}" for number, name in NAMES.items()}


def tape_shapes(tape, x, y, width):
    """A tape's cells; the head's has a thick border and a mark above it."""
    shapes, head = [], []
    for place, symbol in enumerate(tape.symbols):
        left, is_head = x + place * width, tape.first + place == tape.head
        cell = Box(
            left, y, width, 24, "paper" if symbol == "_" else "full", "ink" if is_head else "rim", 2.4 if is_head else 1
        )
        words = Words(left + width / 2, y + 16, symbol, ink="quiet" if symbol == "_" else "ink")
        (head if is_head else shapes).extend([cell, words])
        if is_head:
            head.append(arrow_tip((left + width / 2, y - 2), (0, 1), 8, "ink"))
    return shapes + head


def tapes_scene(view, made):
    """The three tapes at a moment, below what the machine does there."""
    longest = max(len(symbol) for tape in view.tapes for symbol in tape.symbols)
    width, left = max(22, 8 * longest + 8), 112
    scene = Scene(left + width * max(len(tape.symbols) for tape in view.tapes) + 12, 44 + 44 * len(view.tapes), made)
    scene.add(Words(8, 18, f"{view.stage} {view.machine}, quadruple {view.quadruple}", "start", is_bold=True))
    least = min(tape.first for tape in view.tapes)
    for number, tape in enumerate(view.tapes, 1):
        top = 46 + 44 * (number - 1)
        scene.add(Words(8, top + 16, TITLES[number], "start"))
        scene.add(*tape_shapes(tape, left + width * (tape.first - least), top, width))
    scene.width += width * max(0, max(tape.first - least for tape in view.tapes))
    return scene


def hill_scene(views, made):
    """The length of the history at each moment, on the grounds of the three stages."""
    lengths = [history_length(view) for view in views]
    greatest = max(1, *lengths)
    step, tall = max(2, min(14, 620 / len(views))), max(40, min(180, 12 * greatest))
    left, top = 34, 26
    scene = Scene(left + step * len(views) + 12, top + tall + 34, made)
    before = None
    for number, (view, length) in enumerate(zip(views, lengths)):
        x, high = left + number * step, tall * length / greatest
        scene.add(Box(x, top, step, tall, view.stage, ""))
        if length:
            scene.add(Box(x, top + tall - high, step * 0.86, high, "hill", ""))
        if view.stage != before:
            scene.add(Line([(x, top - 16), (x, top + tall)], "quiet", 1), Words(x + 4, top - 6, view.stage, "start"))
        before = view.stage
    foot = top + tall
    scene.add(
        Line([(left, foot), (left + step * len(views), foot)], "ink", 1),
        Words(left - 5, foot + 4, "0", "end"),
        Words(left - 5, top + 9, str(max(lengths)), "end"),
        Words(left + step * len(views), foot + 18, f"{len(views)} moments", "end"),
    )
    assert all(view.stage in STAGES for view in views)
    return scene
