"""Where elements stand in a picture of a circuit, and how its wires run between them.

Elements stand in a grid. Between its columns are upright channels and between its rows lying ones; a wire leaves its
element into the nearest channel and runs in tracks of channels, and no two wires share a piece of track. The four
lines of an element have places of their own on each side, so that pieces between an element and a track never lie on
one another either. Wires only cross.
"""
import math
from dataclasses import dataclass, field

from workbench_text import Line

BOX = 46
TRACK = 9
MARGIN = 15
IN, OUT = "in", "out"
# How far from the middle of a side a line stands: opposite sides of a channel have four different places. Where two
# neighbours are joined straight, both stand at the same place, that of the output.
OFFSETS = {
    ("e", OUT): -13,
    ("w", IN): -6,
    ("w", OUT): 13,
    ("e", IN): 6,
    ("s", OUT): -13,
    ("n", IN): -6,
    ("n", OUT): 13,
    ("s", IN): 6,
}
OPPOSITE = {"n": "s", "s": "n", "e": "w", "w": "e"}
STEP = {"n": (0, -1), "e": (1, 0), "s": (0, 1), "w": (-1, 0)}


@dataclass
class Route:
    """A wire with the points of its way."""

    out: Line
    into: Line
    points: list


@dataclass
class Plan:
    """A picture's plan: the middle of each element, the routes of the wires, the places of lines, and its size."""

    middles: list
    routes: list
    offsets: dict
    width: int
    height: int
    reaches: dict = field(default_factory=dict)
    spans: list = field(default_factory=list)

    def port(self, line, way):
        """The point at which a line meets its box."""
        x, y = self.middles[line.element]
        return port_at(x, y, line.side, self.offsets[(line, way)])


def port_at(x, y, side, offset):
    dx, dy = STEP[side]
    half = BOX // 2
    return (x + dx * half + (offset if dx == 0 else 0), y + dy * half + (offset if dy == 0 else 0))


def grid_of(count, banks):
    """The grid place (column, row) of each element: banks side by side on shelves, then the other elements."""
    places = [None] * count
    in_banks = sum(len(bank.elements) for bank in banks)
    widest = max([len(bank.columns) for bank in banks], default=0)
    limit = max(widest, 12, math.ceil(math.sqrt(1.5 * in_banks)))
    across, top, tallest = 0, 0, 0
    for bank in banks:
        if across and across + len(bank.columns) > limit:
            across, top, tallest = 0, top + tallest, 0
        for column in bank.columns:
            for row, element in enumerate(column.elements):
                places[element] = (across, top + row)
            across += 1
        tallest = max(tallest, bank.height + 1)
    others = [element for element in range(count) if places[element] is None]
    width = len(others) if len(others) <= 6 else math.ceil(math.sqrt(1.6 * len(others)))
    for number, element in enumerate(others):
        places[element] = (number % width, top + tallest + number // width)
    return places


def straight_wires(configuration, places):
    """The wires between neighbours that face each other."""
    found = set()
    for out, into in configuration.wires():
        dx, dy = STEP[out.side]
        x, y = places[out.element]
        if into.side == OPPOSITE[out.side] and places[into.element] == (x + dx, y + dy):
            found.add(out)
    return found


def offsets_of(configuration, straight):
    """The place on its side of each line of each element."""
    offsets = {}
    for element in range(configuration.count):
        for side in "nesw":
            for way in (IN, OUT):
                offsets[(Line(element, side), way)] = OFFSETS[(side, way)]
    for out in straight:
        offsets[(configuration.target(out), IN)] = OFFSETS[(out.side, OUT)]
    return offsets


@dataclass
class Piece:
    """A piece of track that a wire takes: its channel, and from where to where along it, in half grid places."""

    is_upright: bool
    channel: int
    least: int
    greatest: int
    track: int = -1


def channel_of(place, side):
    """The channel into which a side looks: (whether it is upright, its number). Channel i lies before place i."""
    x, y = place
    if side in "ew":
        return True, x + (side == "e")
    return False, y + (side == "s")


def along(place, is_upright):
    """Where an element stands along a channel, in half grid places: elements are odd, crossing channels even."""
    return 2 * (place[1] if is_upright else place[0]) + 1


class Router:
    """Gives each wire its pieces of track, and each piece its track."""

    def __init__(self, configuration, places, straight):
        self.configuration = configuration
        self.places = places
        self.straight = straight
        self.load = {}
        self.pieces = {}

    def nearest(self, is_upright, first, second):
        """The channel across, by which a wire comes from one place along a channel to another: near, and not full."""
        least, greatest = min(first, second), max(first, second)
        last = max(place[0 if is_upright else 1] for place in self.places) + 1
        choices = range(max(0, least // 2 - 1), min(last, greatest // 2 + 2) + 1)

        def cost(channel):
            at = 2 * channel
            detour = max(0, least - at) + max(0, at - greatest)
            return detour + self.load.get((is_upright, channel), 0) / 3, channel

        return min(choices, key=cost)

    def piece(self, is_upright, channel, first, second):
        self.load[(is_upright, channel)] = self.load.get((is_upright, channel), 0) + 1
        return Piece(is_upright, channel, min(first, second), max(first, second))

    def way(self, out, into):
        """The pieces of a wire, from its output to its input."""
        start, goal = self.places[out.element], self.places[into.element]
        (first_up, first), (last_up, last) = channel_of(start, out.side), channel_of(goal, into.side)
        here, there = along(start, first_up), along(goal, last_up)
        if first_up != last_up:
            return [self.piece(first_up, first, here, 2 * last), self.piece(last_up, last, 2 * first, there)]
        if first == last:
            return [self.piece(first_up, first, here, there)]
        across = self.nearest(not first_up, here, there)
        return [
            self.piece(first_up, first, here, 2 * across),
            self.piece(not first_up, across, 2 * first, 2 * last),
            self.piece(last_up, last, 2 * across, there),
        ]

    def route(self):
        """Gives every wire that isn't straight its pieces, short ones first, and every piece a track."""

        def length(wire):
            out, into = wire
            (a, b), (c, d) = self.places[out.element], self.places[into.element]
            return abs(a - c) + abs(b - d)

        wires = [(out, into) for out, into in self.configuration.wires() if out not in self.straight]
        for out, into in sorted(wires, key=length):
            self.pieces[out] = self.way(out, into)
        self.tracks = tracks_of([piece for way in self.pieces.values() for piece in way])


def tracks_of(pieces):
    """Gives each piece the first track of its channel that is free along it; the number of tracks of each channel."""
    taken = {}
    for piece in sorted(pieces, key=lambda it: (it.greatest - it.least, it.least)):
        tracks = taken.setdefault((piece.is_upright, piece.channel), [])
        for number, track in enumerate(tracks):
            if all(piece.greatest < least or greatest < piece.least for least, greatest in track):
                break
        else:
            number = len(tracks)
            tracks.append([])
        tracks[number].append((piece.least, piece.greatest))
        piece.track = number
    return {channel: len(tracks) for channel, tracks in taken.items()}


def axis(count, tracks, is_upright):
    """Where the channels before the places 0 to count begin, and where the boxes of the places begin."""
    channels, boxes, at = [], [], 0
    for number in range(count + 1):
        channels.append(at)
        at += 2 * MARGIN + max(0, tracks.get((is_upright, number), 0) - 1) * TRACK
        boxes.append(at)
        at += BOX
    return channels, boxes[:count], at - BOX


def track_at(piece, channels):
    """The coordinate of a piece's track."""
    return channels[piece.channel] + MARGIN + piece.track * TRACK


def points_of(start, goal, pieces, across, down):
    """The points of a wire: from its output by its tracks to its input."""
    points = [start]
    x, y = start
    for piece in pieces:
        if piece.is_upright:
            x = track_at(piece, across)
        else:
            y = track_at(piece, down)
        points.append((x, y))
    points.append((x, goal[1]) if pieces and pieces[-1].is_upright else (goal[0], y))
    points.append(goal)
    return points


def plan_of(configuration, banks):
    """The plan of a picture of this circuit."""
    places = grid_of(configuration.count, banks)
    straight = straight_wires(configuration, places)
    offsets = offsets_of(configuration, straight)
    router = Router(configuration, places, straight)
    router.route()
    columns, rows = (max(place[axis_number] for place in places) + 1 for axis_number in (0, 1))
    across, lefts, width = axis(columns, router.tracks, True)
    down, tops, height = axis(rows, router.tracks, False)
    middles = [(lefts[x] + BOX // 2, tops[y] + BOX // 2) for x, y in places]
    plan = Plan(middles, [], offsets, width, height)
    for out, into in configuration.wires():
        start, goal = plan.port(out, OUT), plan.port(into, IN)
        points = [start, goal] if out in straight else points_of(start, goal, router.pieces[out], across, down)
        plan.routes.append(Route(out, into, points))
    edges = {"w": lefts[0], "n": tops[0], "e": width - across[columns], "s": height - down[rows]}
    for line, way in ((configuration.start, IN), (configuration.end, OUT)):
        plan.reaches[(line, way)] = reach_of(places[line.element], line.side, (columns, rows), edges)
    plan.spans = [span_of(bank, middles) for bank in banks]
    return plan


def reach_of(place, side, counts, edges):
    """How long the line of a start or an end is drawn: across an outermost channel, and short in others."""
    is_upright, channel = channel_of(place, side)
    is_outermost = channel in (0, counts[0 if is_upright else 1])
    return edges[side] + 4 if is_outermost else 22


def span_of(bank, middles):
    """The boxes around the columns of a bank: left, top, right, bottom of each."""
    spans = []
    for column in bank.columns:
        points = [middles[element] for element in column.elements]
        reach = BOX // 2 + 5
        spans.append(
            (
                min(x for x, _ in points) - reach,
                min(y for _, y in points) - reach,
                max(x for x, _ in points) + reach,
                max(y for _, y in points) + reach,
            )
        )
    return spans
