"""The pictures of a farm as SVG: its boards beside each other, and its schedule as a time line."""
import picture
from circuit import banks_of, columns_of
from page import escaped
from wiring import plan_of
from workbench_text import frame_of

STYLE = """
  .farm text { font: 12px sans-serif; fill: #222; }
  .farm .bold { font-weight: bold; }
  .farm .mono { font-family: monospace; }
  .farm .ground { fill: #fff; stroke: #ccc; stroke-width: 1; }
  .farm .ground.moved { stroke: #c0272b; stroke-width: 3; }
  .farm .lane { stroke: #ccc; stroke-width: 1; fill: none; }
  .farm .forward { fill: #2b5d8a; stroke: #2b5d8a; stroke-width: 1.3; }
  .farm .backward { fill: #b8660e; stroke: #b8660e; stroke-width: 1.3; }
  .farm .none { fill: #fff; }
  .farm .cursor { fill: #fbe3df; stroke: #c0272b; stroke-width: 1.5; }
  .farm .ahead { opacity: .35; }
"""
WIDEST = 1000
GAP = 14
LEFT = 92
LANE = 42
HEAD = 46
MOST_LINES = 40


class Board:
    """A board as a picture of these frames shows it: its circuit with its plan, and where they have led it so far."""

    def __init__(self, number, configuration, frames=()):
        self.number, self.configuration = number, configuration
        self.banks = banks_of(configuration, columns_of(configuration))
        self.plan = plan_of(configuration, self.banks)
        self.first = self.frame = frame_of(configuration, configuration)
        self.bars, self.turned, self.way = list(configuration.bars), set(), []
        own = [played.frame for played in frames if played.event.board == number]
        self.longest = max(len(self.words_of(frame)) for frame in [self.first, *own])

    @property
    def ids(self):
        return f"board-{self.number}-"

    @property
    def words(self):
        return self.words_of(self.frame)

    def words_of(self, frame):
        return f"board {self.number}: steps {frame.steps} {frame.place_text}"

    def advance(self, played, is_single):
        """Goes on to a frame. Gives how many wires of the way are kept, and the ids of those that come behind them.

        By single events the way grows with each step and shrinks with each step back. By whole text lines only that
        wire is known which the signal is on.
        """
        self.frame, self.turned, kept, more = played.frame, set(), len(self.way), []
        for element, bar in played.frame.changed:
            self.bars[element] = bar
            self.turned.add(element)
        out = picture.drawn_wire(self.configuration, played.frame)
        if played.made and is_single and not played.event.is_forward:
            kept = max(0, kept - 1)
        elif played.made:
            kept = kept if is_single else 0
            more = [out] if is_single or played.frame.steps != self.first.steps else []
        self.way = self.way[:kept] + more
        return kept, [picture.wire_id(it) if it else "" for it in more]

    def moment(self, is_moved):
        """What the picture of the board shows now; a bar has just turned where the last event was the board's own."""
        kinds = {out: "past" for out in self.way if out}
        if self.way and self.way[-1]:
            kinds[self.way[-1]] = "now"
        return picture.Moment(self.frame, self.bars, self.turned if is_moved else set(), kinds)

    def size(self):
        """The size of its ground, on which its words have room at each frame."""
        return max(self.plan.width + 92, 8 * self.longest + 40), self.plan.height + 84

    def group(self, x, y, is_moved):
        """The board from this corner on, on a ground of its own with its words below."""
        width, height = self.size()
        kind = " moved" if is_moved else ""
        drawn = picture.circuit_group(self.configuration, self.plan, self.banks, self.moment(is_moved), self.ids)
        return (
            f'<g id="board-{self.number}" transform="translate({x} {y})"><rect id="{self.ids}ground" '
            f'class="ground{kind}" x="2" y="2" width="{width - 4}" height="{height - 4}" rx="8"/>\n'
            f'<g transform="translate(46 34)">\n{drawn}</g>\n'
            f'<text id="{self.ids}words" class="bold" x="14" y="{height - 14}">{escaped(self.words)}</text></g>\n'
        )


def boards_group(boards, moved):
    """The boards on shelves, that of the last event marked; and the size of them all."""
    body, x, y, tallest, widest = "", 0, 0, 0, 0
    for board in boards:
        width, height = board.size()
        if x and x + width > WIDEST:
            x, y, tallest = 0, y + tallest + GAP, 0
        body += board.group(x, y, board.number == moved)
        x, tallest = x + width + GAP, max(tallest, height)
        widest = max(widest, x - GAP)
    return body, widest, y + tallest


def made_text(played):
    """How many steps a text line made, and of how many where they weren't all."""
    return str(played.made) if played.made == played.event.steps else f"{played.made} of {played.event.steps}"


def arrow(x, y, played):
    """The mark of a text line around this point: an arrow forward or back, hollow where it made no step."""
    kind = ("forward" if played.event.is_forward else "backward") + ("" if played.made else " none")
    ahead = 1 if played.event.is_forward else -1
    points = [(-16, -3), (2, -3), (2, -8), (16, 0), (2, 8), (2, 3), (-16, 3)]
    path = " L".join(f"{x + ahead * across:g},{y + down}" for across, down in points)
    return f'<path class="{kind}" d="M{path} z"/>'


def column(played, x, width, lanes):
    """A text line, its mark with the steps made, and the text line that undoes it, below each other."""
    middle = x + width / 2
    y = HEAD + LANE * (played.event.board - 1)
    foot = HEAD + LANE * lanes + 20
    return (
        f'<g data-line="{played.number}"><title>text line {played.number} of the schedule</title>'
        f'<text x="{middle:g}" y="16" text-anchor="middle">{played.number}</text>'
        f'<text class="bold mono" x="{middle:g}" y="34" text-anchor="middle">{played.event}</text>'
        f"{arrow(middle, y + 14, played)}"
        f'<text x="{middle:g}" y="{y + 35}" text-anchor="middle">{made_text(played)}</text>'
        f'<text id="undoing-{played.number}" class="mono" x="{middle:g}" y="{foot}" text-anchor="middle">'
        f'{played.undoing or "-"}</text></g>\n'
    )


def cursor(place, width, height):
    """The ground of the text line at this place, or a hidden one."""
    hidden, x = ' visibility="hidden"' if place is None else "", LEFT + width * (place or 0)
    return (
        f'<rect id="cursor" class="cursor" data-left="{LEFT}" data-step="{width}" x="{x}" y="2" width="{width}" '
        f'height="{height - 6}" rx="5"{hidden}/>\n'
    )


def timeline_group(boards, lines, chosen, most=MOST_LINES):
    """The schedule: a lane a board, a mark a text line, that of the chosen one marked; and the size of it all."""
    shown = lines[-most:]
    width = max([50] + [8 * max(len(str(it.event)), len(it.undoing), len(made_text(it))) + 14 for it in shown])
    right, lanes = LEFT + width * len(shown) + 10, len(boards)
    height = HEAD + LANE * lanes + 44
    body = cursor(next((place for place, it in enumerate(shown) if it.number == chosen), None), width, height)
    for number in range(lanes):
        y = HEAD + LANE * number
        body += (
            f'<path class="lane" d="M{LEFT},{y + 14} H{right - 10}"/>'
            f'<text x="8" y="{y + 18}">board {number + 1}</text>\n'
        )
    foot = HEAD + LANE * lanes + 20
    body += f'<text x="8" y="34">schedule</text><text x="8" y="{foot}">undone by</text>\n'
    body += f'<text x="{LEFT - 8}" y="34" text-anchor="end">…</text>\n' if len(shown) < len(lines) else ""
    body += "".join(column(it, LEFT + width * place, width, lanes) for place, it in enumerate(shown))
    if shown:
        body += (
            f'<path class="lane" d="M{right - 10},{foot + 10} H{LEFT + 8}"/>'
            f'<path d="M{LEFT},{foot + 10} l9,-4 v8 z" fill="#777"/>\n'
        )
    return body, max(right, 200), height


def svg(kind, body, width, height, made):
    """A whole picture, with how it was made as its description."""
    return (
        f'<svg class="{kind}" xmlns="http://www.w3.org/2000/svg" width="{width}" height="{height}" '
        f'viewBox="0 0 {width} {height}" role="img">\n<desc>{escaped(made)}</desc>\n'
        f"<style>{picture.STYLE}{STYLE}</style>\n"
        f'<rect width="{width}" height="{height}" fill="#fff"/>\n{body}</svg>\n'
    )
