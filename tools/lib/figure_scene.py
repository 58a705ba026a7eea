"""A drawing as a list of shapes, which figure_writers.py writes as SVG, as TikZ and as PDF.

The unit is a pixel of SVG, three quarters of a point; x goes to the right and y down. Colours have names: PALETTE has
them in colour, GREYS for print in black and white, where nothing is told by a colour alone.
"""
from dataclasses import dataclass, field

PALETTE = {
    "ink": "222222",
    "paper": "FFFFFF",
    "pale": "F3F5F7",
    "rim": "B9C2CB",
    "wire": "4F7396",
    "past": "D9822B",
    "signal": "C0272B",
    "marked": "FBE2AE",
    "mark": "8A5A00",
    "quiet": "888888",
    "full": "E9E9E9",
    "compute": "DBE8F7",
    "copy": "FDEEBF",
    "retrace": "DCEFD6",
    "hill": "444455",
}
GREYS = {
    "ink": "000000",
    "paper": "FFFFFF",
    "pale": "F4F4F4",
    "rim": "AAAAAA",
    "wire": "444444",
    "past": "444444",
    "signal": "000000",
    "marked": "D0D0D0",
    "mark": "000000",
    "quiet": "777777",
    "full": "E2E2E2",
    "compute": "F2F2F2",
    "copy": "D4D4D4",
    "retrace": "F2F2F2",
    "hill": "333333",
}


@dataclass
class Line:
    """A way of straight pieces with corners of this radius, or, where it is curved, one cubic curve of four points."""

    points: list
    ink: str = "ink"
    width: float = 1.3
    is_dashed: bool = False
    radius: float = 0
    is_curved: bool = False


@dataclass
class Area:
    """A closed shape of straight sides, filled."""

    points: list
    fill: str = "ink"


@dataclass
class Box:
    """A rectangle by its corner, with round corners of this radius; `fill` or `ink` may be empty."""

    x: float
    y: float
    width: float
    height: float
    fill: str = "paper"
    ink: str = "ink"
    stroke: float = 1.3
    radius: float = 0


@dataclass
class Disc:
    """A circle by its middle."""

    x: float
    y: float
    radius: float
    fill: str = ""
    ink: str = "ink"
    stroke: float = 1.3


@dataclass
class Words:
    """Words on a base line; the anchor is start, middle or end."""

    x: float
    y: float
    text: str
    anchor: str = "middle"
    size: float = 12
    ink: str = "ink"
    is_bold: bool = False


@dataclass
class Scene:
    """A drawing: its size, its shapes from the lowest to the uppermost, and how it was made."""

    width: float
    height: float
    made: str = ""
    shapes: list = field(default_factory=list)

    def add(self, *shapes):
        self.shapes += shapes


def arrow_tip(point, direction, size=8, ink="wire"):
    """The tip of an arrow that comes to this point in this direction, of length one."""
    (x, y), (dx, dy) = point, direction
    back, half = (x - dx * size, y - dy * size), size * 0.44
    return Area([(x, y), (back[0] - dy * half, back[1] + dx * half), (back[0] + dy * half, back[1] - dx * half)], ink)
