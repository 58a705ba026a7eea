"""What the pictures of tapes share: the three stages with their tints, and rows of cells."""
from page import escaped

STAGES = ["compute", "copy", "retrace"]
TINTS = {"compute": "#dbe8f7", "copy": "#fdeebf", "retrace": "#dcefd6"}
NAMES = {1: "work", 2: "history", 3: "output"}
STYLE = """
  .tapes text { font: 12px sans-serif; fill: #222; }
  .tapes .symbol { font: 12px monospace; text-anchor: middle; }
  .tapes .blank { fill: #aaa; }
  .tapes .cell { fill: #fff; stroke: #bbb; stroke-width: 1; }
  .tapes .full { fill: #e9e9e9; }
  .tapes .head { stroke: #111; stroke-width: 2.4; }
  .tapes .bold { font-weight: bold; }
"""


def cells(tape, x, y, width, height):
    """A tape's cells from this corner on; the head's cell has a thick border, and comes last so that it lies above."""
    parts = []
    for number, symbol in enumerate(tape.symbols):
        is_head = tape.head is not None and tape.first + number == tape.head
        kinds = "cell" + ("" if symbol == "_" else " full") + (" head" if is_head else "")
        text = "symbol" + (" blank" if symbol == "_" else "")
        left, baseline = x + number * width, y + height / 2 + (1 if symbol == "_" else 4)
        parts.append(
            (
                is_head,
                f'<rect class="{kinds}" x="{left}" y="{y}" width="{width}" height="{height}"/>'
                f'<text class="{text}" x="{left + width / 2:g}" y="{baseline:g}">{escaped(symbol)}</text>',
            )
        )
    return "".join(part for _, part in sorted(parts, key=lambda it: it[0])) + "\n"


def cell_width(tapes, least=18):
    """A width at which the longest symbol fits."""
    longest = max(len(symbol) for tape in tapes for symbol in tape.symbols)
    return max(least, 8 * longest + 6)


def history_length(view):
    """How many cells of the history aren't blank."""
    return sum(symbol != "_" for symbol in view.tapes[1].symbols)


def svg(width, height, body, made, extra=""):
    """The whole picture, with how it was made as its description."""
    return (
        f'<svg class="tapes" xmlns="http://www.w3.org/2000/svg" width="{width}" height="{height}" '
        f'viewBox="0 0 {width} {height}" role="img">\n<desc>{escaped(made)}</desc>\n<style>{STYLE}{extra}</style>\n'
        f'<rect width="{width}" height="{height}" fill="#fff"/>\n{body}</svg>\n'
    )
