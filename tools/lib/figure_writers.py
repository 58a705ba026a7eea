"""Writes a scene as SVG, as TikZ or as PDF. All three are vector drawings, and none needs more than Python.

The words of TikZ have the document's own font. Those of SVG have the family that is asked for, and those of PDF one of
the three families that each viewer has: Helvetica, Times or Courier, named and not embedded.
"""
import html

from figure_scene import GREYS, PALETTE, Area, Box, Disc, Line, Words
from workbench_text import Fault

KINDS = ["svg", "tikz", "pdf"]
FAMILIES = {
    "sans": ("sans-serif", "Helvetica", "Helvetica-Bold"),
    "serif": ("serif", "Times-Roman", "Times-Bold"),
    "mono": ("monospace", "Courier", "Courier-Bold"),
}
POINTS = 0.75
# How far the middle of a quarter of a circle is from its ends, as a cubic curve has it.
ROUND = 0.5523
# Widths of letters, as shares of the size, roughly: PDF places words by them, and no more than that.
NARROW, WIDE = "iljtf.,:;'|()[]-_ ", "mwMW"


def number(value):
    return f"{value:.2f}".rstrip("0").rstrip(".")


def colours_of(is_grey):
    return GREYS if is_grey else PALETTE


def rounded_pieces(line):
    """A line's way with its corners: ("to", point), or ("bend", corner, point) where it bends."""
    points = [point for place, point in enumerate(line.points) if place == 0 or point != line.points[place - 1]]
    pieces = [("to", points[0])]
    for before, here, after in zip(points, points[1:], points[2:]):
        if line.radius:
            pieces += [("to", toward(here, before, line.radius)), ("bend", here, toward(here, after, line.radius))]
        else:
            pieces.append(("to", here))
    return [*pieces, ("to", points[-1])]


def toward(start, goal, far):
    """The point so far from the start toward the goal, at most half the way."""
    dx, dy = goal[0] - start[0], goal[1] - start[1]
    length = (dx * dx + dy * dy) ** 0.5
    part = min(far, length / 2) / length if length else 0
    return start[0] + dx * part, start[1] + dy * part


def written(scene, kind, is_grey=False, font="sans"):
    """A scene in one of the three kinds, as bytes."""
    if kind == "pdf":
        if font not in FAMILIES:
            raise Fault(f"a PDF has the fonts {', '.join(FAMILIES)}, and not {font!r}")
        return pdf_of(scene, is_grey, font)
    return (tikz_of(scene, is_grey) if kind == "tikz" else svg_of(scene, is_grey, font)).encode()


def add_style(parser):
    """The options of how a figure looks."""
    parser.add_argument("--grey", action="store_true", help="a figure in black and white")
    parser.add_argument(
        "--font",
        metavar="NAME",
        default="sans",
        help="the font of a figure: sans, serif, mono, in SVG any family; TikZ has the document's own",
    )


# ---- SVG


def svg_line(it, colours):
    at = [f"{number(x)},{number(y)}" for x, y in it.points]
    if it.is_curved:
        way = f"M{at[0]} C{' '.join(at[1:])}"
    else:
        way = "M"
        for kind, *points in rounded_pieces(it):
            told = " ".join(f"{number(x)},{number(y)}" for x, y in points)
            way += (" L" if kind == "to" and way != "M" else " Q" if kind == "bend" else "") + told
    dash = ' stroke-dasharray="6 3"' if it.is_dashed else ""
    return (
        f'<path d="{way}" fill="none" stroke="#{colours[it.ink]}" stroke-width="{number(it.width)}" '
        f'stroke-linejoin="round"{dash}/>'
    )


def svg_paint(it, colours):
    fill = f"#{colours[it.fill]}" if it.fill else "none"
    stroke = f' stroke="#{colours[it.ink]}" stroke-width="{number(it.stroke)}"' if it.ink else ""
    return f'fill="{fill}"{stroke}'


def svg_shape(it, colours):
    if isinstance(it, Line):
        return svg_line(it, colours)
    if isinstance(it, Area):
        at = " ".join(f"{number(x)},{number(y)}" for x, y in it.points)
        return f'<polygon points="{at}" fill="#{colours[it.fill]}"/>'
    if isinstance(it, Box):
        size = f'width="{number(it.width)}" height="{number(it.height)}" rx="{number(it.radius)}"'
        return f'<rect x="{number(it.x)}" y="{number(it.y)}" {size} {svg_paint(it, colours)}/>'
    if isinstance(it, Disc):
        return f'<circle cx="{number(it.x)}" cy="{number(it.y)}" r="{number(it.radius)}" {svg_paint(it, colours)}/>'
    bold = ' font-weight="bold"' if it.is_bold else ""
    at = f'x="{number(it.x)}" y="{number(it.y)}" text-anchor="{it.anchor}" font-size="{number(it.size)}"{bold}'
    return f'<text {at} fill="#{colours[it.ink]}">{html.escape(it.text)}</text>'


def svg_of(scene, is_grey=False, font="sans"):
    """A scene as SVG. The font is one of the families, or any name that `font-family` takes."""
    colours, family = colours_of(is_grey), FAMILIES.get(font, (font,))[0]
    body = "\n".join(svg_shape(it, colours) for it in scene.shapes)
    width, height = number(scene.width), number(scene.height)
    return (
        f'<svg xmlns="http://www.w3.org/2000/svg" width="{width}" height="{height}" viewBox="0 0 {width} {height}" '
        f'font-family="{html.escape(family)}" role="img">\n'
        f"<desc>{html.escape(scene.made)}</desc>\n{body}\n</svg>\n"
    )


# ---- TikZ

SPECIAL = {
    "\\": r"\textbackslash{}",
    "~": r"\textasciitilde{}",
    "^": r"\textasciicircum{}",
    "<": r"\textless{}",
    ">": r"\textgreater{}",
    "|": r"\textbar{}",
    '"': r"\textquotedbl{}",
    "`": r"\textasciigrave{}",
    **{letter: "\\" + letter for letter in "#$%&_{}"},
}
ANCHORS = {"start": "base west", "middle": "base", "end": "base east"}


def tex(text):
    """Words for TeX, letter by letter."""
    return "".join(SPECIAL.get(letter, letter) for letter in text.replace('"', "''"))


def tikz_at(points):
    return " -- ".join(f"({number(x)},{number(y)})" for x, y in points)


def tikz_paint(it):
    said = [f"fill=hithwelor{it.fill}"] if it.fill else []
    said += [f"draw=hithwelor{it.ink}", f"line width={number(it.stroke * POINTS)}bp"] if it.ink else []
    return ",".join(said)


def tikz_line(it):
    said = [f"draw=hithwelor{it.ink}", f"line width={number(it.width * POINTS)}bp", "line join=round"]
    if it.is_dashed:
        said.append("dash pattern=on 4.5bp off 2.25bp")
    if it.radius:
        said.append(f"rounded corners={number(it.radius * POINTS)}bp")
    if it.is_curved:
        start, first, second, end = (f"({number(x)},{number(y)})" for x, y in it.points)
        return rf"\path[{','.join(said)}] {start} .. controls {first} and {second} .. {end};"
    points = [point for place, point in enumerate(it.points) if place == 0 or point != it.points[place - 1]]
    return rf"\path[{','.join(said)}] {tikz_at(points)};"


def tikz_shape(it):
    if isinstance(it, Line):
        return tikz_line(it)
    if isinstance(it, Area):
        return rf"\path[fill=hithwelor{it.fill}] {tikz_at(it.points)} -- cycle;"
    if isinstance(it, Box):
        corners = f",rounded corners={number(it.radius * POINTS)}bp" if it.radius else ""
        far = (it.x + it.width, it.y + it.height)
        return (
            rf"\path[{tikz_paint(it)}{corners}] ({number(it.x)},{number(it.y)}) "
            f"rectangle ({number(far[0])},{number(far[1])});"
        )
    if isinstance(it, Disc):
        at, radius = f"({number(it.x)},{number(it.y)})", number(it.radius * POINTS)
        return rf"\path[{tikz_paint(it)}] {at} circle[radius={radius}bp];"
    bold = r",font=\bfseries" if it.is_bold else ""
    scale = number(it.size / 12)
    return (
        rf"\node[anchor={ANCHORS[it.anchor]},inner sep=0pt,text=hithwelor{it.ink},scale={scale}{bold}] "
        rf"at ({number(it.x)},{number(it.y)}) {{\hithwelorsize {tex(it.text)}}};"
    )


def tikz_of(scene, is_grey=False):
    """A scene as TikZ, for \\input in a document that loads tikz. Its words have the document's font, at 9 points; a
    document may define \\hithwelorsize otherwise."""
    colours = colours_of(is_grey)
    used = sorted({name for it in scene.shapes for name in (getattr(it, "ink", ""), getattr(it, "fill", "")) if name})
    defined = "".join(rf"\definecolor{{hithwelor{name}}}{{HTML}}{{{colours[name]}}}" + "%\n" for name in used)
    body = "\n".join(tikz_shape(it) for it in scene.shapes)
    return (
        f"% {scene.made}\n{defined}\\providecommand\\hithwelorsize{{\\fontsize{{9}}{{10}}\\selectfont}}%\n"
        f"\\begin{{tikzpicture}}[x={POINTS}bp,y=-{POINTS}bp]\n"
        f"\\useasboundingbox (0,0) rectangle ({number(scene.width)},{number(scene.height)});\n{body}\n"
        "\\end{tikzpicture}%\n"
    )


# ---- PDF


def pdf_colour(name, colours, operator):
    red, green, blue = (int(colours[name][place : place + 2], 16) / 255 for place in (0, 2, 4))
    return f"{number(red)} {number(green)} {number(blue)} {operator}"


def pdf_paint(it, colours):
    """What stands before a closed way, and the operator behind it."""
    said = [pdf_colour(it.fill, colours, "rg")] if it.fill else []
    if it.ink:
        said += [pdf_colour(it.ink, colours, "RG"), f"{number(it.stroke)} w"]
    return (
        " ".join(said),
        {(True, True): "B", (True, False): "f", (False, True): "S", (False, False): "n"}[bool(it.fill), bool(it.ink)],
    )


def pdf_points(points):
    return " ".join(f"{number(x)} {number(y)}" for x, y in points)


def pdf_line(it, colours):
    if it.is_curved:
        way = f"{pdf_points(it.points[:1])} m {pdf_points(it.points[1:])} c"
    else:
        way, here = "", None
        for kind, *points in rounded_pieces(it):
            if kind == "bend":
                corner, after = points
                bent = [tuple(a + (c - a) * 2 / 3 for a, c in zip(end, corner)) for end in (here, after)]
                way += f"{pdf_points([*bent, after])} c "
            else:
                way += f"{pdf_points(points)} {'l' if way else 'm'} "
            here = points[-1]
    dash = "[6 3] 0 d" if it.is_dashed else "[] 0 d"
    return f"{pdf_colour(it.ink, colours, 'RG')} {number(it.width)} w {dash} 1 j {way} S [] 0 d"


def pdf_round(x, y, width, height, radius):
    """The way around a rectangle with round corners; a circle is one that is all corners."""
    right, low, k = x + width, y + height, radius * (1 - ROUND)
    r = radius
    return (
        f"{pdf_points([(x + r, y)])} m {pdf_points([(right - r, y)])} l "
        f"{pdf_points([(right - k, y), (right, y + k), (right, y + r)])} c {pdf_points([(right, low - r)])} l "
        f"{pdf_points([(right, low - k), (right - k, low), (right - r, low)])} c {pdf_points([(x + r, low)])} l "
        f"{pdf_points([(x + k, low), (x, low - k), (x, low - r)])} c {pdf_points([(x, y + r)])} l "
        f"{pdf_points([(x, y + k), (x + k, y), (x + r, y)])} c h"
    )


def width_of(text, size, is_mono):
    """About how wide words are: PDF has no anchors."""
    if is_mono:
        return 0.6 * size * len(text)
    shares = (0.29 if it in NARROW else 0.86 if it in WIDE else 0.68 if it.isupper() else 0.54 for it in text)
    return size * sum(shares)


def pdf_words(it, colours, font):
    said = it.text.encode("cp1252", errors="replace")
    said = b"".join(b"\\" + bytes([it]) if it in b"()\\" else bytes([it]) for it in said).decode("cp1252")
    back = {"start": 0, "middle": 0.5, "end": 1}[it.anchor] * width_of(it.text, it.size, font == "mono")
    name = "FB" if it.is_bold else "FR"
    return (
        f"{pdf_colour(it.ink, colours, 'rg')} BT /{name} {number(it.size)} Tf 1 0 0 -1 {number(it.x - back)} "
        f"{number(it.y)} Tm ({said}) Tj ET"
    )


def pdf_shape(it, colours, font):
    if isinstance(it, Line):
        return pdf_line(it, colours)
    if isinstance(it, Area):
        way = f"{pdf_points(it.points[:1])} m " + " ".join(f"{pdf_points([point])} l" for point in it.points[1:])
        return f"{pdf_colour(it.fill, colours, 'rg')} {way} h f"
    if isinstance(it, Words):
        return pdf_words(it, colours, font)
    before, after = pdf_paint(it, colours)
    if isinstance(it, Disc):
        side = 2 * it.radius
        return f"{before} {pdf_round(it.x - it.radius, it.y - it.radius, side, side, it.radius)} {after}"
    if not it.radius:
        return f"{before} {pdf_points([(it.x, it.y)])} {number(it.width)} {number(it.height)} re {after}"
    return f"{before} {pdf_round(it.x, it.y, it.width, it.height, it.radius)} {after}"


def pdf_of(scene, is_grey=False, font="sans"):
    """A scene as a PDF of one page, as bytes. The font is one of the families."""
    colours, (_, plain, bold) = colours_of(is_grey), FAMILIES[font]
    width, height = scene.width * POINTS, scene.height * POINTS
    drawn = [f"{POINTS} 0 0 -{POINTS} 0 {number(height)} cm", *(pdf_shape(it, colours, font) for it in scene.shapes)]
    content = "\n".join(drawn).encode("cp1252")
    objects = [
        b"<< /Type /Catalog /Pages 2 0 R >>",
        b"<< /Type /Pages /Kids [3 0 R] /Count 1 >>",
        (
            f"<< /Type /Page /Parent 2 0 R /MediaBox [0 0 {number(width)} {number(height)}] "
            "/Resources << /Font << /FR 5 0 R /FB 6 0 R >> >> /Contents 4 0 R >>"
        ).encode(),
        f"<< /Length {len(content)} >>\nstream\n".encode() + content + b"\nendstream",
        *(
            f"<< /Type /Font /Subtype /Type1 /BaseFont /{base} /Encoding /WinAnsiEncoding >>".encode()
            for base in (plain, bold)
        ),
    ]
    data, places = b"%PDF-1.4\n", []
    for count, it in enumerate(objects, 1):
        places.append(len(data))
        data += f"{count} 0 obj\n".encode() + it + b"\nendobj\n"
    table = "".join(f"{place:010} 00000 n \n" for place in places)
    count = len(objects) + 1
    tail = (
        f"xref\n0 {count}\n0000000000 65535 f \n{table}trailer\n<< /Size {count} /Root 1 0 R >>\n"
        f"startxref\n{len(data)}\n%%EOF\n"
    )
    return data + tail.encode()
