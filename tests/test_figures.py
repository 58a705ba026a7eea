"""Figures for a paper or slides, by tools/figure and tools/draw: SVG that is drawn of shapes alone, PDF whose objects
stand where its table says, TikZ that LaTeX compiles; in colour and in black and white, in the font that is asked for.
"""
import functools
import os
import re
import shlex
import subprocess
import sys
import types
import xml.etree.ElementTree as ElementTree

import places
import pytest
from figure_writers import written
from hithwelor import answers

figure = places.tool("figure")
SVG = "{http://www.w3.org/2000/svg}"
INCREMENT = os.path.join("examples", "increment.csv")
BANK = os.path.join("examples", "two-columns.txt")
COLUMN = "rotary 2\nelements 3\nstart 0.w\nend 1.e\nsteps 0\nat 0.w\nc 0 2 H\nr - -\nr - -\n"
# Each figure: the words of the tool, with the number of frames where it is a circuit, and the input: a file or a text.
FIGURES = {
    "element": (["circuit", "1"], os.path.join("examples", "across.txt")),
    "elements": (["circuit", "3"], os.path.join("examples", "two-elements.txt")),
    "column": (["circuit", "0"], COLUMN),
    "bank": (["circuit", "4"], BANK),
    "diagram": (["diagram"], INCREMENT),
    "universal": (["diagram"], os.path.join("examples", "machines", "universal.csv")),
    "brackets": (["diagram"], os.path.join("examples", "machines", "brackets.csv")),
    "tapes": (["tapes", "=1011", "0", "5", "11", "5", "2000000"], INCREMENT),
    "tapes found": (["tapes", "=1", "auto", "100000"], INCREMENT),
    "compare": (["tapes", "=1:1", "auto", "3000000"], os.path.join("examples", "machines", "compare.csv")),
    "hill": (["hill", "=1", "auto"], INCREMENT),
}
DOCUMENT = r"""\documentclass{article}
\usepackage{tikz}
\begin{document}
%s
\end{document}
"""


class Answering:
    """A program of the tools, which the package of Python answers, so that no process is begun for each frame."""

    def __init__(self, path):
        self.path = path

    def run(self, words, data, statuses=(0,)):
        status, text = answers.answer(words, data)
        assert status in statuses, text
        return text.decode()


@functools.lru_cache(maxsize=None)
def scene_of(name, path):
    """What a figure draws, as a scene."""
    words, source = FIGURES[name]
    data = (source if "\n" in source else places.text_of(source)).encode()
    if words[0] == "circuit":
        return figure.circuit_figure(Answering(path), data, int(words[1]))
    if words[0] == "diagram":
        return figure.diagram_figure(Answering(path), data)
    numbers = [it if it == "auto" else int(it) for it in words[2:]]
    draw = figure.tapes_figure if words[0] == "tapes" else figure.hill_figure
    return draw(Answering(path), data, types.SimpleNamespace(word=words[1], window=numbers))


def made(name, kind, path, is_grey=False, font="sans"):
    """A figure as bytes."""
    return written(scene_of(name, path), kind, is_grey, font)


def called(words, data, program):
    """What a tool gives and says."""
    (tool, *rest) = words
    command = [sys.executable, "-B", os.path.join(places.TOP, "tools", tool), "--program", program, *rest]
    return subprocess.run(command, input=data.encode(), capture_output=True, cwd=places.TOP)


def colours(text):
    """The colours that a drawing names, as red, green and blue in hexadecimal digits."""
    return set(re.findall(r"#([0-9A-Fa-f]{6})", text)) | set(re.findall(r"\{HTML\}\{(\w{6})\}", text))


@pytest.mark.engine
@pytest.mark.parametrize("name", FIGURES)
def test_svg_stands_alone(name, program):
    tree = ElementTree.fromstring(made(name, "svg", program, font="Linux Libertine"))
    assert tree.get("font-family") == "Linux Libertine"
    kinds = {it.tag.removeprefix(SVG) for it in tree.iter()}
    assert kinds <= {"svg", "desc", "path", "polygon", "rect", "circle", "text"} and {"text", "rect"} & kinds
    width, height = float(tree.get("width")), float(tree.get("height"))
    for it in tree.iter(f"{SVG}text"):
        assert 0 <= float(it.get("x")) <= width and 0 <= float(it.get("y")) <= height, it.text


@pytest.mark.engine
@pytest.mark.parametrize("kind", ["svg", "tikz"])
@pytest.mark.parametrize("name", ["bank", "hill", "diagram"])
def test_in_black_and_white_no_colour_is_one(name, kind, program):
    found = colours(made(name, kind, program, True).decode())
    assert found and all(it[:2] == it[2:4] == it[4:] for it in found)
    assert not all(it[:2] == it[2:4] == it[4:] for it in colours(made(name, kind, program).decode()))


@pytest.mark.engine
def test_what_a_figure_of_a_circuit_shows(program):
    """The bank after four steps: its elements, start and end, no mark; the way is dashed, the signal's wire thick."""
    tree = ElementTree.fromstring(made("bank", "svg", program, True))
    words = [it.text for it in tree.iter(f"{SVG}text")]
    assert sorted(words) == ["0", "1", "2", "3", "4", "5", "end", "start"]
    assert any(it.get("stroke-dasharray") for it in tree.iter(f"{SVG}path"))
    assert "M" in [it.text for it in ElementTree.fromstring(made("column", "svg", program)).iter(f"{SVG}text")]


@pytest.mark.engine
def test_what_a_diagram_shows(program):
    tree = ElementTree.fromstring(made("diagram", "svg", program))
    words = [it.text for it in tree.iter(f"{SVG}text")]
    assert sorted(words) == sorted(
        [
            "S",
            "Go",
            "Add",
            "Home",
            "Halt",
            *(
                f"{row[1]}/{row[2]} {row[3]}"
                for row in (line.split(",") for line in places.text_of(INCREMENT).splitlines())
            ),
        ]
    )


@pytest.mark.engine
def test_what_tapes_and_hill_show(program):
    words = [it.text for it in ElementTree.fromstring(made("tapes", "svg", program)).iter(f"{SVG}text")]
    assert words[0] == "retrace state Add step 8, quadruple C3"
    assert "".join(words[1:]) == ("tape 1: work_100_0" "tape 2: history_1323345___5" "tape 3: output1100__")
    hill = [it.text for it in ElementTree.fromstring(made("hill", "svg", program)).iter(f"{SVG}text")]
    assert hill == ["compute", "copy", "retrace", "0", "6", "38 moments"]


@pytest.mark.engine
@pytest.mark.parametrize("font, base", [("sans", b"/Helvetica "), ("serif", b"/Times-Roman "), ("mono", b"/Courier ")])
@pytest.mark.parametrize("name", ["bank", "diagram"])
def test_a_pdf_has_its_objects_where_it_says(name, font, base, program):
    data = made(name, "pdf", program, font=font)
    assert data.startswith(b"%PDF-1.4\n") and data.endswith(b"%%EOF\n") and b"/BaseFont " + base in data
    table = int(re.search(rb"startxref\n(\d+)\n", data)[1])
    assert data[table:].startswith(b"xref\n0 7\n")
    for count, place in enumerate(re.findall(rb"(\d{10}) 00000 n \n", data[table:]), 1):
        assert data[int(place) :].startswith(b"%d 0 obj\n" % count)
    length, start = int(re.search(rb"/Length (\d+)", data)[1]), data.index(b"stream\n") + len(b"stream\n")
    assert data[start + length :].startswith(b"\nendstream")


@pytest.mark.engine
def test_latex_compiles_every_figure(program, tmp_path, needs):
    """As TikZ by \\input, and as PDF by \\includegraphics; TikZ in colour, and in black and white."""
    needs("pdflatex")
    if not subprocess.run(["kpsewhich", "tikz.sty"], capture_output=True).stdout:
        pytest.skip("texlive-pictures isn't installed: tools/setup")
    body = ""
    for number, name in enumerate(FIGURES):
        for is_grey in (False, True):
            file = f"drawn{number}{'grey' * is_grey}"
            (tmp_path / f"{file}.tex").write_bytes(made(name, "tikz", program, is_grey))
            body += rf"\noindent\resizebox{{60mm}}{{!}}{{\input{{{file}}}}}" + "\n"
        (tmp_path / f"figure{number}.pdf").write_bytes(made(name, "pdf", program))
        body += rf"\includegraphics[width=40mm]{{figure{number}}}\par" + "\n"
    (tmp_path / "all.tex").write_text(DOCUMENT % body)
    env = {**os.environ, "HOME": str(tmp_path), "TEXMFVAR": str(tmp_path / "var")}
    ran = subprocess.run(
        ["pdflatex", "-interaction=nonstopmode", "-halt-on-error", "all.tex"],
        cwd=tmp_path,
        env=env,
        capture_output=True,
        text=True,
        errors="replace",
    )
    assert ran.returncode == 0, ran.stdout[-2000:]
    assert "Missing character" not in ran.stdout and (tmp_path / "all.pdf").stat().st_size > 20000
    assert not re.search(r"undefined|Undefined|Warning: .*font", ran.stdout)


@pytest.mark.engine
def test_the_tools_write_what_is_drawn(program):
    """By the command line: the circuit of tools/figure is that of tools/draw but for how it says that it was made."""
    data = places.text_of(BANK)
    for kind in ("svg", "tikz", "pdf"):
        style = ["--grey", "--font", "serif"]
        by_figure = called(["figure", "circuit", "--frames", "1", "--to", kind, *style], data, program)
        by_draw = called(["draw", f"--{kind}", "--frames", "1", *style], data, program)
        assert (by_figure.returncode, by_draw.returncode, by_figure.stderr, by_draw.stderr) == (0, 0, b"", b"")
        how = rb"(?m)^(%|<desc>) ?.*\n"
        assert re.sub(how, b"", by_figure.stdout) == re.sub(how, b"", by_draw.stdout)
    least = places.text_of("examples", "least.csv")
    hill = called(["figure", "hill", "=", "0", "2", "2", "1", "--to", "tikz"], least, program)
    assert hill.returncode == 0 and hill.stdout.endswith(b"\\end{tikzpicture}%\n")


PAGE = os.path.join("docs", "learn", "figures.md")
COMMANDS = re.findall(r"(?m)^(?:\|.*`)?(tools/\w+ .*?) > \w+\.\w+`?(?: \|)?$", places.text_of(PAGE))


@pytest.mark.slow
@pytest.mark.engine
@pytest.mark.parametrize("command", COMMANDS)
def test_the_commands_of_the_page_write_figures(command, program):
    words, _, source = command.partition(" < ")
    tool, *rest = shlex.split(words)
    ran = called([os.path.basename(tool), *rest], places.text_of(source), program)
    assert (ran.returncode, ran.stderr) == (0, b"")
    kind = "tikz" if "tikz" in words else "pdf" if "pdf" in words else "svg"
    begins = {"tikz": b"% ", "pdf": b"%PDF-1.4\n", "svg": b"<svg "}
    assert ran.stdout.startswith(begins[kind])


def test_the_page_has_commands_of_each_kind():
    assert len(COMMANDS) == 10 and sum("tikz" in it for it in COMMANDS) == 2


@pytest.mark.engine
@pytest.mark.parametrize(
    "words, source, said",
    [
        (
            ["figure", "circuit", "--to", "pdf", "--font", "Georgia"],
            "examples/across.txt",
            "figure: a PDF has the fonts sans, serif, mono, and not 'Georgia'",
        ),
        (
            ["figure", "tapes", "=1", "auto"],
            INCREMENT,
            "figure: the last word of tapes is the number of element steps; --help tells the words",
        ),
        (["figure", "hill", "1", "auto"], INCREMENT, "figure: the word '1' has no = before it"),
        (["figure", "circuit", "=1"], "examples/across.txt", "figure: circuit has no word; --help tells the words"),
        (
            ["figure", "diagram"],
            "examples/across.txt",
            "figure: ./workbench check says: text: record 1 fields (status 3)",
        ),
        (["draw", "--tikz"], "", "draw: ./workbench step 0 says: text: line 1 syntax (status 3)"),
    ],
)
def test_what_is_refused(words, source, said, program):
    ran = called(words, places.text_of(source) if source else "", program)
    assert (ran.returncode, ran.stdout, ran.stderr.decode()) == (2, b"", said + "\n")
