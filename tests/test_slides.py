"""Slides of the lectures by `tools/slides`: a slide for each step of a plan, with its links; notes; LaTeX compiles them."""
import os
import re
import subprocess
import sys

import places
import pytest

slides = places.tool("slides")
pytestmark = pytest.mark.engine


def written(number, has_notes=False, page="hithwelor.html"):
    """The slides of a lecture, with its figure by the module under Node.js."""
    return slides.slides_of(number, page, has_notes, os.path.join(places.TOP, "bin", "hithwelor"))


@pytest.mark.parametrize("number", sorted(slides.FIGURES))
def test_a_lecture_has_a_slide_for_each_step(number, any_node):
    text, page = written(number), places.text_of("docs", "learn", f"lecture-{number}.md")
    steps = re.findall(r"(?m)^\| \d+ to \d+ \|.*", page)
    plan = text.split("\\frame{\\titlepage}")[1].split(f"{{{slides.FIGURES[number][0]}}}")[0]
    # The first slide has the aims, and what comes last is the beginning of the figure's.
    assert plan.count("\\begin{frame}") == len(steps) + 2 and plan.count("\\note{") == len(steps)
    assert text.count("\\href{hithwelor.html") >= len(steps)
    assert text.count("[fragile]") == len(re.findall(r"(?m)^```$", page)) // 2
    assert "tikzpicture" in text and text == written(number)
    assert "](" not in re.sub(r"(?s)\\begin{verbatim}.*?\\end{verbatim}", "", text)


def test_answers_in_parentheses_are_on_the_note_alone(any_node):
    text = written(5)
    assert text.count("(The bits on its wires.)") == 1 and "\\note{0 to 8 minutes." in text
    assert "\\setbeameroption{show notes}" in written(5, True) and "show notes" not in text
    assert "\\href{https://example.org/page.html\\#x=4}" in written(5, page="https://example.org/page.html")


@pytest.mark.parametrize("number", sorted(slides.FIGURES))
def test_latex_compiles_the_slides(number, tmp_path, needs, any_node):
    needs("pdflatex")
    if not subprocess.run(["kpsewhich", "beamer.cls"], capture_output=True).stdout:
        pytest.skip("texlive-latex-recommended isn't installed: tools/setup")
    (tmp_path / "slides.tex").write_text(written(number, True), encoding="utf-8")
    env = {**os.environ, "HOME": str(tmp_path), "TEXMFVAR": str(tmp_path / "var")}
    command = ["pdflatex", "-interaction=nonstopmode", "-halt-on-error", "slides.tex"]
    ran = subprocess.run(command, cwd=tmp_path, capture_output=True, env=env)
    assert ran.returncode == 0 and (tmp_path / "slides.pdf").exists(), ran.stdout[-500:]
    assert b"Overfull" not in ran.stdout and b"Missing character" not in ran.stdout


def test_an_unknown_lecture_is_refused():
    command = [sys.executable, "-B", os.path.join(places.TOP, "tools", "slides"), "6"]
    ran = subprocess.run(command, capture_output=True, text=True)
    assert ran.returncode == 2 and ran.stderr.startswith("slides: ") and ran.stderr.count("\n") == 1
