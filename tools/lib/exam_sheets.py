"""Sheets of an examination, in Markdown and in LaTeX: the problems, and the same with their answers."""
import re

# What stands for a sign in LaTeX, in prose and in code.
MARKS = {"\\": r"\textbackslash{}", "^": r"\textasciicircum{}", "~": r"\textasciitilde{}", "·": r"$\cdot$"}
MARKS |= {mark: "\\" + mark for mark in "&%$#_{}"}
CODE_MARKS = {**MARKS, "'": r"{\char13}"}
HEAD = r"""\documentclass[11pt,a4paper]{article}
\setlength{\parindent}{0pt}
\setlength{\parskip}{6pt}
\emergencystretch=3em
\begin{document}
"""


LEGEND = (
    "A quintuple is a state, the symbol read, the symbol written, the shift of the head (`-`, `0`, `+`) and the next state. "
    "A quadruple is a state, what is read on tapes 1 to 3, what is done on them, and the next state: a tape with `/` is not "
    "read and its head is shifted, on the others a symbol is written. `_` is the blank. A circuit's text has a line `e` for "
    "each element: its number, its bar (`H` or `V`), and where its ports out n, e, s and w lead. A line `c` is a column: the "
    "number of its first element, its rows, and the bar of the element below them; a line `r` for each row says where its "
    "ports e and w lead."
)


def title_of(seed, level, is_solved):
    return f"{'Solutions of the examination' if is_solved else 'Examination'}: level {level}, seed {seed}"


def facts_of(problems, is_solved):
    facts = f"{len(problems)} problems, {sum(it.marks for it in problems)} marks."
    return facts if is_solved else f"{facts} {LEGEND}"


def points(marks):
    return f"{marks} mark{'' if marks == 1 else 's'}"


def markdown(problems, seed, level, is_solved):
    """A sheet in Markdown."""
    parts = [f"# {title_of(seed, level, is_solved)}", facts_of(problems, is_solved)]
    for number, problem in enumerate(problems, 1):
        parts += [f"## {number} ({points(problem.marks)})", problem.answer if is_solved else problem.question]
    return "\n\n".join(parts) + "\n"


def escaped(text, marks):
    return "".join(marks.get(mark, mark) for mark in text)


def line_of(text):
    """A line of prose with its code."""
    words = re.split(r"`([^`]*)`", text)
    return "".join(
        rf"\texttt{{{escaped(it, CODE_MARKS)}}}" if place % 2 else escaped(it, MARKS) for place, it in enumerate(words)
    )


def latex_of(text):
    """A question or an answer in LaTeX: its prose, its lists and its blocks of code."""
    parts = []
    for place, part in enumerate(re.split(r"(?m)^```\n?", text)):
        if place % 2:
            parts.append(f"\\begin{{verbatim}}\n{part}\\end{{verbatim}}")
        elif part.strip():
            lines = [
                r"\textbullet\ " + line_of(it[2:]) + r"\par" if it.startswith("- ") else line_of(it)
                for it in part.strip().split("\n")
            ]
            parts.append("\n".join(lines))
    return "\n".join(parts)


def latex(problems, seed, level, is_solved):
    """A sheet in LaTeX, of packages that every installation has."""
    parts = [HEAD + rf"\section*{{{title_of(seed, level, is_solved)}}}", latex_of(facts_of(problems, is_solved))]
    for number, problem in enumerate(problems, 1):
        parts += [
            rf"\subsection*{{{number} \hfill {points(problem.marks)}}}",
            latex_of(problem.answer if is_solved else problem.question),
        ]
    return "\n\n".join(parts) + "\n\n\\end{document}\n"


WRITERS = {".md": markdown, ".tex": latex}
