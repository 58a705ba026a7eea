"""The lecturer's pages: those of docs/learn that a lecture is given by, with those of examples/machines and notebooks.

A link into the page has a title with the machine, the word and the moment, and the page's own reader (page/src/links.js,
under node) reads just that out of it; the moment is there in the program's run. The plans go from the first minute to the last, with a link a row; the questions are twenty, each
with five sentences, something to run and sources that stand in the bibliography. The outputs are held by test_documents.py.
"""
import glob
import json
import os
import re
import subprocess

import places
import pytest
from hithwelor import ReversibleMachine, answers

PATTERNS = [
    "docs/learn/lecture*.md",
    "docs/learn/questions.md",
    "docs/learn/figures.md",
    "examples/machines/*.md",
    "notebooks/*.md",
]
PAGES = sorted(
    os.path.relpath(path, places.TOP) for pattern in PATTERNS for path in glob.glob(os.path.join(places.TOP, pattern))
)
LECTURES = [f"docs/learn/lecture-{number}.md" for number in range(1, 6)]
QUESTIONS = "docs/learn/questions.md"
LINK = re.compile(r'\[[^\]]*\]\(([^()\s]+(?:\([^()]*\)[^()\s]*)*)(?: "([^"]*)")?\)')


def links_of(page):
    """The links of a page outside of its code: the address and the title of each."""
    text = re.sub(r"(?ms)^```.*?^```", "", places.text_of(page))
    return LINK.findall(re.sub(r"`[^`]*`", "", text))


def page_links():
    return [(page, *link) for page in PAGES for link in links_of(page) if "hithwelor.html#" in link[0]]


@pytest.fixture(scope="session")
def readings(any_node):
    """What the page's reader gives of each link into the page, by what stands from # on."""
    hashes = sorted({"#" + link.partition("#")[2] for _, link, _ in page_links()})
    script = os.path.join(places.TOP, "tests", "read_links.mjs")
    ran = subprocess.run([any_node, script], input=json.dumps(hashes), capture_output=True, text=True)
    assert ran.returncode == 0, ran.stderr
    return dict(zip(hashes, json.loads(ran.stdout)))


def test_all_pages_are_read():
    others = {"docs/learn/lectures.md", "docs/learn/figures.md", "examples/machines/README.md", "notebooks/ANSWERS.md"}
    assert {*LECTURES, QUESTIONS, *others} <= set(PAGES)
    assert len(page_links()) >= 40


@pytest.mark.parametrize("page", sorted({page for page, *_ in page_links()}))
def test_a_link_into_the_page_gives_what_its_title_says(page, readings):
    for place, address, title in page_links():
        if place == page:
            told = readings["#" + address.partition("#")[2]]["title"]
            assert title == told and "none" not in told and "no machine that is known" not in told, address


@pytest.mark.engine
@pytest.mark.parametrize("page", sorted({page for page, *_ in page_links()}))
def test_the_machine_and_the_moment_of_a_link_are_there(page, readings, answering):
    for place, address, _ in page_links():
        link = readings["#" + address.partition("#")[2]]["link"]
        if place != page or link is None or link["example"] == "sum":
            continue
        table = link["text"].encode()
        if link["asStandard"]:
            table = answers.answer(["standard"], table)[1]
        status, text = answers.answer(["machine", f"={link['word']}", "100000"], table)
        assert status == 0, (address, text)
        if link["window"]:
            words = ["view", f"={link['word']}", *map(str, link["window"]), str(link["e"])]
            assert answers.answer(words, table)[1].decode().split("\n")[0].endswith(f" steps {link['e']}"), address
        assert link["window"] or not link["e"], f"{address}: a moment is told in a window"


def plan_of(page):
    """The rows of a page's plan: from and to which minute, and the row."""
    found = re.findall(r"(?m)^\| (\d+) to (\d+) (\|.*)$", places.text_of(page))
    return [(int(first), int(last), row) for first, last, row in found]


@pytest.mark.parametrize("page, minutes", [*((page, 75) for page in LECTURES), ("docs/learn/lectures.md", 60)])
def test_a_plan_has_a_link_for_each_of_its_minutes(page, minutes):
    plan = plan_of(page)
    assert plan[0][0] == 0 and plan[-1][1] == minutes
    assert all(last == first for (_, last, _), (first, _, _) in zip(plan, plan[1:]))
    assert all("hithwelor.html#" in row for _, _, row in plan)


@pytest.mark.parametrize("page", LECTURES)
def test_a_lecture_says_all_that_is_needed(page):
    text = places.text_of(page)
    wanted = [
        "The plan",
        "On the blackboard",
        "Answers to what the plan asks",
        "In the terminal",
        "The sheet and the exercises",
        "What usually goes wrong",
        "Sources",
    ]
    assert re.findall(r"(?m)^## (.*)$", text) == wanted
    assert "**Afterwards a student can**" in text and "**Before.**" in text and "../../notebooks/" in text
    assert text.count("\n$ ") >= 4


def test_every_exercise_has_its_lecture():
    numbers = set(map(int, re.findall(r"(?m)^## (\d+) ", places.text_of("docs", "learn", "exercises.md"))))
    rows = [row for row in places.text_of("docs", "learn", "lectures.md").splitlines() if row.startswith("| [")]
    cells = [row.rsplit("|", 2)[1] for row in rows]
    spans = [re.findall(r"(\d+)(?: to (\d+))?", cell) for cell in cells]
    found = [number for cell in spans for first, last in cell for number in range(int(first), int(last or first) + 1)]
    assert numbers == set(found) and len(cells) == len(LECTURES)
    for page, cell in zip(LECTURES, spans):
        named = re.findall(r"exercises\.md#(\d+)-", places.text_of(page))
        assert {int(first) for first, _ in cell} <= set(map(int, named)), page


def questions():
    """Each question: its number, the paragraph, the commands, and the sources."""
    for part in re.split(r"(?m)^## ", places.text_of(QUESTIONS))[1:-1]:
        head, paragraph, rest = part.split("\n\n", 2)
        commands, source = re.findall(r"(?m)^\$ (.*)$", rest), re.search(r"(?m)^Source: (.*)$", rest)
        yield int(head.split(" ")[0]), paragraph, commands, source[1]


def sentences(paragraph):
    return [it for it in re.split(r"(?<=[.!?])\s+", paragraph.strip()) if it]


def test_the_questions_are_twenty_with_five_sentences_each():
    found = list(questions())
    assert [number for number, *_ in found] == list(range(1, 21))
    for number, paragraph, commands, _ in found:
        assert len(sentences(paragraph)) == 5, (number, len(sentences(paragraph)))
        assert commands, number


references = places.tool("build/references")


def entries():
    return list(references.entries_of(places.text_of("docs", "learn", "references.bib")))


def test_the_page_of_references_is_that_of_the_bibliography():
    with open(references.BIBLIOGRAPHY, encoding="utf-8") as file:
        assert len(entries()) == len(re.findall(r"(?m)^@", file.read())) == len({it["key"] for it in entries()})
    page = places.text_of("docs", "learn", "references.md")
    assert references.page_of(page, places.text_of("docs", "learn", "references.bib")) == page
    for it in entries():
        assert it["status"] in references.STATUSES and it["use"] and it["key"].endswith(it["year"]), it["key"]


def test_the_sources_of_the_questions_are_in_the_bibliography():
    years = {(name, it["year"]) for it in entries() for name in re.findall(r"\w+", it["author"])}
    cited = {
        (name.split(" ")[0].strip(","), year)
        for _, _, _, told in questions()
        if not told.startswith("[")
        for name, year in (part.rsplit(" ", 1) for part in told.rstrip(".").split("; "))
    }
    assert len(cited) > 10 and not cited - years


@pytest.mark.parametrize("page", [*LECTURES, "docs/learn/pebbles.md"])
def test_an_author_and_a_year_are_in_the_bibliography(page):
    """As `Kari 1994`, or `Mukai and others 2014`: the name before a year."""
    years = {(name, it["year"]) for it in entries() for name in re.findall(r"\w+", it["author"])}
    text = re.sub(r"(?ms)^```.*?^```", "", places.text_of(page))
    found = re.findall(r"([^\W\d_]\w+)(?: and others)? \(?(1[89]\d\d|20\d\d)\b", text)
    assert found and not [it for it in found if it[0][0].isupper() and it not in years]


@pytest.mark.engine
def test_the_elements_of_moritas_example_are_those_of_its_parts(answering):
    machine = ReversibleMachine.open(os.path.join(places.TOP, "examples", "morita-parity.csv"))
    windows = [(0, 3, 0, 0), (0, 4, 0, 0), (0, 3, 1, 0), (0, 3, 0, 1)]
    whole, *others = (machine.build(["11", "", ""], window).elements for window in windows)
    assert [it - whole for it in others] == [52, 22, 22] and whole == 462 == 4 * 52 + 2 * 22 + 210
    page = places.text_of("docs", "learn", "morita.md")
    assert "4·52 elements" in page and "have 2·22, and the control has 210: together 462." in page
    for ones in range(9):
        assert machine.moments("1" * ones).outcome.kind == ("stuck" if ones % 2 else "halted")
