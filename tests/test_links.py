"""Every link of every page of the repository, and every name of a page of docs/ in its files, leads to what is there.

A link of a page leads to a file, and to a head of it where it names one; a link into the page in the browser is
test_learn's and tests/page's. A name as docs/use/help.md in a tool, a test, a module or a text is that of a file
that stands."""
import os
import re
import subprocess
import urllib.parse

import pytest
from places import TOP, text_of

LINK = re.compile(r'!?\[[^\]]*\]\(([^()\s]+(?:\([^()]*\)[^()\s]*)*)(?: "[^"]*")?\)')
# Files that may name pages that do not exist: what is built, texts of others, the record of changes, and a test that
# invents a page.
BUILT = ("page/hithwelor.html", "bin/hithwelor", "tests/machines/", "CHANGELOG.md", "tests/test_install.py")
NAME = re.compile(r"(?<![\w./-])docs/[\w./-]+\.(?:md|1|svg|png)(?![\w.-]*\w)")


def tracked():
    """The files of the repository that stand, or where git doesn't know them, all that are no product."""
    ran = subprocess.run(["git", "ls-files", "-co", "--exclude-standard"], cwd=TOP, capture_output=True, text=True)
    return sorted(path for path in ran.stdout.splitlines() if os.path.isfile(os.path.join(TOP, path)))


FILES = tracked()
PAGES = [path for path in FILES if path.endswith(".md")]


def without_code(text):
    """A page without its blocks of code and its words of code."""
    return re.sub(r"`[^`\n]*`", "", re.sub(r"(?ms)^ *```.*?^ *```", "", text))


def heads_of(text):
    """The names that a page's heads have in addresses: the second of the same name ends with -1."""
    found = []
    for head in re.findall(r"(?m)^#+ (.*)$", re.sub(r"(?ms)^ *```.*?^ *```", "", text)):
        name = re.sub(r"[^\w\- ]", "", re.sub(r"\[([^\]]*)\]\([^)]*\)", r"\1", head).lower()).replace(" ", "-")
        found.append(name if name not in found else f"{name}-{found.count(name)}")
    return found


@pytest.mark.parametrize("page", PAGES)
def test_every_link_leads_somewhere(page):
    for address in LINK.findall(without_code(text_of(page))):
        path, _, head = address.partition("#")
        if re.match(r"[a-z]+:", address):
            continue
        target = os.path.normpath(os.path.join(os.path.dirname(page), urllib.parse.unquote(path))) if path else page
        assert os.path.exists(os.path.join(TOP, target)), f"{page}: {address}"
        if head and target.endswith(".md"):
            assert head in heads_of(text_of(target)), f"{page}: {address}"


def names_in(path):
    """The pages of docs/ that a file names."""
    try:
        return set(NAME.findall(text_of(path)))
    except UnicodeDecodeError:
        return set()


def test_every_name_of_a_page_is_that_of_one():
    named = {(path, it) for path in FILES if not path.startswith(BUILT) for it in names_in(path)}
    assert len(named) > 60
    assert not sorted((path, it) for path, it in named if not os.path.exists(os.path.join(TOP, it)))


def test_links_are_found():
    assert len(PAGES) > 80 and sum(len(LINK.findall(without_code(text_of(page)))) for page in PAGES) > 300
    assert heads_of("# One `two`\n\n## 3 A head, [with](x.md)\n\n## Same\n\n## Same\n") == [
        "one-two",
        "3-a-head-with",
        "same",
        "same-1",
    ]


MOST_WORDS, MOST_OF_A_PAGE, MOST_OF_README, MOST_LINES_OF_README = 48000, 4000, 550, 75
# The specification of formats alone may be longer.
LONG = "docs/use/formats.md"


def written(page):
    """The words of a page that are written by hand: those with a letter, outside code and tables that are made."""
    text = re.sub(r"(?ms)^ *```.*?^ *```", "", text_of(page))
    text = re.sub(r"(?m)^<!-- made of .* -->\n+(\|.*\n)*", "", text)
    return [word for word in text.split() if re.search("[A-Za-z]", word)]


def test_the_documents_keep_their_size():
    sizes = {page: len(written(page)) for page in PAGES if page.startswith("docs/")}
    assert sum(sizes.values()) <= MOST_WORDS, sorted(sizes.items(), key=lambda it: -it[1])
    assert {page: size for page, size in sizes.items() if size > MOST_OF_A_PAGE and page != LONG} == {}


def test_readme_is_one_screen():
    assert len(written("README.md")) <= MOST_OF_README
    assert text_of("README.md").count("\n") <= MOST_LINES_OF_README


def test_every_folder_of_documents_is_told_in_its_page():
    text = text_of("docs", "README.md")
    pages = [it for it in PAGES if re.fullmatch(r"docs/\w+/[\w-]+\.md", it)]
    told = {os.path.normpath(os.path.join("docs", it.partition("#")[0])) for it in LINK.findall(text)}
    part = re.compile(r"docs/learn/(lecture-\d|tutorial-circuits)\.md")
    assert not [it for it in pages if it not in told and not part.fullmatch(it)]
