"""The language of what people read: phrases to avoid, the length of sentences, spelling.

docs/ and the READMEs use the words of the glossary. A phrase of PHRASES has a plain one beside it. ALLOWED has the
places that may use a phrase, each with the reason.
"""

import re
import subprocess

import pytest
from places import TOP, text_of

# A phrase, as a regular expression, and what to write in its place.
PHRASES = {
    r"comes? to what": "computes, returns, ends with",
    r"words of the command line": "arguments",
    r"row steps?": "quadruple step",
    r"found window": "automatic window",
    r"wrong bod(?:y|ies)": "must-fail edits",
    r"made pages?": "generated pages",
    r"joined of": "composed from",
    r"wants? of memory": "out of memory",
    r"by (?:node|the module)\b": "with Node.js, with the module",
    r"tells? nothing": "reports nothing",
    r"the source fails": "the input cannot be read",
    r"\b(?:whence|therein|whereof|thereof)\b": "from which, in it",
    r"no two configurations have one successor": "every configuration has at most one predecessor",
    r"is no shift": "means no shift",
    r"all that stands": "the configuration",
    r"words are wanted": "arguments are missing",
    r"(?:isn't|is not|aren't) there\b": "does not exist, is missing",
    r"comes? out as|how (?:it|a run|the run) came out": "how the run ends",
    r"turns each (?:letter|bit)": "inverts each bit",
    r"machines? of rows": "machine of quadruples",
    r"a front of": "a prefix of",
    r"named? a field a law|a line a thing|steps? a letter": "for each, per",
    r"\bdemands? (?:of standard form|on a)": "condition",
    r"element by element\. All other|all other commands go element by element": "name the commands that do",
}
# Where a phrase may be, and why.
ALLOWED: dict[tuple[str, str], str] = {}
# Pages whose sentences have at most 30 words.
SHORT = [
    "README.md",
    "CONTRIBUTING.md",
    "docs/trust/what-is-proved.md",
    "docs/use/formats.md",
    "docs/use/help.md",
    "docs/use/page.md",
    "docs/use/benchmarks.md",
    "docs/develop/check-times.md",
    "docs/develop/decisions.md",
    "docs/develop/modules.md",
    *(f"docs/learn/{it}.md" for it in ("tutorial", "tutorial-circuits", "exercises", "answers", "questions")),
    *(f"docs/learn/{it}.md" for it in ("gallery", "figures", "glossary")),
    "examples/README.md",
    "examples/machines/README.md",
    "notebooks/ANSWERS.md",
    "page/README.md",
]
MOST_WORDS = 30
# Pages that are read, but for those that list what was: the record of changes.
KINDS = [
    "README.md",
    "CONTRIBUTING.md",
    "docs",
    "python/README.md",
    "js/README.md",
    "tests/README.md",
    "page/README.md",
]


def tracked(*paths):
    ran = subprocess.run(["git", "ls-files", *paths], cwd=TOP, capture_output=True, text=True, check=True)
    return ran.stdout.split()


PAGES = [path for path in tracked(*KINDS, "examples/*.md", "notebooks/*.md") if path.endswith(".md")]


def prose_of(text):
    """A page without its blocks of code, and without code and addresses within a line."""
    text = re.sub(r"(?ms)^ *```.*?^ *```", "", text)
    text = re.sub(r"\]\([^)]*\)", "]", text)
    return re.sub(r"`[^`\n]*`", "X", text)


def sentences_of(text):
    """The sentences of a page's prose: no headings, no tables, an entry of a list by itself."""
    for block in re.split(r"\n\s*\n|\n(?=- |\d+\. )", prose_of(text)):
        if block.lstrip().startswith(("#", "|", "!", "<")):
            continue
        for sentence in re.split(r"(?<=[.!?:;])\s+", " ".join(block.split())):
            yield sentence


@pytest.mark.parametrize("page", PAGES)
def test_no_phrase_to_avoid(page):
    text = prose_of(text_of(page))
    found = [(phrase, plain) for phrase, plain in PHRASES.items() if re.search(phrase, text, flags=re.I)]
    assert not [f"{phrase}: write {plain}" for phrase, plain in found if (page, phrase) not in ALLOWED]


def test_what_is_allowed_is_needed():
    for page, phrase in ALLOWED:
        assert re.search(phrase, text_of(page), flags=re.I), f"{page} has no {phrase}"


@pytest.mark.parametrize("page", SHORT)
def test_sentences_are_short(page):
    long = [it for it in sentences_of(text_of(page)) if len(it.split()) > MOST_WORDS]
    assert not long, f"{page}: {long[0]}"


def test_long_sentences_are_found():
    assert [len(it.split()) for it in sentences_of("# A head\n\nOne two. Three `a b c` four\nfive.\n")] == [2, 4]


def test_spelling(needs):
    """codespell of Debian knows common misspellings."""
    needs("codespell")
    words = ["-L", "crate,crates"]
    ran = subprocess.run(["codespell", *words, *PAGES], cwd=TOP, capture_output=True, text=True, check=False)
    assert not ran.stdout, ran.stdout
