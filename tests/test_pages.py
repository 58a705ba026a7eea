"""The page of each crate in its form, and the pages that are made of files: tools/build/pages makes them, and says
what their form is. Further the rows of docs/trust/wrong-bodies.md with the edits that stand, and the version
wherever it is told."""
import os
import re

import places
import pytest
from places import text_of
from version import version

BODIES = "docs/trust/wrong-bodies.md"
# Where the version is told again.
VERSIONS = {
    "docs/use/workbench.1": r'^\.TH WORKBENCH 1 "[\d-]+" "Hithwelor ([\w.]+)"',
    "CITATION.cff": r'^version: "?([\w.]+)"?$',
}
# The pages that are made and not committed: the head, and how often at least a pattern stands there.
MADE = {
    "proved.md": ("What each crate promises", 50, r"^### \["),
    "calls.md": ("Calls", 300, r"^\| `"),
    "every-definition.md": ("Every definition", 2000, r"^\| `"),
    "headline-definitions.md": ("The definitions behind the headline", 80, r"^### `"),
}
pages = places.tool("build/pages")


@pytest.fixture(scope="module")
def faults():
    return pages.faults(pages.read_pages())


@pytest.mark.parametrize("crate", places.crates())
def test_the_page_of_a_crate_has_its_form(faults, crate):
    assert not faults[crate], "\n".join(f"crates/{crate}/README.md: {it}" for it in faults[crate])


@pytest.fixture(scope="module")
def made(tmp_path_factory):
    """The pages that aren't committed, by their names, as the one command writes them."""
    folder = str(tmp_path_factory.mktemp("made"))
    places.run([os.path.join(places.TOP, "tools", "build", "pages"), "--to", folder], check=True)
    return {name: text_of(folder, name) for name in os.listdir(folder)}


@pytest.mark.parametrize("name", MADE)
def test_a_page_that_is_made_has_what_it_is_for(made, name):
    head, count, pattern = MADE[name]
    assert made[name].startswith(f"# {head}\n") and len(re.findall(pattern, made[name], flags=re.M)) >= count


def test_no_other_page_is_made(made):
    assert sorted(made) == sorted(MADE)
    told = re.findall(r"^\| `([\w-]+\.md)` \|", text_of("docs", "trust", "made.md"), flags=re.M)
    assert sorted(told) == sorted(MADE) and not [it for it in MADE if os.path.exists(f"{places.TOP}/docs/trust/{it}")]


def test_the_links_of_the_pages_that_are_made_lead_somewhere(made):
    for name, text in made.items():
        for path in re.findall(r"\]\(([^)#]+)\)", text):
            target = os.path.normpath(os.path.join("docs/trust", path))
            assert os.path.exists(os.path.join(places.TOP, target)) or path in made, f"{name}: {path}"


def test_every_crate_and_definition_is_told(made):
    assert re.findall(r"^### \[(\w+)\]", made["proved.md"], flags=re.M) == places.crates()
    definitions = places.tool("definitions")
    named = {it.name for it in definitions.read_all()[0].values()}
    assert not [it for it in named if f"`{it}`".replace("|", "\\|") not in made["every-definition.md"]]


def records_of_laws():
    """The records `Laws` of the crates, each as tools/definitions reads it."""
    definitions = places.tool("definitions")
    return [it for it in dict.fromkeys(definitions.read_all()[0].values()) if it.name == "Laws"]


def test_every_law_has_a_sentence_and_is_told_with_it(made):
    assert len(records_of_laws()) > 40
    for item in records_of_laws():
        names = re.findall(r"^  pub (\w+) :", "\n".join(item.lines), flags=re.M)
        assert [name for name, _ in item.fields] == names, item.module
        assert not [it for it in names if f"\n| `Laws.{it}` | " not in made["every-definition.md"]], item.module


def test_the_page_of_a_crate_names_the_functions_whose_contracts_are_laws():
    for crate in sorted({item.module.split(".")[1] for item in records_of_laws()}):
        folder = os.path.join(places.TOP, "crates", crate, "src")
        code = "".join(text_of(folder, name) for name in sorted(os.listdir(folder)))
        found = re.findall(r"^pub fn (\w+)\(\)\n    ensures \{ Laws \}\n\{\}$", code, flags=re.M)
        assert found and all(f"`{it}`" in pages.read_pages()[crate].parts["Calls"] for it in found), crate


@pytest.mark.parametrize("path", sorted(pages.made_of_files()))
def test_what_is_made_of_files_is_what_they_say(path):
    assert pages.is_there(path, pages.made_of_files()[path]), f"tools/build/pages --write makes {path} anew"


def test_the_calls_of_the_crates_are_told_in_full():
    assert pages.by_calls("faults") == ""


@pytest.mark.parametrize("path", VERSIONS)
def test_the_version_is_told_alike(path):
    assert set(re.findall(VERSIONS[path], text_of(path), flags=re.M)) == {version()}


def test_a_state_between_two_releases_is_a_later_version_than_the_last_one():
    """So pip and npm take a build of it for an upgrade."""
    number = lambda told: [int(it) for it in re.findall(r"\d+", told)[:3]]
    last = re.search(r"^## (\d+\.\d+\.\d+) ", text_of("CHANGELOG.md"), flags=re.M)[1]
    is_between = "\n## Unreleased\n" in text_of("CHANGELOG.md")
    assert (".dev" in version()) == is_between
    assert number(version()) > number(last) if is_between else version() == last


def rows_of_bodies():
    """The rows of the page of wrong bodies: what a body does, the edits that are linked, the files that are told."""
    found = []
    for line in text_of(BODIES).splitlines():
        row = line.strip("|").split(" | ") if line.startswith("| ") else []
        if row:
            edits = re.findall(r"\]\(\.\./\.\./(crates/[\w/-]+\.edit)\)", row[1])
            found.append((row[0].strip(), edits, row[2].strip().split(", ") if edits else []))
    return found[1:]


@pytest.mark.parametrize("body, edits, told", [pytest.param(*it, id=it[0][:60]) for it in rows_of_bodies()])
def test_the_edits_of_a_wrong_body_turn_the_files_that_are_told(body, edits, told):
    assert all(os.path.exists(os.path.join(places.TOP, it)) for it in edits)
    assert [re.search(r"^file: (.*)$", text_of(it), flags=re.M)[1] for it in edits] == told


@pytest.mark.parametrize(
    "old, new, said",
    [
        ("# bn_x\n", "# other\n", "its head isn't `# bn_x`"),
        ("- `crates`", "`crates`", "its section Calls isn't a list"),
        ("`crates`", "`nowhere`", "its section Calls names `nowhere`, which is nowhere in the crates"),
        ("## Limits\n\nNone.\n\n", "", "its sections aren't Calls, Proved, Limits, Only tested"),
    ],
)
def test_a_fault_in_the_page_of_a_crate_is_seen(old, new, said):
    text = "# bn_x\n\nFor all.\n" + "\n".join(
        f"\n## {it}\n\n{'- `crates`' if it == 'Calls' else 'None.'}\n" for it in pages.SECTIONS
    )
    assert pages.Page(text).faults("bn_x", {"crates"}) == []
    assert said in pages.Page(text.replace(old, new)).faults("bn_x", {"crates"})
