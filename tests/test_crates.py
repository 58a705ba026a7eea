"""The list of crates stands once, in crates.txt, and is the same wherever it is shown again.

- crates.txt lists each folder of crates/ and no other, at most MOST_CRATES, and no chain of crates is longer than
  MOST_CHAIN.
- The laws of a crate are fields of one record, or of two: no crate has more functions with an empty body.
- The lines of src/, specs/ and proofs/ have at most 120 characters, and tools/build/columns has nothing to lay out anew.
- No statement stands in the code for the prover alone: what a type keeps is told by the calls that are made anyway.
- The picture in docs/develop/architecture.md has the rooms of crates.txt with their crates; `bn_reply_*` stands
  for the crates whose names begin so. A crate uses its own room and those drawn below it, and where two columns of rooms
  stand side by side, none of the other column.
- In a table of a page whose first head is `Crate` each crate has a row, in the order of crates.txt, and a row **ROOM** has
  what crates.txt says of the room.
- Every name bn_.. in a page or a script is that of a crate.
"""
import glob
import os
import re

import pytest
from places import TOP, crates, rooms, run, text_of

ARCHITECTURE = "docs/develop/architecture.md"
MOST_CHAIN = 15
# 53 before `element`, `behaviour`, `crossings`, `equal`, `window`, `room`, `walk` and the texts of networks, and their crates.
MOST_CRATES = 53 + 17
WIDTH = 120
PLACES = [
    "*.md",
    "docs/*.md",
    "docs/*/*.md",
    "docs/*/*.1",
    "examples/*.md",
    "python/*.md",
    "js/*.md",
    "page/*.md",
    "check/*",
    "tests/*.py",
    "tests/*/*.py",
    "embed/*",
    "tools/*",
    "tools/*/*",
    "bench/*.py",
    "workbench",
    "try",
    ".ci/run",
]


def uses():
    """What each crate uses of the repository's own, by crates.txt."""
    found, known = {}, crates()
    for line in text_of("crates.txt").splitlines():
        crate = re.match(r"(\w+)(?: [\w=]+)*:(.*)", line)
        if crate:
            found[crate[1]] = [it for it in crate[2].split("#")[0].split() if it in known]
    return found


def longest_chain(below):
    """The crates of a longest chain, from the top down."""
    chains = {}

    def chain(crate):
        if crate not in chains:
            chains[crate] = [crate, *max(map(chain, below[crate]), key=len, default=[])]
        return chains[crate]

    return max(map(chain, below), key=len)


def drawn():
    """The floors of the picture, from the top: a list a floor of the rooms side by side, each (name, [crate, ..])."""
    block = next(it for it in re.findall(r"^```\n(.*?)^```$", text_of(ARCHITECTURE), flags=re.M | re.S) if "┌" in it)
    floors, known = [], [room for room, _, _ in rooms()]
    for line in block.splitlines():
        if re.search("[┌├└]", line):
            floors.append([])
            continue
        for column, cell in enumerate(line.split("│")[1:-1]):
            word, *rest = cell.split() or [""]
            if word in known:
                floors[-1].append((word, []))
            elif column >= len(floors[-1]):
                continue
            floors[-1][column][1].extend(re.findall(r"bn_\w+\*?", cell))
    return [floor for floor in floors if floor]


def written_out(names, of_room):
    """Names of the picture with those of the room in place of each that ends with a star."""
    found = []
    for name in names:
        found += [it for it in of_room if it.startswith(name[:-1])] if name.endswith("*") else [name]
    return found


def tables(page):
    """The tables of a page: the first head, and the cells of the rows."""
    found, is_table = [], False
    for line in page.splitlines():
        cells = [it.strip() for it in re.split(r"(?<!\\)\|", line)[1:-1]] if line.startswith("|") else []
        if cells and not is_table:
            found.append((cells[0], []))
        elif cells and not re.fullmatch(r":?-+:?", cells[0]):
            found[-1][1].append(cells)
        is_table = bool(cells)
    return found


ROOMS = rooms()


def test_the_list_has_each_folder_and_no_other():
    assert {
        os.path.basename(os.path.dirname(path)) for path in glob.glob(os.path.join(TOP, "crates", "*", "src"))
    } == set(crates())


def test_crates_are_few():
    assert len(crates()) <= MOST_CRATES


@pytest.mark.parametrize("crate", crates())
def test_the_laws_of_a_crate_are_the_contracts_of_two_functions_at_most(crate):
    code = "".join(
        text_of(path)
        for path in sorted(glob.glob(os.path.join(TOP, "crates", crate, "src", "**", "*.rt"), recursive=True))
    )
    empty = re.findall(r"^pub fn (\w+)\(\)\n(?:    [^\n]*\n)*\{(?:\s|//[^\n]*\n|\w+\(\);)*\}$", code, flags=re.M)
    assert len(empty) <= 2, f"{crate}: {', '.join(empty)}"


@pytest.mark.parametrize("crate", crates())
def test_the_lines_of_a_crate_are_not_wide(crate):
    files = glob.glob(os.path.join(TOP, "crates", crate, "**", "*"), recursive=True)
    kept = [path for path in files if path.endswith((".rt", ".antt")) and f"{os.sep}out{os.sep}" not in path]
    wide = [
        f"{os.path.relpath(path, TOP)}:{number}"
        for path in sorted(kept)
        for number, line in enumerate(text_of(path).split("\n"), 1)
        if len(line) > WIDTH
    ]
    assert not wide


def test_proofs_are_laid_out():
    ran = run([os.path.join(TOP, "tools", "build", "columns")], path=os.environ["PATH"])
    assert (ran.returncode, ran.stdout) == (0, "")


@pytest.mark.parametrize("crate", crates())
def test_no_statement_is_for_the_prover_alone(crate):
    code = "".join(
        text_of(path)
        for path in sorted(glob.glob(os.path.join(TOP, "crates", crate, "src", "**", "*.rt"), recursive=True))
    )
    assert not re.findall(r"^ *let _(?:\w+ =| = &).*$", code, flags=re.M)


def test_no_chain_of_crates_makes_the_first_build_slow():
    assert len(longest_chain(uses())) <= MOST_CHAIN


def test_the_picture_has_the_rooms():
    assert sorted(name for floor in drawn() for name, _ in floor) == sorted(room for room, _, _ in ROOMS)


@pytest.mark.parametrize(
    "room, of_room", [(room, of_room) for room, _, of_room in ROOMS], ids=[room for room, _, _ in ROOMS]
)
def test_the_picture_has_the_crates_of_a_room(room, of_room):
    names = dict(found for floor in drawn() for found in floor)
    assert sorted(written_out(names.get(room, []), of_room)) == sorted(of_room)


def places_of_crates():
    """Where each crate stands in the picture: its floor, its column where there is more than one, and its room."""
    found, of_rooms = {}, {room: of_room for room, _, of_room in ROOMS}
    for number, floor in enumerate(drawn()):
        for column, (room, _) in enumerate(floor):
            for crate in of_rooms.get(room, []):
                found[crate] = (number, column if len(floor) > 1 else None, room)
    return found


def stands_on(place, other):
    """Whether a crate at the one place of the picture may use one at the other."""
    (floor, column, room), (other_floor, other_column, other_room) = place, other
    return room == other_room or (floor < other_floor and (None in (column, other_column) or column == other_column))


@pytest.mark.parametrize("crate, below", uses().items(), ids=uses())
def test_a_crate_uses_what_its_room_stands_on(crate, below):
    place = places_of_crates()
    wrong = [it for it in below if crate in place and it in place and not stands_on(place[crate], place[it])]
    assert not wrong, f"crates.txt: {crate} uses {', '.join(wrong)} of a room on which its own doesn't stand"


def test_the_number_of_crates_is_told():
    assert re.findall(r"^(\d+) crates", text_of(ARCHITECTURE), flags=re.M)[:1] == [str(len(crates()))]


PAGES = sorted(
    os.path.relpath(path, TOP)
    for path in {path for place in PLACES for path in glob.glob(os.path.join(TOP, place))}
    if os.path.isfile(path)
)
# The tables of crates: the page, and the rows.
TABLES = [
    (page, rows) for page in PAGES if page.endswith(".md") for head, rows in tables(text_of(page)) if head == "Crate"
]


@pytest.mark.parametrize("page, rows", TABLES, ids=[page for page, _ in TABLES])
def test_a_table_of_crates_has_each_in_order(page, rows):
    flat = [it for row in rows for it in re.findall(r"bn_\w+", row[0])]
    assert flat == crates()
    said = {room: what for room, what, _ in ROOMS}
    told = {
        re.fullmatch(r"\*\*(\w+)\*\*", row[0])[1]: row[1]
        for row in rows
        if re.fullmatch(r"\*\*(\w+)\*\*", row[0]) and len(row) > 1
    }
    assert told == {room: said.get(room) for room in told}


@pytest.mark.parametrize("page", PAGES)
def test_each_name_of_a_crate_is_that_of_one(page):
    found = sorted(set(re.findall(r"\bbn_[a-z]\w*", text_of(page))) - {"bn_x"})
    assert not [
        it for it in found if not any(crate == it or it.endswith("_") and crate.startswith(it) for crate in crates())
    ]
