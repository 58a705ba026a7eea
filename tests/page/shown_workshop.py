"""The workshop of the page, each of its pages, with what the program says."""
import json
import urllib.parse

from counting import text_of
from shown import PAGE
from workbench_text import read_configuration

# Opens a page of the workshop, puts texts into its fields, and waits until the program has answered.
FILLED = """(async () => {
  bench.openWorkshop(%s);
  const fields = %s, rest = ms => new Promise(done => setTimeout(done, ms));
  for (const [id, text] of fields) {
    const it = document.getElementById(id);
    it.value = text;
    it.dispatchEvent(new Event("input"));
  }
  await rest(400);
  await bench.inTurn(() => {});
})()"""
PRESSED = """(async () => {
  for (let k = 0; k < %d; k++) {
    document.getElementById(%s).click();
    await bench.inTurn(() => {});
  }
})()"""
# The bars as they are drawn, in the order of the elements.
DRAWN = """(id => [...document.querySelectorAll(`#${id} .bar`)].map(it =>
  it.getAttribute("transform").includes("rotate(90)") ? "V" : "H").join(""))(%s)"""


def fill(page, key, **fields):
    page.wait(FILLED % (json.dumps(key), json.dumps([[name.replace("_", "-"), text] for name, text in fields.items()])))


def press(page, name, times=1):
    page.wait(PRESSED % (times, json.dumps(name)))


def drawn(page, name):
    return page.ask(DRAWN % json.dumps(name))


def said(page, name):
    return page.ask(f"document.getElementById({json.dumps(name)}).textContent")


def bars(text):
    return "".join(read_configuration(text).bars)


def check_elements(page, program, count):
    for name, steps in (("eight-rows.txt", 8), ("two-columns.txt", 5), ("undo.txt", 0)):
        given = text_of("examples", name)
        fill(page, "elements", e_text=given)
        for k in range(steps + 1):
            right = program.text(["step", str(k)], given)
            count.hold(
                page.ask("bench.pageOf('elements').stepper().text") == right
                and drawn(page, "e-picture") == bars(right),
                f"elements, {name}, step {k}: the bars {drawn(page, 'e-picture')} aren't the program's",
            )
            if k < steps:
                press(page, "e-forth")


def check_mirror(page, program, count):
    """Each step of the mirror takes one of the circuit back."""
    for name, steps in (("undo.txt", 0), ("two-columns.txt", 8), ("eight-rows.txt", 8)):
        given = text_of("examples", name)
        fill(page, "mirror", m_text=given)
        press(page, "m-forth", steps)
        here = program.text(["step", str(steps)], given)
        mirror = program.text(["mirror"], here)
        made = int(here.splitlines()[4].split()[1])
        for k in range(1, made + 1):
            press(page, "m-mforth")
            right, back = program.text(["step", str(k)], mirror), program.text(["back", str(k)], here)
            seen = drawn(page, "m-mirror")
            count.hold(
                seen == bars(right) == bars(back) and drawn(page, "m-circuit") == bars(here),
                f"mirror of {name}, step {k}: the bars {seen}, and not {bars(right)}",
            )
            count.hold(
                "its bars are those of the circuit" in said(page, "m-said"),
                f"mirror of {name}, step {k}: {said(page, 'm-said')}",
            )
        count.hold("Everything is undone" in said(page, "m-said"), f"mirror of {name}: {said(page, 'm-said')}")


def check_farm(page, program, count):
    """Boards after each event, and back by the schedule that undoes."""
    *boards, schedule = text_of("examples", "two-boards.txt").split("%\n")
    fill(page, "farm", f_0=boards[0], f_1=boards[1], f_schedule=schedule)
    events = [line.split()[:2] for line in schedule.splitlines() for _ in range(int(line.split()[2]))]
    for k in range(len(events) + 1):
        front = "".join(f"{sign} {board} 1\n" for sign, board in events[:k])
        right = program.text(["farm"], "".join(f"{it}%\n" for it in boards) + front).split("%\n")
        shown = [drawn(page, "f-room0"), drawn(page, "f-room1")]
        count.hold(
            shown == [bars(it) for it in right[:2]], f"two boards, event {k}: the bars {shown} aren't the program's"
        )
        if k < len(events):
            press(page, "f-forth")
    undoing = page.ask("[...document.querySelectorAll('#f-undoing code')].map(it => it.textContent)")
    whole = program.text(["farm"], text_of("examples", "two-boards.txt"))
    count.hold(undoing == whole.split("%\n")[-1].splitlines(), f"two boards: the undoing schedule is {undoing}")
    press(page, "f-undo")
    press(page, "f-line", len(undoing))
    count.hold(
        "byte for byte" in said(page, "f-said")
        and [drawn(page, "f-room0"), drawn(page, "f-room1")] == [bars(it) for it in boards],
        f"two boards, undone: {said(page, 'f-said')}",
    )
    fill(page, "farm", f_schedule="+ 3 1\n")
    count.hold(
        "this circuit does not exist" in said(page, "f-fault"),
        f"a schedule of a third board: {said(page, 'f-fault')!r}",
    )


def check_erase(page, program, count):
    """Nothing left but the output; and a second machine that takes nothing back."""
    for name, word in (
        ("not-twice.txt", "1101"),
        ("not-twice.txt", ""),
        ("least-twice.txt", ""),
        ("not-increment.txt", "101"),
    ):
        first, second = text_of("examples", name).split("%\n")
        fill(page, "erase", x_first=first, x_second=second, x_word=word)
        right = program.text(["erase", "=" + word, "1000000"], text_of("examples", name)).split()
        rows = page.ask("[...document.querySelectorAll('#x-table code')].map(it => it.textContent + '\\n').join('')")
        count.hold(
            rows == program.text(["erase"], text_of("examples", name)),
            f"erase, {name}: the quadruples aren't the program's",
        )
        cells = page.ask(
            "[...document.querySelectorAll('#x-ends tbody tr:last-child td')].map(it => "
            "it.textContent.replace('blank', ''))"
        )
        if right[0] == "halted":
            told = [
                right[2].partition("=")[2] if len(right) > 2 else "",
                right[-1].partition("=")[2],
                f"{int(right[1]):,} quadruple steps",
            ]
            count.hold(cells == told, f"erase, {name}, {word!r}: {cells}, and not {told}")
        else:
            count.hold(
                cells[2].startswith("stuck in " + right[1]), f"erase, {name}, {word!r}: {cells}, and not {right}"
            )


# The symbols that aren't blank and the head of each tape, as they are drawn.
TAPES = """(id => [...document.querySelectorAll(`#${id} svg`)].map(svg =>
  [...svg.querySelectorAll("g[data-cell]")].flatMap(g => {
  const symbol = g.querySelector(".symbol").textContent;
  return symbol === "·" ? [] : [[Number(g.dataset.cell), symbol]];
})))(%s)"""


def told_tapes(line):
    """The same of a text line of `moments`."""
    words, tapes, at = line.split(), [], 2
    while words[at : at + 1] == ["tape"]:
        first, count = int(words[at + 3]), int(words[at + 7].rstrip(":"))
        symbols = words[at + 8 : at + 8 + count]
        tapes.append([[first + k, it] for k, it in enumerate(symbols) if it != "_"])
        at += 8 + count
    return tapes


def check_side(page, name, lines, count, what):
    """Each moment of a run, as it is stepped to."""
    for k, line in enumerate(lines):
        words, place = line.split(), said(page, f"r-{name}-place")
        row = f" · quadruple {words[-1]} is next" if words[-2] == "rule" else ""
        count.hold(
            place == f"moment {k} of {len(lines) - 1} · state {words[1]}{row}"
            and page.ask(TAPES % json.dumps(f"r-{name}")) == told_tapes(line),
            f"{what}, moment {k}: {place}, and the program says {line}",
        )
        if k < len(lines) - 1:
            press(page, f"r-{name}-forth")


def check_reversible(page, program, count):
    """A machine of quadruples and its inverse, moment by moment, the circuit that is built, and refusals in words."""
    for name, words, back, window in (
        ("counter.csv", ["110", "", ""], ["001", "", ""], ["0", "3", "1", "1"]),
        ("adder.csv", ["11", "110", ""], ["11", "011", ""], ["0", "3", "4", "4"]),
    ):
        table, tapes = text_of("examples", name), [f"={it}" for it in words]
        fill(
            page,
            "reversible",
            r_table=table,
            r_word1=words[0],
            r_word2=words[1],
            r_word3=words[2],
            r_window=" ".join(window),
        )
        page.wait(
            "(async () => { const it = document.getElementById('r-circuit');"
            " for (let k = 0; k < 600 && !/has .* elements/.test(it.textContent); k++)"
            " await new Promise(done => setTimeout(done, 50)); })()"
        )
        run = program.text(["moments", *tapes, "2000"], table).splitlines()
        inverse = program.text(
            ["moments", *(f"={it}" for it in back), "2000"], program.text(["inverse"], table)
        ).splitlines()
        check_side(page, "on", run[:-1], count, name)
        check_side(page, "back", inverse[:-1], count, f"the inverse of {name}")
        count.hold("returns to the start" in said(page, "r-said"), f"{name}: {said(page, 'r-said')}")
        driven = program.text(["drive", *tapes, *window, "1000000000"], table).splitlines()
        given = said(page, "r-circuit")
        numbers = [f"{int(driven[at].split()[-1]):,}" for at in (0, 2, 3)]
        count.hold(
            driven[1] == "exit end" and all(it in given for it in numbers) and "show the final tapes" in given,
            f"{name}: the circuit's words are {given}, and the program says {driven}",
        )
    for at in range(4):
        page.wait(
            "(async () => { const it = document.getElementById('r-examples');"
            f" it.value = '{at}'; await it.onchange(); }})()"
        )
        count.hold(
            not said(page, "r-fault") and "returns to the start" in said(page, "r-said"),
            f"the machine {at} to begin with: {said(page, 'r-fault')} {said(page, 'r-said')}",
        )
    fill(page, "reversible", r_table=text_of("examples", "irreversible.csv"), r_word1="")
    count.hold("overlap in" in said(page, "r-fault"), f"a table that isn't reversible: {said(page, 'r-fault')!r}")


def check_plan(page, program, count):
    for given in (
        text_of("examples", "two-elements.txt"),
        text_of("examples", "two-columns.txt"),
        text_of("examples", "eight-rows.txt"),
    ):
        fill(page, "plan", l_text=given)
        right = program.text(["plan"], given).splitlines()
        wires = [
            f"wire {a} {b} track {track}"
            for a, b, track in (
                it.split()
                for it in page.ask(
                    "[...document.querySelectorAll('#l-picture [data-wire]')].map(it => " "it.dataset.wire)"
                )
            )
        ]
        count.hold(wires == right[4:] and wires, f"the floor plan draws {wires[:3]}, and the program says {right[4:7]}")
        count.hold(
            said(page, "l-said").startswith(f"{right[1].split()[1]} wires on {right[2].split()[1]} tracks"),
            f"the floor plan says {said(page, 'l-said')}",
        )


def check_command(page, program, count):
    """Any command, alone and behind another, and an address that opens one."""
    given = text_of("examples", "increment.csv")
    for stages in ([["check"]], [["bennett"], ["reversible"]], [["machine", "=12", "20"]], [["nothing"]]):
        right, status = given, 0
        for words in stages:
            status, right = program.answer(words, right)
        page.wait(
            "(async () => { bench.openWorkshop('command'); await bench.pageOf('command').take(%s, %s); })()"
            % (json.dumps(" | ".join(" ".join(it) for it in stages)), json.dumps(given))
        )
        count.hold(
            page.ask("document.getElementById('k-text').textContent") == right
            and said(page, "k-said").startswith(f"status {status}"),
            f"command {stages}: {said(page, 'k-said')}, and the program says {status} {right[:60]!r}",
        )
    page.ask("document.getElementById('workshop').close(); 0")
    asked = urllib.parse.urlencode(
        {"c": "step 1", "i": text_of("examples", "across.txt")}, quote_via=urllib.parse.quote
    )
    right = program.text(["step", "1"], text_of("examples", "across.txt"))
    page.visit(f"file://{PAGE}#{asked}", f"document.getElementById('k-text')?.textContent === {json.dumps(right)}")
    count.hold(page.ask("location.hash").startswith("#c="), "the address of a command isn't kept")


# Makes moves by the buttons of segments, and presses keys in the workshop.
MOVED = "(%s.forEach(i => document.querySelector(`#b-segments [data-segment='${i}']`).click()), 0)"
KEYED = """(%s.forEach(key => document.getElementById("b-segments").dispatchEvent(
  new KeyboardEvent("keydown", {key, bubbles: true, cancelable: true}))), 0)"""
REACHED = "9 moves, 1 in use, at most 3. Reached, with the fewest moves."


def check_pebbles(page, count, browser=""):
    """The pebble game by hand, by keys and by its address: four segments with three pebbles take nine moves."""
    page.visit(f"file://{PAGE}#pebbles", "document.getElementById('b-said')?.textContent.startsWith('0 moves')")
    page.ask(MOVED % [3])
    count.hold(said(page, "b-said").startswith("Not allowed"), f"{browser}pebbles: {said(page, 'b-said')}")
    page.ask(MOVED % [1, 2, 1, 3, 4, 3, 1, 2, 1])
    count.hold(said(page, "b-said") == REACHED, f"{browser}pebbles by hand: {said(page, 'b-said')}")
    shown = page.ask("document.querySelectorAll('#b-picture rect[fill=none]').length")
    count.hold(shown == 4, f"{browser}pebbles: {shown} are taken in the picture")
    page.ask("(document.getElementById('b-again').click(), 0)")
    page.ask(KEYED % json.dumps(["ArrowRight"] * 9))
    count.hold(said(page, "b-said") == REACHED, f"{browser}pebbles by keys: {said(page, 'b-said')}")
    page.ask(KEYED % json.dumps(["ArrowLeft"] * 9 + ["1", "2", "y"]))
    count.hold(said(page, "b-said").startswith("2 moves, 2 in use"), f"{browser}pebbles: {said(page, 'b-said')}")
    count.hold(page.ask("location.hash") == "#pebbles", f"{browser}pebbles: the address isn't kept")


def check_workshop(page, program, count):
    page.visit(f"file://{PAGE}#m=least")
    for check in (check_elements, check_mirror, check_farm, check_erase, check_reversible, check_plan, check_command):
        check(page, program, count)
    check_pebbles(page, count)
    count.hold(not page.faults(), f"the workshop: {page.faults()}")
