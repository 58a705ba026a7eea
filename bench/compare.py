#!/usr/bin/env python3
"""Times the program beside C and Rust: texts read and written beside bench/reader.c and bench/reader.rs, steps beside
bench/loop.c. It proves nothing and is no part of rt ci.

    bench/compare.py                                  by the proved program, crates/bn_main/out/bn_main
    bench/compare.py --program 'node bin/hithwelor' --elements 10000 --steps 20000000
                                                      by any command line, on smaller circuits and shorter runs
    bench/compare.py --count --elements 100000        instructions too, which is slow without perf's counters
    bench/compare.py --only texts                     or --only steps, or --only boards

Both C programs are compiled by gcc and by clang, -O2, and the Rust program by rustc, -O, where they are installed. The
texts are rings in order and shuffled and the board of an increment: in version 1 of as many elements as --elements
says, in version 2 of four times as many. What the program and the readers write is compared with the text, byte for
byte; then they run in turn, so that other work on the machine slows all of them, and what they write goes nowhere.
Seconds are of the processor, user and system, the medians of --runs runs. A ratio is that of two medians; behind it
stand the least and the greatest one of a turn. The peak of memory is what the process had itself, least of all runs;
none below some 15 MB can be seen.

Of steps, the program's seconds are those of `step E` less those of `step 0` in the same turn, and those of `back E`
less those of `back 1`, since the way back is made before the first step back. The C loop is compiled in two forms: a
line has its own number, element by element, or lines are numbered in blocks, as in the program. Of texts a ratio above
1 means that the program is slower, of steps that it is faster.

Of boards `compile` is told beside `run` of the same board with no steps, which makes the board and doesn't write its
text, so that the difference is what writing takes; the Rust program writes the same text eleven times and once, so that
a tenth of their difference is what it takes to write it. Then come the seconds of three commands as they are. The tables
at the end are in Markdown, as they stand in docs/use/benchmarks.md.
"""
import argparse
import filecmp
import os
import re
import shlex
import shutil
import statistics
import subprocess
import sys
import tempfile

sys.dont_write_bytecode = True
from bench import RING
from run import INSIDE, increments
import measuring

# On a shuffled ring that is too great for the caches a step waits for memory, and a twentieth takes as long.
SHUFFLED_SHARE, GREAT = 20, RING // 4
# Less time than this says nothing.
LEAST_SECONDS = 0.02
COUNTED_STEPS = 1_000_000
# With so many steps all is made that a run of more needs: the first step back makes the way back.
LEAST_STEPS = {"step": 0, "back": 1}


def options_of():
    parser = argparse.ArgumentParser(description=__doc__, formatter_class=argparse.RawDescriptionHelpFormatter)
    measuring.add_program(parser)
    parser.add_argument("--runs", type=int, default=5, metavar="N", help="how often each is run (5)")
    parser.add_argument("--elements", type=int, default=RING, metavar="N", help="of version 1 (1,048,576)")
    parser.add_argument("--steps", type=int, default=400_000_000, metavar="N", help="of one run (400,000,000)")
    parser.add_argument("--count", action="store_true", help="count instructions too, by perf or by valgrind")
    measuring.add_texts(parser)
    parser.add_argument("--only", choices=("texts", "steps", "boards"), help="one of the parts alone")
    return parser.parse_args()


def compare_once(command, source, folder):
    """Holds that a command writes what it reads."""
    sink = os.path.join(folder, "written")
    measuring.run_once(command, source, sink)
    if not filecmp.cmp(source, sink, shallow=False):
        sys.exit(f"{shlex.join(command)}: it writes another text than it reads")
    os.remove(sink)


def can_perf_count():
    """Whether perf counts instructions on this machine."""
    if not shutil.which("perf"):
        return False
    ran = subprocess.run(["perf", "stat", "-x,", "-e", "instructions:u", "true"], capture_output=True, text=True)
    return ran.stderr[:1].isdigit()


def instructions(command, source, folder):
    """How many instructions a command takes, by perf's counters, else by valgrind."""
    said = os.path.join(folder, "counted")
    if can_perf_count():
        counter = ["perf", "stat", "-x,", "-e", "instructions:u", "-o", said]
    else:
        counter = [
            "valgrind",
            "--tool=cachegrind",
            "--cache-sim=no",
            "--cachegrind-out-file=/dev/null",
            f"--log-file={said}",
        ]
    with open(source, "rb") as given:
        subprocess.run([*counter, *command], stdin=given, stdout=subprocess.DEVNULL, check=True)
    with open(said, encoding="utf-8") as file:
        found = re.search(r"I +refs: +([\d,]+)|^(\d+),", file.read(), re.MULTILINE)
    if not found:
        sys.exit(f"{shlex.join(counter)} gave no count")
    return int((found[1] or found[2]).replace(",", ""))


def ratio(over, under):
    """The ratio of two series' medians, and the least and the greatest of the single ones."""
    single = sorted(one / other for one, other in zip(over, under))
    return f"{statistics.median(over) / statistics.median(under):.2f} ({single[0]:.2f} to {single[-1]:.2f})"


def in_turn(commands, source, runs):
    """The runs of each command, in turn."""
    found = {name: [] for name in commands}
    for _ in range(runs):
        for name, command in commands.items():
            found[name].append(measuring.run_once(command, source))
    return found


def text_rows(options, program, folder):
    """Of each text a row of seconds and memory, and a row of instructions."""
    readers = {f"C by {name}": [measuring.compiled("reader", name, folder)] for name in measuring.compilers()}
    rust = measuring.plain_rust(folder)
    if rust:
        readers["Rust"] = [rust]
    commands = {"program": [*program, "step", "0"], **readers}
    rows, counts = [], []
    for name, source in measuring.texts(program, options.elements, folder, options.texts):
        elements = measuring.elements_of(source)
        for command in commands.values():
            compare_once(command, source, folder)
        found = in_turn(commands, source, options.runs)
        seconds = {who: [run.processor for run in series] for who, series in found.items()}
        row = [name, f"{elements:,}", f"{statistics.median(seconds['program']):.3f}"]
        for reader in readers:
            row += [f"{statistics.median(seconds[reader]):.3f}", ratio(seconds["program"], seconds[reader])]
        row += [f"{min(run.memory for run in found[who]) / elements:.1f}" for who in ("program", next(iter(readers)))]
        rows.append(row)
        print(" | ".join(row), flush=True)
        if options.count:
            counted = [instructions(command, source, folder) / elements for command in commands.values()]
            more = [f"{part:.0f} ({counted[0] / part:.2f})" for part in counted[1:]]
            counts.append([name, f"{elements:,}", f"{counted[0]:.0f}", *more])
            print(" | ".join(counts[-1]), flush=True)
    return readers, rows, counts


def text_tables(options, program, folder):
    """What reading and writing take, in Markdown."""
    readers, rows, counts = text_rows(options, program, folder)
    heads = ["`step 0`", "Elements", "Program, s"]
    for name in readers:
        heads += [f"{name}, s", "Ratio"]
    told = measuring.table([*heads, "Bytes an element, program", "C"], rows)
    if counts:
        heads = ["Instructions an element", "Elements", "Program", *(f"{name} (ratio)" for name in readers)]
        told += "\n\n" + measuring.table(heads, counts)
    return told


def loops_in(folder):
    """The C loop of each compiler in each of its forms."""
    forms = {"C by {}": [], "blocks, {}": ["-DBLOCKS"]}
    return {
        form.format(compiler): measuring.compiled("loop", compiler, folder, *flags)
        for form, flags in forms.items()
        for compiler in measuring.compilers()
    }


def loop_speeds(loop, order, count, steps):
    """Millions of steps a second of the C loop, both ways."""
    with open(order, "rb") as given:
        ran = subprocess.run([loop, str(count), str(steps)], stdin=given, stdout=subprocess.PIPE, check=True)
    return [float(speed) for speed in ran.stdout.split()]


def program_speeds(program, source, moved, steps):
    """Millions of steps a second of the program, both ways: from one text on, and from what `step` made of it back."""
    speeds = []
    for word, text in (("step", source), ("back", moved)):
        few, many = (measuring.run_once([*program, word, str(n)], text).processor for n in (LEAST_STEPS[word], steps))
        if many - few < LEAST_SECONDS:
            sys.exit(f"{steps} steps are too few to be timed: say more by --steps")
        speeds.append((steps - LEAST_STEPS[word]) / (many - few) / 1e6)
    return speeds


def step_rows(options, program, folder, name, count, is_shuffled):
    """Two rows of one circuit: forward and back."""
    steps = options.steps // SHUFFLED_SHARE if is_shuffled and count >= GREAT else options.steps
    path = os.path.join(folder, "text")
    source = measuring.write_ring(path, count, is_shuffled, 1)
    numbers = b"".join(element.to_bytes(4, "little") for element in measuring.order_of(count, is_shuffled))
    order, moved = measuring.write(os.path.join(folder, "order"), numbers), os.path.join(folder, "moved")
    measuring.run_once([*program, "step", str(steps)], source, moved)
    back = os.path.join(folder, "back")
    measuring.run_once([*program, "back", str(steps)], moved, back)
    if not filecmp.cmp(source, back, shallow=False):
        sys.exit(f"{name}: {steps} steps and as many back give another text")
    loops = loops_in(folder)
    found = {who: [] for who in ("program", *loops)}
    for _ in range(options.runs):
        found["program"].append(program_speeds(program, source, moved, steps))
        for who, loop in loops.items():
            found[who].append(loop_speeds(loop, order, count, steps))
    for way, words in enumerate(("step", "back")):
        speeds = {who: [pair[way] for pair in pairs] for who, pairs in found.items()}
        row = [f"{name}, `{words}`", f"{statistics.median(speeds['program']):.1f}"]
        for who in loops:
            row += [f"{statistics.median(speeds[who]):.1f}", ratio(speeds["program"], speeds[who])]
        print(" | ".join(row), flush=True)
        yield row


def step_counts(program, folder):
    """The instructions of a step on one element, in Markdown: what runs of the fewest steps take is taken off."""
    source = measuring.write_ring(os.path.join(folder, "text"), 1, False, 1)
    order, moved = measuring.write(os.path.join(folder, "order"), bytes(4)), os.path.join(folder, "moved")
    measuring.run_once([*program, "step", str(COUNTED_STEPS)], source, moved)

    def counted(command, word, given):
        least = LEAST_STEPS.get(word, 0)
        many, few = (instructions([*command, word, str(n)], given, folder) for n in (COUNTED_STEPS, least))
        return (many - few) / (COUNTED_STEPS - least)

    row = ["one element", f"{counted(program, 'step', source):.1f}", f"{counted(program, 'back', moved):.1f}"]
    loops = loops_in(folder)
    row += [f"{counted([loop], '1', order) / 2:.1f}" for loop in loops.values()]
    heads = ["Instructions a step", "Program, `step`", "Program, `back`"]
    return measuring.table([*heads, *(f"{who}, both ways" for who in loops)], [row])


def step_tables(options, program, folder):
    """What steps take, in Markdown."""
    rows = []
    count = options.elements
    for name, count, is_shuffled in (
        ("one element", 1, False),
        (f"ring of {count:,} in order", count, False),
        (f"ring of {count:,} shuffled", count, True),
    ):
        rows += step_rows(options, program, folder, name, count, is_shuffled)
    heads = ["Million steps a second", "Program"]
    for who in loops_in(folder):
        heads += [who, "Ratio"]
    told = measuring.table(heads, rows)
    return f"{told}\n\n{step_counts(program, folder)}" if options.count else told


def board_tables(options, program, folder):
    """What `compile` takes beside what writing its text takes, and the seconds of commands on boards, in Markdown."""
    table = measuring.write(os.path.join(folder, "increment"), increments(1))
    words = measuring.board_words(options.elements)
    whole, opened, rust = [], [], measuring.plain_rust(folder)
    board = measuring.write_board(os.path.join(folder, "board"), program, options.elements, folder)
    written = []
    for _ in range(options.runs):
        whole.append(measuring.run_once([*program, "compile", *words], table).processor)
        opened.append(measuring.run_once([*program, "run", *words, "0"], table, wanted=INSIDE).processor)
        if rust:
            many, once = (measuring.run_once([rust, times], board).processor for times in ("11", "1"))
            written.append((many - once) / 10)
    writing = [one - other for one, other in zip(whole, opened)]
    tells = min(writing) > 0
    elements = measuring.BOARD_BASE + measuring.BOARD_CELL * int(words[3])
    row = [f"{elements:,}", *(f"{statistics.median(series):.3f}" for series in (whole, opened))]
    row.append(ratio(whole, writing) if tells else "too few elements to tell")
    heads = ["Elements", "`compile`, s", "`run` of no steps, s", "`compile` by the difference"]
    if rust and tells and min(written) > 0:
        row += [f"{statistics.median(written):.3f}", ratio(writing, written)]
        heads += ["Written by Rust, s", "The difference by that"]
    told = measuring.table(heads, [row])
    widest = measuring.board_words(4 * options.elements)
    commands = {
        "generate 4": ["generate", "4"],
        "run =1011 0 5 11 5": ["run", "=1011", "0", "5", "11", "5"],
        " ".join(["compile", *widest]): ["compile", *widest],
    }
    found = in_turn({name: [*program, *command] for name, command in commands.items()}, table, options.runs)
    rows = []
    for name, series in found.items():
        seconds = sorted(run.processor for run in series)
        rows.append([f"`{name}`", *(f"{part:.4f}" for part in (statistics.median(seconds), seconds[0], seconds[-1]))])
    return told + "\n\n" + measuring.table(["Seconds", "Median", "Least", "Greatest"], rows)


def main():
    options = options_of()
    program, load = measuring.program_of(options), os.getloadavg()[0]
    tables = []
    with tempfile.TemporaryDirectory() as folder:
        for part, tables_of in (("texts", text_tables), ("steps", step_tables), ("boards", board_tables)):
            if options.only in (None, part):
                tables.append(tables_of(options, program, folder))
    print(f"\n{measuring.circumstances(load)}; the medians of {options.runs} runs in turn.")
    for told in tables:
        print(f"\n{told}")


if __name__ == "__main__":
    main()
