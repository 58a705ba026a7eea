"""What compare.py, profile.py and growth.py share: the program's command, the texts as files, runs that are measured,
and what is said of the machine beside them. It proves nothing and is no part of rt ci.
"""
import datetime
import os
import shlex
import shutil
import subprocess
import sys
from collections import namedtuple

sys.dont_write_bytecode = True
from bench import LAUNCH, TOP, one_element, ring
from run import increments
from texts import shuffled

BENCH = os.path.join(TOP, "bench")
COMPILERS = ("gcc", "clang")
# The board of one increment of 1011 has so many elements beside its history's cells, and so many for each of them.
BOARD_BASE, BOARD_CELL = 6634, 682

Run = namedtuple("Run", "processor memory")


def add_program(parser):
    """The option that says what is measured."""
    parser.add_argument(
        "--program",
        metavar="COMMAND",
        default=os.path.join(TOP, "crates/bn_main/out/bn_main"),
        help="the program: a path, or any command line that takes the words of the commands behind its"
        " own, as 'node bin/hithwelor' (crates/bn_main/out/bn_main)",
    )


def program_of(options):
    """The program's command line, by its words."""
    words = shlex.split(options.program)
    if not words or not shutil.which(words[0]):
        sys.exit(f"{options.program} isn't there: build it by tools/prove, or name one by --program")
    return words


def run_once(command, source, sink=os.devnull, wanted=0):
    """One run from a file to a file: seconds of the processor, and the peak of memory in bytes. The process that
    starts it and asks for both holds nothing but Python itself, some 15 MB; no peak is below that."""
    launcher = [sys.executable, "-c", LAUNCH]
    with open(source, "rb") as given, open(sink, "wb") as taken:
        ran = subprocess.run([*launcher, *command], stdin=given, stdout=taken, stderr=subprocess.PIPE)
    if ran.returncode:
        sys.exit(f"{shlex.join(command)}: {ran.stderr.decode().strip()}")
    *said, last = ran.stderr.decode().splitlines()
    _, processor, kilobytes, status = last.split()
    if int(status) != wanted:
        sys.exit(f"{shlex.join(command)}: status {status} {' '.join(said)}")
    return Run(float(processor), int(kilobytes) * 1024)


def compilers():
    """The C compilers that are installed."""
    found = [name for name in COMPILERS if shutil.which(name)]
    return found or sys.exit(f"none of {', '.join(COMPILERS)} is installed")


def compiled(name, compiler, folder, *flags):
    """The C program of this name, as this compiler makes it with these flags."""
    made = os.path.join(folder, f"{name}-{compiler}{''.join(flags)}")
    subprocess.run([compiler, "-O2", *flags, "-o", made, os.path.join(BENCH, f"{name}.c")], check=True)
    return made


def plain_rust(folder):
    """The plain Rust program that reads and writes texts, where rustc is installed."""
    if not shutil.which("rustc"):
        return None
    made = os.path.join(folder, "reader-rustc")
    if not os.path.exists(made):
        source = os.path.join(BENCH, "reader.rs")
        subprocess.run(["rustc", "--edition", "2021", "-O", "-o", made, source], check=True)
    return made


def write(path, content):
    with open(path, "wb") as file:
        file.write(content)
    return path


def order_of(count, is_shuffled):
    """The order in which a ring is visited, the same each time."""
    return shuffled(count) if is_shuffled else list(range(count))


def write_ring(path, count, is_shuffled, version):
    """The text of a ring; of one element the text of an endless run."""
    return write(path, one_element() if count == 1 else ring(order_of(count, is_shuffled), version))


def board_words(elements):
    """The words of `compile` for one increment in the widest window whose board has at most so many elements."""
    return ["=1011", "0", "5", str(max(1, (elements - BOARD_BASE) // BOARD_CELL)), "5"]


def write_board(path, program, elements, folder):
    """The text of that board, as the program compiles it."""
    table = write(os.path.join(folder, "increment"), increments(1))
    run_once([*program, "compile", *board_words(elements)], table, path)
    return path


def add_texts(parser):
    """The option that says which texts are measured."""
    parser.add_argument(
        "--texts",
        default="",
        metavar="WORDS",
        help="only those whose names have these words,"
        " as 'in order' or 'version 1'; their names are in the tables' first column",
    )


def texts(program, elements, folder, words):
    """The texts whose names have these words: pairs of a name and a file, each made when it is asked for."""
    path, four = os.path.join(folder, "text"), 4 * elements
    makers = {
        "ring in order, version 1": lambda: write_ring(path, elements, False, 1),
        "ring shuffled, version 1": lambda: write_ring(path, elements, True, 1),
        "ring in order, version 2": lambda: write_ring(path, four, False, 2),
        "ring shuffled, version 2": lambda: write_ring(path, four, True, 2),
        "compiled board, version 2": lambda: write_board(path, program, four, folder),
    }
    for name, make in makers.items():
        if words in name:
            yield name, make()


def elements_of(path):
    """How many elements the circuit of a text has."""
    with open(path, "rb") as text:
        return int([text.readline() for _ in range(2)][1].split()[1])


def circumstances(load):
    """When and beside what it was measured; `load` is the load at the beginning."""
    loads = sorted([load, os.getloadavg()[0]])
    nice = f", at niceness {os.nice(0)}" if os.nice(0) else ""
    return (
        f"Measured on {datetime.date.today()} with a load of {loads[0]:.0f} to {loads[1]:.0f} on {os.cpu_count()}"
        f" cores{nice}"
    )


def table(heads, rows):
    """A table in Markdown."""
    lines = ["| " + " | ".join(line) + " |" for line in [heads, *rows]]
    return "\n".join([lines[0], "|" + "---|" * len(heads), *lines[1:]])
