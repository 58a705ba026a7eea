"""The outputs that the documents show, read from their pages, and what a program gives in their place.

In each page of the root, of docs/, of examples/, of the folders in them, and of notebooks/, each line of a code block that
begins with `$ ` is a command, and the lines up to the next one, or to the end of the block, are what it prints. The
commands are `cat FILE`, `printf 'TEXT'`, `./workbench WORDS`, `./try WORDS`, `./hithwelor ARGUMENTS`, and chains of them by
`|`, with `< FILE`, and `echo $?` for the exit status of the command before. The last of a chain may be `cksum`, `head -n N`,
`tail -n N` or `grep PATTERN`. Files are named from the top of the repository. `./hithwelor` chooses what answers it. A block of another language (as ```sh) is no example and is passed over.

In a table of four columns whose second cell is a command of the program, the third cell has lines of its output, in
their order. In the man page, docs/use/workbench.1, the blocks from .EX to .EE are read as above, and each quoted command
below a number of its section EXIT STATUS has to end with that number. The statuses 7, 8 and 9 come from outside the
program (a folder as input, a full device, no memory); their commands are not run here.

Nothing of this wants pytest: test_documents.py compares by it, and check/quick on a new machine.
"""
import glob
import os
import re
import shlex
import subprocess
import tempfile
from concurrent.futures import ThreadPoolExecutor

from places import TOP

MAN_PAGE = "docs/use/workbench.1"
PEOPLE = "./hithwelor"
PROGRAMS = ["./workbench", "./try", PEOPLE]
FROM_OUTSIDE = [7, 8, 9]
FILTERS = ["cksum", "head", "tail", "grep"]
STATUS = "echo $?"
# The fewest runs for which another unproved build is worth its time.
LEAST_SHARE = 40
# How long `rt try` lets a run go on.
SECONDS = "600"


def pages():
    """The pages that may show outputs, from the top."""
    patterns = ("*.md", "docs/*.md", "docs/*/*.md", "examples/*.md", "examples/machines/*.md", "notebooks/*.md")
    found = [path for pattern in patterns for path in glob.glob(os.path.join(TOP, pattern))]
    return sorted(os.path.relpath(path, TOP) for path in found)


def has_program(command):
    """Whether a command runs the program."""
    return any(program in command for program in PROGRAMS)


class Example:
    """A command of a page with what the page says that it prints."""

    def __init__(self, page, line, command, before=None):
        self.place = f"{page}:{line}"
        self.command = command
        self.before = before
        self.wanted = []
        self.is_shown = False
        self.is_part = False
        self.wanted_status = None
        self.text = b""
        self.status = 0

    def show(self, line):
        self.wanted.append(line)
        self.is_shown = True

    def holds(self):
        """Whether the program gave what the page says."""
        if self.wanted_status is not None:
            return self.status == self.wanted_status
        if self.is_part:
            given = iter(self.text.decode(errors="replace").splitlines())
            return self.is_shown and all(line in given for line in self.wanted)
        return self.is_shown and self.text == "".join(line + "\n" for line in self.wanted).encode()

    def told(self):
        """The command, what the page says of it and what was given, as a text."""
        given = (f"    {line}" for line in self.text.decode(errors="replace").splitlines())
        return "\n".join([f"{self.place}: {self.command}", *self.claims(), "  the program gives:", *given])

    def claims(self):
        """What the page says, as lines to print."""
        if self.wanted_status is not None:
            return [f"  the page says: status {self.wanted_status}, and it is {self.status}"]
        if not self.is_shown:
            return ["  the page shows no output"]
        return [
            "  the page shows, among others:" if self.is_part else "  the page shows:",
            *(f"    {line}" for line in self.wanted),
        ]


def row_of(page, number, line):
    """The example in a row of a table of four columns, where its second cell is a command of the program."""
    cells = [cell.strip().replace("\\|", "|") for cell in re.split(r"(?<!\\)\|", line)[1:-1]]
    if len(cells) != 4 or not has_program(cells[1]):
        return None
    it = Example(page, number, cells[1].strip("`"))
    it.is_part = True
    for shown in re.findall(r"`([^`]*)`", cells[2]):
        it.show(shown)
    return it


def unrolled(line):
    """A line of the man page as it is shown."""
    return line.replace("\\&", "").replace("\\-", "-").replace("\\e", "\\")


def man_examples_of(page):
    """The examples of the man page, in order, block by block: its blocks, and the commands of its exit statuses."""
    blocks, block, section, status = [], None, "", None
    with open(os.path.join(TOP, page), encoding="utf-8") as lines:
        for number, line in enumerate(lines, 1):
            line = line.rstrip("\n")
            if line.startswith(".SH "):
                section, status = line[4:], None
            elif line == ".EX":
                block = []
            elif line == ".EE":
                blocks.append(block)
                block = None
            elif block is not None:
                line = unrolled(line)
                if line.startswith("$ "):
                    block.append(Example(page, number, line[2:], block[-1] if block else None))
                elif block:
                    block[-1].show(line)
                else:
                    raise ValueError(f"{page}:{number}: an output without a command")
            elif section == "EXIT STATUS" and re.fullmatch(r"\.B \d+", line):
                status = int(line[3:])
            elif status is not None and status not in FROM_OUTSIDE:
                for command in re.findall(r'"([^"]*)"', line):
                    if has_program(command):
                        it = Example(page, number, unrolled(command))
                        it.wanted_status = status
                        blocks.append([it])
    return blocks


def examples_of(page):
    """The examples of a page, in order, block by block."""
    blocks, block, language = [], None, ""
    with open(os.path.join(TOP, page), encoding="utf-8") as lines:
        for number, line in enumerate(lines, 1):
            line = line.rstrip("\n")
            if line.startswith("```"):
                if block is None:
                    block, language = [], line[3:].strip()
                else:
                    if not language and block:
                        blocks.append(block)
                    block = None
            elif block is not None and not language:
                if line.startswith("$ "):
                    block.append(Example(page, number, line[2:], block[-1] if block else None))
                elif block:
                    block[-1].show(line)
            elif block is None and line.startswith("|"):
                row = row_of(page, number, line)
                if row:
                    blocks.append([row])
    return blocks


def unescaped(text):
    """The bytes that printf prints of a format without conversions."""
    return text.encode().decode("unicode_escape").replace("%%", "%").encode("latin-1")


def stages_of(command):
    """The bytes that a command begins with, the words of each run of the program, and those of the filter behind."""
    parts = shlex.split(command.replace("|", " | ").replace("<", " < "))
    start, runs, sieve, stage = b"", [], [], []
    for part in [*parts, "|"]:
        if part != "|":
            stage.append(part)
            continue
        if stage[0] in PROGRAMS:
            if "<" in stage:
                at = stage.index("<")
                with open(os.path.join(TOP, stage[at + 1]), "rb") as file:
                    start = file.read()
                stage = stage[:at]
            runs.append(tuple(stage))
        elif stage[0] == "cat" and len(stage) == 2:
            with open(os.path.join(TOP, stage[1]), "rb") as file:
                start = file.read()
        elif stage[0] == "printf" and len(stage) == 2:
            start = unescaped(stage[1])
        elif stage[0] in FILTERS and runs:
            sieve = stage
        else:
            raise ValueError(f"a command that this check doesn't know: {command}")
        stage = []
    return start, runs, sieve


def tried(jobs):
    """The outputs and statuses of the program for words and inputs, by unproved builds: several side by side, each of
    which runs its share one after another, since a run takes longer there than a build."""
    builds = max(1, min(len(os.sched_getaffinity(0)) - 1, len(jobs) // LEAST_SHARE))
    with ThreadPoolExecutor(builds) as pool:
        shares = list(pool.map(tried_by_one, [jobs[first::builds] for first in range(builds)]))
    return [shares[number % builds][number // builds] for number in range(len(jobs))]


def tried_by_one(jobs):
    """The same by one build."""
    with tempfile.TemporaryDirectory() as folder:
        for number, (words, data) in enumerate(jobs):
            with open(os.path.join(folder, f"case{number:03}"), "wb") as file:
                file.write(data)
            with open(os.path.join(folder, f"case{number:03}.args"), "w", encoding="utf-8") as file:
                file.write("".join(f"{word}\n" for word in words[1:]))
        ran = subprocess.run(
            ["rt", "try", "--seconds", SECONDS, "--cases", folder],
            cwd=os.path.join(TOP, "crates", "bn_main"),
            stdin=subprocess.DEVNULL,
            capture_output=True,
        )
    said = ran.stderr.decode(errors="replace")
    statuses = {int(n): int(s) for n, s in re.findall(r"case=case(\d+) .*?status=(\d+)", said)}
    pieces = re.split(rb"^== case(\d+)\n", ran.stdout, flags=re.M)
    texts = {int(pieces[at]): pieces[at + 1] for at in range(1, len(pieces) - 1, 2)}
    if not statuses:
        raise OSError(f"rt try answered nothing:\n{said}")
    lost = "(no answer: `rt try` came to a limit)\n".encode()
    return [(texts[n], statuses[n]) if n in statuses and n in texts else (lost, None) for n in range(len(jobs))]


def answers_by(program):
    """What answers words and inputs: the program of this path, or with none the one that the words name."""

    def answer(job):
        words, data = job
        command = words[0] if words[0] == PEOPLE else program or words[0]
        ran = subprocess.run(
            [command, *words[1:]], input=data, stdout=subprocess.PIPE, stderr=subprocess.DEVNULL, cwd=TOP
        )
        return ran.stdout, ran.returncode

    def answers(jobs):
        with ThreadPoolExecutor(len(os.sched_getaffinity(0))) as pool:
            return list(pool.map(answer, jobs))

    return answers


def run_all(examples, answers):
    """Runs the programs of examples, chain by chain: the first of each, then the second of each that has two. What
    `echo $?` prints is the status of the command before it, which has to be among them."""
    waiting = []
    for it in examples:
        it.text, it.runs, it.sieve = (b"", [], []) if it.command == STATUS else stages_of(it.command)
        if it.runs:
            waiting.append(it)
    while waiting:
        for it, (text, status) in zip(waiting, answers([(it.runs[0], it.text) for it in waiting])):
            it.text, it.status = text, status
            it.runs = it.runs[1:]
        waiting = [it for it in waiting if it.runs]
    for it in examples:
        finish(it)


def finish(example):
    """What stands behind the programs of an example: a filter, or the status of the command before."""
    if example.sieve:
        ran = subprocess.run(example.sieve, input=example.text, capture_output=True)
        example.text, example.status = ran.stdout, ran.returncode
    if example.command == STATUS:
        example.text = f"{example.before.status if example.before else 0}\n".encode()


def blocks():
    """The examples of all pages, in order, block by block."""
    found = [block for page in pages() for block in examples_of(page)]
    return found + man_examples_of(MAN_PAGE)
