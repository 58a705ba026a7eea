"""Asks the program the same of many machines, words and windows, and writes what it answers as one table.

The cases are machines by words by forms and windows; each has one row, and the rows stand in the order of the cases.
MACHINE is a file with a table, a folder of them (*.csv), or generate:K, the machine of K increments. docs/use/many.md has
examples, python/README.md the columns.

    python3 -m hithwelor sweep MACHINE.. WORDS [--form ..] [--out TABLE]
    python3 -m hithwelor sweep join TABLE      joins the parts that --part made

A machine's file that is named `join` is written ./join.
"""
from __future__ import annotations

import argparse
import os
import re
import signal
import sys
from typing import Callable, NoReturn, TextIO

from ..answers import Unavailable, places
from ..faults import STOPPED, Fault
from . import cases, record, table
from .progress import progress
from .rows import Tally
from .workers import Cluster, Local, Pool, answers_in_order

DIFFER, TERMINATED = 1, 128 + signal.SIGTERM
# What to do about a refusal, by its first word.
HINTS = {
    "text": "that file isn't a table of quintuples, one `state,read,write,shift,next` a line",
    "machine": "that machine isn't in standard form, and --standard brings most into it",
    "word": "that word has a letter that the machine hasn't; words are written without = before them",
    "size": "that word doesn't fit its window, or the circuit would be too large; docs/use/formats.md has the limits",
}


class Parser(argparse.ArgumentParser):
    """A parser that tells a fault of the words in one line."""

    def error(self, message: str) -> NoReturn:
        raise Fault(f"{message}; --help tells the words")


def number(least: int, most: int = 2**62) -> Callable[[str], int]:
    """A reader of an option's number, for argparse."""

    def read(word: str) -> int:
        if not (word.isascii() and word.isdigit()) or not least <= int(word) <= most:
            raise argparse.ArgumentTypeError(
                f"{word!r} is no number from {least}" + (f" to {most}" if most < 2**62 else " on")
            )
        return int(word)

    return read


def seconds(word: str) -> float:
    if not re.fullmatch(r"\d+(\.\d+)?", word) or float(word) <= 0:
        raise argparse.ArgumentTypeError(f"{word!r} is no number of seconds above 0")
    return float(word)


def part(word: str) -> tuple[int, int]:
    found = re.fullmatch(r"([1-9]\d*)/([1-9]\d*)", word)
    if not found or int(found[1]) > int(found[2]):
        raise argparse.ArgumentTypeError(f"{word!r} is no part K/N with K from 1 to N")
    return int(found[1]), int(found[2])


def parser() -> Parser:
    it = Parser(
        prog="hithwelor sweep",
        description=__doc__,
        formatter_class=argparse.RawDescriptionHelpFormatter,
        allow_abbrev=False,
    )
    it.add_argument("machines", metavar="MACHINE", nargs="+", help="a table's file, a folder of *.csv, or generate:K")
    words = it.add_argument_group("the words").add_mutually_exclusive_group(required=True)
    words.add_argument("--words", metavar="FILE", help="the words of a file, one a line")
    words.add_argument(
        "--up-to", metavar="N", type=number(0), help="all words of up to N letters, the shorter ones first"
    )
    words.add_argument("--length", metavar="N", type=number(0), help="all words of N letters")
    it.add_argument("--letters", metavar="LETTERS", help="the letters of the words; without it, each machine's own")
    it.add_argument("--draw", metavar="K", type=number(1, 10**7), help="K words drawn among them, in place of all")
    it.add_argument("--seed", metavar="S", type=number(0), default=1, help="what they are drawn by (1)")
    it.add_argument(
        "--form",
        nargs="+",
        choices=cases.FORMS,
        metavar="FORM",
        help="what is asked: machine, run, compile, erase (machine; with --check machine and run)",
    )
    it.add_argument(
        "--window",
        nargs="+",
        default=[cases.AUTO],
        metavar="W",
        help="windows of run and compile: auto, or l1,r1,n,r3 (auto)",
    )
    it.add_argument(
        "--steps",
        metavar="N",
        type=number(0, cases.MOST_STEPS),
        default=cases.MOST_STEPS,
        help="the greatest number of steps of machine and erase (1048576)",
    )
    it.add_argument("--standard", action="store_true", help="bring each machine into standard form first")
    it.add_argument("--second", metavar="FILE", help="the machine back, for erase; without it, each machine is its own")
    it.add_argument("--check", action="store_true", help="compare what is proved: machine beside run")
    it.add_argument("--out", metavar="TABLE", help="the table's file; without it, standard output")
    it.add_argument("--resume", action="store_true", help="go on with the table that is there")
    it.add_argument("--seconds", metavar="S", type=seconds, help="how long a case may take")
    it.add_argument("--jobs", metavar="N", type=number(1, 1024), help="so many processes (as many as there are cores)")
    it.add_argument("--scheduler", metavar="ADDRESS", help="in place of them, the workers of this Dask scheduler")
    it.add_argument(
        "--part", metavar="K/N", type=part, help="only the K-th of N parts, into TABLE with .K-of-N before its end"
    )
    return it


class Terminated(KeyboardInterrupt):
    """SIGTERM came: the sweep ends as after Ctrl-C, with no process left behind."""


def terminate(number: int, frame: object) -> NoReturn:
    raise Terminated


def tell(line: object) -> None:
    """One line on standard error."""
    print(f"hithwelor sweep: {line}", file=sys.stderr, flush=True)


def options_of(words: list[str]) -> argparse.Namespace:
    options = parser().parse_intermixed_args(words)
    if options.form is None:
        options.form = ["machine", "run"] if options.check else ["machine"]
    if options.check and not {"machine", "run"} <= set(options.form):
        raise Fault("--check compares machine with run: name both behind --form")
    if (options.resume or options.part) and not options.out:
        raise Fault("--resume and --part want the table's file: name it by --out")
    if options.words and (options.letters is not None or options.draw):
        raise Fault("--letters and --draw go with --up-to or --length, and not with --words")
    if options.letters and len(set(options.letters)) < len(options.letters):
        raise Fault(f"--letters {options.letters}: a letter stands there twice")
    for name in ("form", "window"):
        setattr(options, name, list(dict.fromkeys(getattr(options, name))))
    return options


def words_for(options: argparse.Namespace, letters: str) -> cases.Words:
    """The words for a machine with these letters."""
    letters = letters if options.letters is None else options.letters
    least, most = (0, options.up_to) if options.length is None else (options.length, options.length)
    if options.draw:
        return cases.drawn(letters, least, most, options.draw, options.seed)
    return cases.AllWords(letters, least, most)


def plan_of(options: argparse.Namespace) -> cases.Plan:
    """All cases that are asked for."""
    sources = tuple(cases.tables_of(options.machines, tell))
    back = cases.Table(options.second, cases.read(options.second)) if options.second else None
    tables, second = list(sources), back
    if options.standard:
        tables = [cases.in_standard_form(it) for it in tables]
        second = cases.in_standard_form(second) if second else None
    if "erase" in options.form:
        tables = [cases.with_second(it, second.data if second else None) for it in tables]
    listed = cases.words_of_file(options.words) if options.words else None
    words = [listed or words_for(options, it.letters) for it in sources]
    kinds = cases.kinds_of(options.form, list(dict.fromkeys(map(cases.window_of, options.window))), options.steps)
    return cases.Plan(
        tuple(tables),
        tuple(words),
        kinds,
        "standard " if options.standard else "",
        options.seconds,
        sources,
        back if "erase" in options.form else None,
    )


def place_of(options: argparse.Namespace) -> tuple[str | None, str | None]:
    """The file that is written, and the name that it gets when it is whole."""
    if not options.part:
        return options.out, options.out
    whole = table.part_name(options.out, *options.part)
    if options.resume and os.path.exists(whole):
        return whole, whole
    return whole + table.UNFINISHED, whole


def old_of(
    options: argparse.Namespace, path: str | None, whole: str | None, plan: cases.Plan, bounds: tuple[int, int]
) -> table.Old:
    """What stands in the table already; nothing, where there is none or it has no row."""
    old = table.Old()
    there = next((it for it in (whole, path) if it and os.path.isfile(it)), None)
    if there and whole and not table.has_no_row(there):
        if not options.resume:
            raise Fault(f"{there} is there: --resume goes on with it; or name another table by --out")
        old.read(there, plan, *bounds)
        record.hold(whole, record.files_of(plan, bounds[0], bounds[0] + old.groups))
    return old


def pool_for(options: argparse.Namespace, is_wanted: bool) -> Pool | None:
    """Who answers, where there is anything left to be answered."""
    if not is_wanted:
        return None
    if options.scheduler:
        return Cluster(options.scheduler)
    places()
    return Local(options.jobs or len(os.sched_getaffinity(0)))


def fill(pool: Pool | None, plan: cases.Plan, written: table.Written, done: int, bounds: tuple[int, int]) -> Tally:
    """Has all cases answered that aren't there yet, and writes their rows in order; gives their tally."""
    width, tally = len(plan.kinds), Tally()
    line = progress((bounds[1] - bounds[0]) * width, done * width)
    try:
        for answer in answers_in_order(pool, plan, bounds[0] + done, bounds[1]) if pool else ():
            written.add(answer.text)
            tally.add(answer.tally)
            line.update(answer.groups * width)
    except KeyboardInterrupt as stop:
        for number in (signal.SIGINT, signal.SIGTERM):
            signal.signal(number, signal.SIG_IGN)
        how = f"; the same words with --resume go on with {written.path}" if written.path else ""
        raise Fault(f"stopped{how}", TERMINATED if isinstance(stop, Terminated) else STOPPED) from None
    finally:
        line.close()
    return tally


def close(tally: Tally, is_checked: bool, stream: TextIO) -> int:
    """Tells what differs and what was refused; gives the status."""
    for line in tally.lines[:10]:
        tell(line)
    if tally.refused:
        kind = tally.first_outcome.partition(":")[0]
        tell(
            f"rows that tell a refusal: {tally.refused}, the first {tally.first}: {HINTS.get(kind, 'docs/use/help.md says what is meant')}"
        )
    if tally.late:
        tell(f"rows of cases that took too long: {tally.late}; a greater --seconds gives them more time")
    if is_checked:
        rest = f", {tally.open} not to be compared" if tally.open else ""
        print(f"{tally.agree} agree, {tally.differ} differ{rest}", file=stream, flush=True)
    return DIFFER if is_checked and tally.differ else 0


def sweep(words: list[str]) -> int:
    """The command `sweep`: gives its status."""
    options = options_of(words)
    plan = plan_of(options)
    bounds = plan.part(*(options.part or (1, 1)))
    path, whole = place_of(options)
    old = old_of(options, path, whole, plan, bounds)
    pool = pool_for(options, bounds[0] + old.groups < bounds[1])
    try:
        written = table.Written(path)
        written.open(old.length)
        if written.is_kept and whole:
            record.write(whole, record.files_of(plan, *bounds))
        old.tally.add(fill(pool, plan, written, old.groups, bounds))
    finally:
        if pool:
            pool.end()
    written.close()
    if path and whole and path != whole:
        os.replace(path, whole)
    return close(old.tally, options.check, sys.stdout if path else sys.stderr)


def join(words: list[str]) -> int:
    """The command `sweep join`: gives its status."""
    it = Parser(prog="hithwelor sweep join", description="Joins the parts of a table that `sweep --part` made.")
    it.add_argument("table", metavar="TABLE", help="the table's name, as --out had it")
    options = it.parse_args(words)
    count, tally = table.join(options.table, tell)
    tell(f"{options.table} joined of {count} parts")
    return close(tally, tally.agree + tally.differ > 0, sys.stdout)


def main(words: list[str]) -> int:
    """The command of the package: gives its status, and tells a fault in one line."""
    signal.signal(signal.SIGTERM, terminate)
    try:
        return join(words[1:]) if words[:1] == ["join"] else sweep(words)
    except Unavailable as fault:
        tell(fault)
        return 1
    except Fault as fault:
        tell(fault)
        return fault.status
    except KeyboardInterrupt as stop:
        return TERMINATED if isinstance(stop, Terminated) else STOPPED
