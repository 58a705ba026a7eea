#!/usr/bin/env python3
"""Tells how `step 0` divides into reading, packing and writing a text. It proves nothing and is no part of rt ci.

    bench/profile.py                                  by the proved program, crates/bn_main/out/bn_main
    bench/profile.py --by callgrind                   by instructions, where perf can't take samples

Reading is from the first byte to the list of wires with its faults tested, packing makes the circuit of that list, and
writing is from there to the last byte; no step is run. The parts come one after another. So where perf takes
samples of the processor's clock, one in a function that serves more than one part, or in the kernel, counts for the
part that was under way; what comes before the first part and behind the last one is the rest. Without perf, callgrind
counts instructions, and a function's are divided as those of its callers are; that is slow, so its texts are smaller.
Behind the parts stand the functions in which most of the time was spent themselves, each with its share of all and the
part for which it worked most. The texts are those of compare.py.
"""
import argparse
import os
import re
import shlex
import shutil
import subprocess
import sys
import tempfile
from collections import Counter, defaultdict

sys.dont_write_bytecode = True
from bench import RING
import measuring

# With what the names begin of the functions that serve one part alone.
PARTS = {
    "reading": (
        "bn_netlist::read",
        "bn_netlist::front",
        "bn_netlist::pieces",
        "bn_netlist::bytes",
        "bn_netlist::draft",
        "bn_netlist::entries",
        "bn_netlist::finish",
        "bn_netlist::forms",
        "bn_netlist::stage",
        "bn_netlist::take_line",
    ),
    "packing": (
        "bn_packed::bars::Bars::of",
        "bn_packed::ends",
        "bn_packed::packed::Packed::from_wires",
        "bn_packed::wires::Wires::from_wires",
        "bn_packed::wiring",
    ),
    "writing": ("bn_netlist::write", "bn_reply_circuits::stream::give_config"),
}
REST = "rest"
COUNTED_ELEMENTS = 100_000
# No chain of calls that matters is longer.
DEPTH = 50
PERF = ["perf", "record", "-q", "-F", "1999", "-e", "cpu-clock"]
CALLGRIND = ["valgrind", "-q", "--tool=callgrind", "--compress-strings=no", "--compress-pos=no"]


def options_of():
    parser = argparse.ArgumentParser(description=__doc__, formatter_class=argparse.RawDescriptionHelpFormatter)
    measuring.add_program(parser)
    parser.add_argument("--by", choices=("perf", "callgrind"), help="perf where it takes samples, else callgrind")
    parser.add_argument(
        "--elements",
        type=int,
        metavar="N",
        help="of version 1; of version 2 four times as many (1,048,576, by callgrind 100,000)",
    )
    measuring.add_texts(parser)
    parser.add_argument("--runs", type=int, default=3, metavar="N", help="by perf, how often each is run (3)")
    parser.add_argument("--functions", type=int, default=12, metavar="N", help="how many functions are told (12)")
    return parser.parse_args()


def part_of(name):
    """The part that a function's name tells, or None."""
    return next((part for part, begins in PARTS.items() if name.startswith(begins)), None)


def short(name):
    """A function's name without digests."""
    return re.sub(r"::<#[0-9a-f]+>|::h[0-9a-f]{16}$", "", name)


def can_sample(folder):
    """Whether perf takes samples on this machine."""
    if not shutil.which("perf"):
        return False
    ran = subprocess.run([*PERF, "-o", os.path.join(folder, "samples"), "true"], capture_output=True)
    return ran.returncode == 0


def sampled(command, source, folder):
    """The functions of one run's samples, in the order of time."""
    data = os.path.join(folder, "samples")
    with open(source, "rb") as given:
        subprocess.run(
            [*PERF, "-o", data, *command], stdin=given, stdout=subprocess.DEVNULL, check=True, stderr=subprocess.DEVNULL
        )
    said = subprocess.run(
        ["perf", "script", "-i", data, "-F", "ip,sym"],
        check=True,
        text=True,
        stdout=subprocess.PIPE,
        stderr=subprocess.DEVNULL,
    ).stdout
    return [short(line.split(None, 1)[1]) for line in said.splitlines() if line.strip()]


def parts_under_way(names):
    """The part under way at each sample: its function's own, else that of the sample before."""
    own = [part_of(name) for name in names]
    last = max((place for place, part in enumerate(own) if part), default=-1)
    found = []
    for part in own[: last + 1]:
        found.append(part or (found[-1] if found else REST))
    return found + [REST] * (len(names) - len(found))


def by_samples(command, source, folder, runs):
    """Samples by part, and by function and part."""
    parts, functions = Counter(), defaultdict(Counter)
    for _ in range(runs):
        names = sampled(command, source, folder)
        for name, part in zip(names, parts_under_way(names)):
            parts[part] += 1
            functions[name][part] += 1
    return parts, functions


def costs(path):
    """What callgrind wrote: the instructions of each function itself, and of each call with all in it."""
    own, calls, function, called = Counter(), defaultdict(Counter), None, None
    with open(path, encoding="utf-8") as lines:
        for line in lines:
            name = re.fullmatch(r"(c?)fn=(.*?)('\d+)?\n", line)
            cost = re.fullmatch(r"\d+ (\d+)\n", line)
            if name and name[1]:
                called = short(name[2])
            elif name:
                function = short(name[2])
            elif cost and called:
                calls[called][function] += int(cost[1])
                called = None
            elif cost:
                own[function] += int(cost[1])
    return own, calls


def shared(own, calls):
    """How each function's instructions divide into parts: as those of its callers do, and what comes from callers of
    no part goes to the part that its name tells."""
    shares = {name: {REST: 1.0} for name in own.keys() | calls.keys()}
    for _ in range(DEPTH):
        for name, share in shares.items():
            whole, found = sum(calls[name].values()), Counter()
            for caller, count in calls[name].items():
                for part, size in shares[caller].items():
                    found[part] += size * count / whole
            left = found.pop(REST, 0) if whole else 1
            found[part_of(name) or REST] += left
            share.clear()
            share.update(found)
    return shares


def by_instructions(command, source, folder):
    """Instructions by part, and by function and part."""
    said = os.path.join(folder, "calls")
    with open(source, "rb") as given:
        subprocess.run(
            [*CALLGRIND, f"--callgrind-out-file={said}", *command],
            stdin=given,
            check=True,
            stdout=subprocess.DEVNULL,
            stderr=subprocess.DEVNULL,
        )
    own, calls = costs(said)
    parts, functions = Counter(), defaultdict(Counter)
    for name, share in shared(own, calls).items():
        for part, size in share.items():
            parts[part] += round(size * own[name])
            functions[name][part] += round(size * own[name])
    return parts, functions


def tell(name, elements, parts, functions, most, unit):
    """Prints the parts of one text, and its greatest functions."""
    whole = sum(parts.values())
    shares = ", ".join(f"{part} {parts[part] / whole:.0%}" for part in (*PARTS, REST))
    print(f"step 0, {name}, {elements:,} elements: {shares} of {whole:,} {unit}")
    for function, by_part in sorted(functions.items(), key=lambda pair: -pair[1].total())[:most]:
        print(f"  {by_part.total() / whole:6.1%}  {function} ({by_part.most_common(1)[0][0]})")
    sys.stdout.flush()


def main():
    options = options_of()
    program, load = measuring.program_of(options), os.getloadavg()[0]
    command = [*program, "step", "0"]
    with tempfile.TemporaryDirectory() as folder:
        by_perf = options.by == "perf" or not options.by and can_sample(folder)
        elements = options.elements or (RING if by_perf else COUNTED_ELEMENTS)
        for name, source in measuring.texts(program, elements, folder, options.texts):
            if by_perf:
                found = by_samples(command, source, folder, options.runs)
            else:
                found = by_instructions(command, source, folder)
            unit = "samples" if by_perf else "instructions"
            tell(name, measuring.elements_of(source), *found, options.functions, unit)
    way = f"{shlex.join(PERF)}, {options.runs} runs each" if by_perf else shlex.join(CALLGRIND)
    print(f"\n{measuring.circumstances(load)}, by {way}.")


if __name__ == "__main__":
    main()
