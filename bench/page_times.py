#!/usr/bin/env python3
"""Measures how long the page takes in a headless Chromium, by the clock. It proves nothing and is no part of the gate.

    bench/page_times.py [FACTOR]           a figure of more than FACTOR times what is aimed at is a failure; without one, twice
    bench/page_times.py [FACTOR] --long    runs of 4,046 and of 20,014 moments too, some minutes
    bench/page_times.py --program PATH     by another program than the proved one, as bin/hithwelor

The last line is the number of figures that hold, or what doesn't, with status 1.
"""
import argparse
import os
import sys

sys.dont_write_bytecode = True
TOP = os.path.dirname(os.path.dirname(os.path.abspath(__file__)))
sys.path[:0] = [os.path.join(TOP, part) for part in ("tests", "tests/page", "tools/lib", "embed", "python")]
import bundle
from browser import browser_at_hand
from counting import Count
from places import told_program
from shown import PAGE, Program, Shown
from shown_times import check_times


def main():
    parser = argparse.ArgumentParser(description=__doc__, formatter_class=argparse.RawDescriptionHelpFormatter)
    parser.add_argument(
        "factor", metavar="FACTOR", type=float, nargs="?", default=2, help="how many times what is aimed at"
    )
    parser.add_argument("--long", action="store_true", help="long runs too")
    parser.add_argument("--program", metavar="PATH", type=os.path.abspath, help="the program to compare with")
    asked, count, browser = parser.parse_args(), Count(), browser_at_hand()
    program = asked.program or told_program() or told_program("--module")
    if not program or not browser:
        sys.exit(
            f"bench/page_times.py: {'no Chromium is installed' if program else 'nothing is here that answers'}: tools/setup"
        )
    with open(PAGE, "w", encoding="utf-8", newline="\n") as file:
        file.write(bundle.checked_text())
    with Shown(browser) as page:
        page.call("Emulation.setDeviceMetricsOverride", width=1280, height=800, deviceScaleFactor=1, mobile=False)
        check_times(page, Program(program), asked.factor, asked.long, count)
        count.hold(not page.faults(), f"{page.faults()}")
    try:
        print(f"{count.close()} figures hold")
    except AssertionError as fault:
        sys.exit(str(fault))


if __name__ == "__main__":
    main()
