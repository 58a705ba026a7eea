"""How a run of the tests ends: how much was compared in tests that hold many things, and with `--closing-line`, which the gate
gives, what was skipped and one last line. A plugin of pytest."""
from collections import Counter

import pytest


def pytest_addoption(parser):
    parser.addoption("--closing-line", action="store_true", help="end as the gate ends: what was skipped, and one line")


@pytest.fixture
def comparisons(record_property):
    """`comparisons(N)` tells how many things a test compared that holds many; the last lines have their sum. Behind the number
    stands what of the test wasn't tried, since something isn't here; the last lines name it."""

    def tell(number, lacking=()):
        record_property("comparisons", number)
        for it in lacking:
            record_property("lacking", it)

    return tell


def told(reporter, name):
    """What passed tests told under a name."""
    passed = [it for it in reporter.stats.get("passed", []) if it.when == "call"]
    return [value for report in passed for key, value in report.user_properties if key == name]


def pytest_terminal_summary(terminalreporter):
    """How much was compared in tests that hold many things, and what of them wasn't tried."""
    numbers = told(terminalreporter, "comparisons")
    if numbers:
        terminalreporter.write_line(f"{sum(numbers):,} comparisons in {len(numbers)} tests that hold many")
    for line in sorted(set(told(terminalreporter, "lacking"))):
        terminalreporter.write_line(f"not tried: {line}")


def pytest_unconfigure(config):
    """With --closing-line: what was skipped, a line a reason, and behind everything 'N passed, M failed, K skipped'."""
    reporter = config.pluginmanager.get_plugin("terminalreporter")
    if config.getoption("--closing-line") and reporter and not hasattr(config, "workerinput"):
        number_of = {kind: len(reporter.stats.get(kind, [])) for kind in ("passed", "failed", "error", "skipped")}
        reasons = Counter(str(it.longrepr[2]).removeprefix("Skipped: ") for it in reporter.stats.get("skipped", []))
        for reason, number in sorted(reasons.items()):
            reporter.write_line(f"skipped {number}: {reason}")
        failed, skipped = number_of["failed"] + number_of["error"], number_of["skipped"]
        reporter.write_line(f"{number_of['passed']} passed, {failed} failed, {skipped} skipped")
