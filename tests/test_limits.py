"""Every command at its limits, and one step beyond them, as limits.py has it, by the proved program: a case a subject."""
import limits
import pytest

pytestmark = [pytest.mark.slow, pytest.mark.engine]


@pytest.mark.parametrize("case", limits.CASES, ids=lambda it: it.__name__)
def test_a_command_at_its_limits(case, proved_program, comparisons):
    by = limits.Limits(proved_program)
    case(by)
    comparisons(by.held)


def test_another_answer_is_seen(tmp_path):
    """A program that answers nothing fails in each case."""
    silent = tmp_path / "silent"
    silent.write_text("#!/bin/sh\ncat >/dev/null\n")
    silent.chmod(0o755)
    with pytest.raises(AssertionError, match="an input of 256 MiB: `check` gives status 0, b''"):
        limits.an_input_of_the_most_bytes(limits.Limits(str(silent)))
