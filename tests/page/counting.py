"""What is held of the page: how many things did hold, and what is said of those that didn't."""
from repository import TOP, text_of

__all__ = ["TOP", "Count", "text_of"]


class Count:
    """How many things held, the words on those that didn't, and what couldn't be tried."""

    def __init__(self):
        self.passed, self.said, self.lacking = 0, [], []

    def hold(self, holds, *lines):
        """Counts one thing; where it doesn't hold, these lines are kept."""
        if holds:
            self.passed += 1
        else:
            self.said.append("\n".join(lines))

    def skip(self, what, why):
        """Keeps the words on a part that isn't tried, since something isn't here."""
        self.lacking.append(f"{what}: {why}")

    def close(self):
        """The number of things that held, where all did; else an AssertionError with what was said."""
        assert not self.said, "\n".join([f"{len(self.said)} of {self.passed + len(self.said)} don't hold:", *self.said])
        assert self.passed, "nothing was looked at"
        return self.passed
