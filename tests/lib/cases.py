"""Cases: each that fails is printed, and how many there were comes last. tests/check.py reads that line."""

import sys


class Cases:
    def __init__(self):
        self.count, self.failed = 0, 0

    def holds(self, what, found, wanted):
        self.tells(what, [] if found == wanted else [f"found {found!r}, wanted {wanted!r}"])

    def tells(self, what, faults):
        """A case that holds where there are no faults."""
        self.count += 1
        if faults:
            self.failed += 1
            print(f"{what}: " + "\n    ".join(str(it) for it in faults), flush=True)

    def lacks(self, what, tool):
        """A case that can't be tried here. It counts as one that failed."""
        self.tells(what, [f"not tried, {tool} is missing"])

    def end(self, *figures):
        """Says how many cases there were, and ends the script: with 1 where one failed, or where there was none."""
        print(", ".join([f"{self.count} cases, {self.failed} failed", *figures]), flush=True)
        sys.exit(1 if self.failed or not self.count else 0)
