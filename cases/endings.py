"""How a run ends: its status, and the line that it leaves on the report."""

DONE, FAULT, WORDS, FILE, OUTSIDE, REFUSED, UNDONE = 0, 1, 2, 3, 4, 6, 7


class Ended(Exception):
    """A run, or a job of a batch, ends with this status and this line."""

    def __init__(self, status, line):
        super().__init__(line)
        self.status = status
        self.line = line
