"""What ends a call without an answer, with its status."""

from dataclasses import dataclass

WORDS, NOT_READABLE, READ_FAULT, WRITE_FAULT, NO_MEMORY, NOT_PROVED = 2, 3, 4, 5, 6, 7


@dataclass
class Refusal:
    """What pq says of a file that it refuses: which of its files, counted from 1, the code, and the line, or 0."""

    which: int
    code: int
    line: int


class Stop(Exception):
    """A call that ends without an answer: the status, the line that says why and what to do, and pq's refusal of a file, if it is one."""

    def __init__(self, status, line, refusal=None):
        super().__init__(line)
        self.status, self.refusal = status, refusal


def unreadable(where, line):
    """The stop of an input that can't be read as it is."""
    return Stop(NOT_READABLE, f"{where}: {line}")
