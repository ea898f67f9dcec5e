"""pq for Python: questions to the proved solver, and its answers with types.

    import pq
    found = pq.solve("rows", b"4\n1 2\n2 3\n")
    found.is_yes, found.orders          # True, [[4, 1, 2, 3]] for instance: columns are numbers from 1
    pq.core("rows", b"3\n1 2\n2 3\n1 3\n").rows      # [1, 2, 3]

A file is handed over as bytes, in the formats of docs/FORMATS.md. A call that gives no answer raises `pq.Stop`, with the program's status
as `status`, pq's line as its text, and, where a file is refused, its number, code and line as `refusal`.

The library is used where scripts/library.py has built it, or $PQ_LIBRARY names it, and the program `pq` else, which may be named by $PQ. A
library of another version is not used.
What the solver answers is proved; this module, which reads its texts, is not.
"""

import os
import sys
from dataclasses import dataclass

sys.path.insert(0, os.path.dirname(os.path.abspath(__file__)))

from pqparts.library import Library, calls  # noqa: E402
from pqparts.program import Core, Cycle, Program, Session, Verdict, core_of, cycle_in, numbers, session_of, verdict_of  # noqa: E402
from pqparts.stops import Refusal, Stop  # noqa: E402

__all__ = ["Check", "Core", "Cycle", "Library", "Listing", "Meeting", "Program", "Refusal", "Session", "Stop", "UnitModel", "Verdict", "check",
           "check_core", "check_unit", "core", "extend", "list_orders", "meet", "solve", "unit"]


@dataclass
class Check:
    """What a judge says: whether the text is valid, and else the test that fails, in pq's words."""

    is_valid: bool
    line: str


@dataclass
class Listing:
    """The first orders of a matrix, and whether there are others."""

    orders: list
    has_more: bool


@dataclass
class Meeting:
    """The orders that two trees share: their tree and one of them; or, where they share none, the cycle that shows it."""

    is_yes: bool
    tree: str = None
    order: list = None
    cycle: Cycle = None


@dataclass
class UnitModel:
    """Intervals of one length for a graph: the left end of each vertex, the length, and the text, which `check_unit` judges."""

    lefts: list
    length: int
    text: bytes


def solve(kind, content, by=None):
    """The verdict on a file of this kind."""
    return verdict_of((by or calls()).call(["solve", kind], content)[1])


def check(kind, content, verdict, by=None):
    """Whether a verdict on a file is valid; `verdict` is its text."""
    return judged((by or calls()).call(["check", kind], content, verdict))


def extend(kind, content, rows, by=None):
    """What becomes of further rows, taken in turn after those of a file: a session; or a verdict where the file itself has no order."""
    status, text = (by or calls()).call(["extend", kind], content, rows)
    return session_of(text) if status == 0 else verdict_of(text)


def core(kind, content, by=None):
    """Rows that have no order together, of which none can be left out; None where the file has an order."""
    status, text = (by or calls()).call(["core", kind], content)
    return core_of(text) if status == 0 else None


def check_core(kind, content, text, by=None):
    """Whether the text of a core is valid."""
    return judged((by or calls()).call(["check-core", kind], content, text))


def list_orders(kind, content, count, by=None):
    """The first orders of a file, compared as lists of numbers; or a verdict where it has none."""
    status, text = (by or calls()).call(["list", kind], content, after=[str(count)])
    if status == 1:
        return verdict_of(text)
    lines = [line.split(" ") for line in text.decode("ascii").splitlines()]
    return Listing([numbers(rest) for word, *rest in lines if word == "order"], ["more", "yes"] in lines)


def unit(content, by=None):
    """Intervals of one length for a graph; or a verdict where it has none."""
    status, text = (by or calls()).call(["unit"], content)
    if status == 1:
        return verdict_of(text)
    lines = [line.split(" ") for line in text.decode("ascii").splitlines()]
    return UnitModel([int(words[2]) for words in lines if words[0] == "unit"], next(int(words[1]) for words in lines if words[0] == "length"), text)


def check_unit(content, text, by=None):
    """Whether the text of a unit model is valid."""
    return judged((by or calls()).call(["check-unit"], content, text))


def meet(columns, first, second, by=None):
    """The orders that two trees over so many columns share; each tree is the bytes of its file."""
    status, text = (by or calls()).call(["meet", str(columns)], first, second)
    lines = [line.split(" ") for line in text.decode("ascii").splitlines()]
    if status == 1:
        return Meeting(False, cycle=cycle_in(text))
    tree = next(" ".join(rest) for word, *rest in lines if word == "tree")
    return Meeting(True, tree, next(numbers(rest) for word, *rest in lines if word == "order"))


def judged(answer):
    """What a judge says, from its status and line."""
    status, text = answer
    return Check(status == 0, text.decode("ascii").strip())
