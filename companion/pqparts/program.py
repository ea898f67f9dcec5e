"""The program `pq`: where it is, calls of it, and the texts that it writes."""

import os
import re
import shutil
import subprocess
import sys
import tempfile
from dataclasses import dataclass, field

from .stops import NO_MEMORY, NOT_PROVED, NOT_READABLE, READ_FAULT, WORDS, WRITE_FAULT, Refusal, Stop

CHECKOUT = os.path.dirname(os.path.dirname(os.path.dirname(os.path.abspath(__file__))))
MINUTES = "11 to 25 minutes"
# What pq's codes of refusals mean; the page docs/FORMATS.md says it at length.
CODES = {1: "nothing to read, or no column", 2: "a byte, a word or a cell outside the format", 3: "a wrong number of entries or lines",
         4: "a number or a name outside its range",
         5: "a name that occurs twice", 6: "a loop, a diagonal that is not zero, or distances that differ both ways", 7: "past a limit",
         8: "a record of another length than the header",
         9: "no JSON", 10: "JSON of another shape", 12: "no tree over the columns"}


def version():
    """The version of Sulgyabet that lies here."""
    path = os.path.join(CHECKOUT, "VERSION")
    try:
        with open(path, encoding="utf-8") as stream:
            return stream.read().strip()
    except OSError as error:
        raise Stop(READ_FAULT, f"{path}: {error.strerror}") from error


def found_program(given=None):
    """The path of `pq`: the one given, else $PQ, else that of this checkout, else the one on the PATH. Says how long a first build takes."""
    asked = given or os.environ.get("PQ")
    if asked:
        path = shutil.which(asked)
        if path is None:
            raise Stop(READ_FAULT, f"{asked}: this is no program to run")
        return os.path.abspath(path)
    own = os.path.join(CHECKOUT, "pq")
    if os.access(own, os.X_OK):
        is_script = os.path.exists(os.path.join(CHECKOUT, "scripts", "build.py"))
        if is_script and not os.path.exists(os.path.join(CHECKOUT, "crates", "pq", "out", "pq")):
            print(f"pqpage: pq isn't built yet: its first call proves and builds it, {MINUTES} on four processors", file=sys.stderr, flush=True)
        return own
    path = shutil.which("pq")
    if path is None:
        raise Stop(READ_FAULT, "there is no pq: say --pq PATH, or set PQ")
    return path


@dataclass
class Cycle:
    """An odd cycle: for each line its two columns, and the row of its reason, or None for `flip`."""

    lines: list

    def rows(self):
        """The rows that it names, each once, ascending."""
        return sorted({row for _, _, row in self.lines if row is not None})

    def text(self):
        """Its lines as `pq` writes them."""
        return "".join(f"{one} {other} {'flip' if row is None else f'row {row}'}\n" for one, other, row in self.lines)


@dataclass
class Verdict:
    """A verdict: of a yes the trees and orders side by side, and what some kinds have besides; of a no the side and the cycle."""

    is_yes: bool
    trees: list = field(default_factory=list)
    orders: list = field(default_factory=list)
    intervals: list = field(default_factory=list)
    places: list = field(default_factory=list)
    contigs: list = field(default_factory=list)
    side: int = None
    cycle: Cycle = None


@dataclass
class Core:
    """Rows that contradict one another, of which none can be left out: each with an order of the others."""

    rows: list
    orders: list
    cycle: Cycle


@dataclass
class Session:
    """What became of further rows: for each whether it was taken, and the cycles of the first that were not; the tree and the order at the end."""

    taken: list
    cycles: dict
    tree: str
    order: list


class Lines:
    """The lines of a text, taken one by one."""

    def __init__(self, text):
        self.left = text.decode("ascii").split("\n")[::-1]

    def next(self):
        """The words of the next line."""
        return self.left.pop().split(" ")

    def peek(self):
        """The first word of the next line."""
        return self.left[-1].split(" ")[0] if self.left else ""

    def read_cycle(self):
        """The line `cycle` with its length, and the lines of the cycle."""
        found = []
        for _ in range(int(self.next()[1])):
            one, other, what, *row = self.next()
            found.append((int(one), int(other), int(row[0]) if what == "row" else None))
        return Cycle(found)


def numbers(words):
    """Words as numbers."""
    return [int(word) for word in words]


def verdict_of(text):
    """The verdict that a text tells."""
    lines = Lines(text)
    found = None
    while lines.left:
        word, *rest = lines.next()
        if word == "answer":
            found = Verdict(rest[0] == "yes")
        elif word == "tree":
            found.trees.append(" ".join(rest))
        elif word == "order":
            found.orders.append(numbers(rest))
        elif word == "interval":
            found.intervals.append((int(rest[1]), int(rest[2])))
        elif word == "place":
            found.places.append(None if rest[1] == "none" else (int(rest[1]), int(rest[2])))
        elif word == "contig":
            found.contigs.append((int(rest[0]), int(rest[1])))
        elif word == "side":
            found.side, found.cycle = int(rest[0]), lines.read_cycle()
    return found


def core_of(text):
    """The core that a text tells."""
    lines = Lines(text)
    rows, orders = [], []
    while lines.peek() != "cycle":
        word, *rest = lines.next()
        if word == "row":
            rows.append(int(rest[0]))
        elif word == "without":
            orders.append(numbers(rest))
    return Core(rows, orders, lines.read_cycle())


def session_of(text):
    """The session that a text tells."""
    lines = Lines(text)
    taken, cycles, tree, order = [], {}, None, None
    while lines.left:
        word, *rest = lines.next()
        if rest in (["ok"], ["no"]):
            taken.append(rest == ["ok"])
            if not taken[-1] and lines.peek() == "cycle":
                cycles[len(taken)] = lines.read_cycle()
        elif word == "tree":
            tree = " ".join(rest)
        elif word == "order":
            order = numbers(rest)
    return Session(taken, cycles, tree, order)


def cycle_in(text):
    """The cycle that a text tells, of whatever form it is."""
    lines = Lines(text)
    while lines.peek() != "cycle":
        lines.next()
    return lines.read_cycle()


class Calls:
    """Calls of `pq`. A class of calls says how one is made: `run`, and `path`, the file of what is run."""

    def run(self, words, contents, after):
        """The status, the reply and the line of a call of these words, files with these bytes, and further words."""
        raise NotImplementedError

    def call(self, words, *contents, after=()):
        """The status and the reply of a call of these words, files with these bytes, and further words. A fault of `pq` stops the call."""
        status, text, line = self.run(words, contents, after)
        if status not in (0, 1):
            raise fault(status, line)
        return status, text

    def solve(self, kind, content):
        """The text of a verdict that was judged to be valid."""
        _, text = self.call(["solve", kind], content)
        self.judge(["check", kind], content, text)
        return text

    def judge(self, words, content, text):
        """Stops where `pq` judges a text not to be valid."""
        status, said = self.call(words, content, text)
        if status != 0 or said != b"valid\n":
            raise Stop(NOT_PROVED, f"the proof did not check: {' '.join(words)} says {said.decode(errors='replace').strip()}")


class Program(Calls):
    """Calls of the program."""

    def __init__(self, path):
        self.path = path

    def run(self, words, contents, after):
        with tempfile.TemporaryDirectory() as folder:
            names = [os.path.join(folder, str(at)) for at in range(len(contents))]
            for name, content in zip(names, contents):
                with open(name, "wb") as stream:
                    stream.write(content)
            try:
                done = subprocess.run([self.path, *words, *names, *after], stdin=subprocess.DEVNULL, capture_output=True, check=False)
            except OSError as error:
                raise Stop(READ_FAULT, f"{self.path}: {error.strerror}") from error
        return done.returncode, done.stdout, done.stderr.decode(errors="replace").strip().split("\n")[-1]


def fault(status, line):
    """The stop for a call of `pq` that gave no answer."""
    refused = re.fullmatch(r"pq: refused (\d) code (\d+) line (\d+)", line)
    if refused:
        which, code, at = map(int, refused.groups())
        said = f"{line}: {CODES.get(code, 'refused')}" + (f", line {at}" if at else "")
        return Stop(NOT_READABLE, said, Refusal(which, code, at))
    known = {2: WORDS, 4: READ_FAULT, 5: WRITE_FAULT, 6: NO_MEMORY}
    return Stop(known.get(status, READ_FAULT), line or f"pq ended with status {status}")
