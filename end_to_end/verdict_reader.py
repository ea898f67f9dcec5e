"""A reader of verdicts by the grammar of docs/FORMATS.md, from that page alone."""

import re
from typing import NamedTuple

from file_readers import MOST_WORD

MOST_NUMBER = 2 ** 32 - 1
NUMBER = re.compile(rb"0|[1-9][0-9]{0,19}")
TOKEN = re.compile(rb"[0-9]+|.", re.DOTALL)
CLOSING = {b"(": b")", b"[": b"]"}
LEAST_CHILDREN = {b"(": 2, b"[": 3}
KINDS = {b"matrix", b"rows", b"table", b"clones", b"circular", b"convex", b"doubly", b"proper", b"robinson"}
FLIP = "flip"


class NoVerdict(Exception):
    """The bytes are no verdict."""


class Node(NamedTuple):
    """A node of a tree: its bracket, and the first and the last position of each child in the tree read from left to right."""

    bracket: bytes
    children: list


class Tree(NamedTuple):
    """The columns of a tree from left to right, and its nodes."""

    leaves: list
    nodes: list


class Line(NamedTuple):
    """A line of a cycle: a pair of columns, and `flip` or the number of a row."""

    pair: tuple
    reason: object


class Verdict(NamedTuple):
    """What a verdict says. What its answer or its kind lacks is empty."""

    version: int
    kind: str
    columns: list
    answer: bool
    trees: list = []
    orders: list = []
    intervals: list = []
    places: list = []
    contigs: list = []
    side: int = 0
    cycle: list = []


def number_in(word, most=MOST_NUMBER):
    """The number that a word is, which is at most so great."""
    if not NUMBER.fullmatch(word) or int(word) > most:
        raise NoVerdict
    return int(word)


class Lines:
    """The lines of a verdict, and how many are read."""

    def __init__(self, content):
        *self.lines, rest = content.split(b"\n")
        self.place = 0
        if rest:
            raise NoVerdict

    def words(self, name=None):
        """The words of the next line, which begins with this one."""
        if self.place == len(self.lines):
            raise NoVerdict
        first, *words = self.lines[self.place].split(b" ")
        self.place += 1
        if name is None:
            return [first, *words]
        if first != name:
            raise NoVerdict
        return words

    def numbers(self, name, count, most=MOST_NUMBER):
        """The numbers of the next line, so many after this word."""
        words = self.words(name)
        if len(words) != count:
            raise NoVerdict
        return [number_in(word, most) for word in words]

    def exactly(self, line):
        """Goes past a line with exactly these bytes."""
        if self.words() != line.split(b" "):
            raise NoVerdict

    def choice(self, name, options):
        """The one word after this one, which is among these."""
        words = self.words(name)
        if len(words) != 1 or words[0] not in options:
            raise NoVerdict
        return words[0]


def tree_of(text, columns):
    """The tree over these columns that a text is."""
    leaves, nodes, top, opened, begins = [], [], [], [], True
    for token in TOKEN.findall(text):
        children = opened[-1].children if opened else top
        if begins and token in CLOSING:
            opened.append(Node(token, []))
        elif begins:
            leaves.append(number_in(token))
            children.append((len(leaves), len(leaves)))
            begins = False
        elif token == b" " and opened:
            begins = True
        elif opened and token == CLOSING[opened[-1].bracket] and len(children) >= LEAST_CHILDREN[opened[-1].bracket]:
            nodes.append(opened.pop())
            above = opened[-1].children if opened else top
            above.append((children[0][0], children[-1][1]))
        else:
            raise NoVerdict
    if begins or opened or sorted(leaves) != list(range(1, columns + 1)):
        raise NoVerdict
    return Tree(leaves, nodes)


def columns_of(lines, kind, limits):
    """The numbers of columns of each side."""
    columns = lines.numbers(b"columns", 2 if kind == "doubly" else 1)
    if not all(1 <= column <= limits.columns for column in columns):
        raise NoVerdict
    return columns


def sides_of(lines, columns):
    """A tree and an order for each side."""
    trees, orders = [], []
    for column_count in columns:
        trees.append(tree_of(b" ".join(lines.words(b"tree")), column_count))
        orders.append([number_in(word) for word in lines.words(b"order")])
        if not orders[-1]:
            raise NoVerdict
    return trees, orders


def intervals_of(lines, count):
    """The interval of each vertex in turn."""
    intervals = []
    for vertex in range(1, count + 1):
        words = lines.words(b"interval")
        if len(words) != 3 or number_in(words[0]) != vertex:
            raise NoVerdict
        intervals.append(tuple(number_in(word, MOST_WORD) for word in words[1:]))
    return intervals


def places_of(lines):
    """The place of each clone in turn: a first and a last position, or None."""
    places = []
    (count,) = lines.numbers(b"places", 1)
    for clone in range(1, count + 1):
        words = lines.words(b"place")
        if len(words) not in (2, 3) or number_in(words[0]) != clone:
            raise NoVerdict
        if len(words) == 2 and words[1] != b"none":
            raise NoVerdict
        places.append(None if len(words) == 2 else (number_in(words[1]), number_in(words[2])))
    return places


def contigs_of(lines):
    """The contigs: a first and a last position each."""
    (count,) = lines.numbers(b"contigs", 1)
    return [tuple(lines.numbers(b"contig", 2)) for _ in range(count)]


def cycle_of(lines):
    """The lines of a cycle."""
    cycle = []
    (count,) = lines.numbers(b"cycle", 1)
    for _ in range(count):
        words = lines.words()
        pair = tuple(number_in(word) for word in words[:2])
        if len(pair) != 2:
            raise NoVerdict
        cycle.append(Line(pair, reason_of(words[2:])))
    return cycle


def reason_of(words):
    """The reason that ends a line of a cycle."""
    if words == [b"flip"]:
        return FLIP
    if len(words) != 2 or words[0] != b"row":
        raise NoVerdict
    return number_in(words[1])


def read_verdict(content, limits):
    """The verdict that the bytes are."""
    lines = Lines(content)
    version = int(lines.choice(b"pq-verdict", {b"1", b"2"}))
    kind = lines.choice(b"kind", KINDS).decode()
    columns = columns_of(lines, kind, limits)
    if lines.choice(b"answer", {b"yes", b"no"}) == b"yes":
        trees, orders = sides_of(lines, columns)
        intervals = intervals_of(lines, columns[0]) if kind == "proper" else []
        places, contigs = (places_of(lines), contigs_of(lines)) if kind == "clones" else ([], [])
        verdict = Verdict(version, kind, columns, True, trees, orders, intervals, places, contigs)
    else:
        side = int(lines.choice(b"side", {b"1", b"2"} if kind == "doubly" else {b"1"}))
        verdict = Verdict(version, kind, columns, False, side=side, cycle=cycle_of(lines))
    lines.exactly(b"end")
    if lines.place != len(lines.lines):
        raise NoVerdict
    return verdict
