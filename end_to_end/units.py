"""Unit models: what `unit` prints and what `check-unit` says of it, against plain programs of their rules (docs/FORMATS.md).

The wanted texts of the cases were written by hand.
"""

import functools
import itertools
import re

from cases import VERDICT_LIMIT, case
from definitions import orders
from program import run, run_over
from streams import difference

MOST_VERTICES = 2048
MOST_END = 2**64 - 1
# All graphs of at most so many vertices are tried, and the texts of those of at most so many are forged, with some larger ones.
LARGEST = 5
FORGED = 3
LARGER = [(4, ((1, 2), (2, 3), (3, 4))), (6, ((1, 2), (1, 3), (2, 3), (2, 4), (3, 4), (5, 6))), (11, ((1, 2), (2, 3), (10, 11)))]
# The bytes that a forgery adds, and the numbers that it writes in the place of another.
ADDED = [b"0", b"1", b" ", b"\n", b"\r", b"-", b"\x00", b"\xff"]
NUMBERS = [0, 1, MOST_VERTICES, MOST_VERTICES + 1, MOST_END, MOST_END + 1]

PATH = b"4\n1 2\n2 3\n3 4\n"


def unit_text(length, lefts):
    """The text of a unit model."""
    lines = ["pq-unit 1", f"vertices {len(lefts)}", f"length {length}"]
    lines += [f"unit {vertex} {left}" for vertex, left in enumerate(lefts, 1)]
    return "".join(f"{line}\n" for line in lines + ["end"]).encode()


def unit(name, content, length, lefts):
    return case(name, ["unit", "file"], 0, unit_text(length, lefts), files={"file": content})


def judged(name, text, line, content=PATH):
    return case(name, ["check-unit", "file", "unit"], 0 if line == "valid" else 1, f"{line}\n".encode(),
                files={"file": content, "unit": text})


def refused(name, words, err, **more):
    return case(name, words, 3, err=f"pq: refused {err}\n".encode(), **more)


UNIT_CASES = [
    unit("unit of a path", PATH, 4, [3, 6, 9, 12]),
    unit("unit of a triangle", b"3\n1 2\n1 3\n2 3\n", 3, [2, 3, 4]),
    unit("unit of two vertices without an edge", b"2", 2, [0, 4]),
    unit("unit of one vertex", b"1\n", 1, [0]),
    case("unit from standard input", ["unit", "-"], 0, unit_text(2, [0, 4]), input=b"2\n"),
    refused("unit of a refused file", ["unit", "file"], "1 code 1 line 0", files={"file": b""}),
    case("unit of a missing file", ["unit", "file"], 4, err=b"pq: read fault\n"),
    case("unit without a file", ["unit"], 2, err=b"pq: words\n"),
    case("unit with a kind", ["unit", "proper", "file"], 2, err=b"pq: words\n", files={"file": PATH}),
    judged("check-unit of what unit printed", unit_text(4, [3, 6, 9, 12]), "valid"),
    judged("check-unit of a left end within the length", unit_text(4, [3, 6, 9, 13]), "valid"),
    judged("check-unit of a left end past the length", unit_text(4, [3, 6, 9, 14]), "invalid model"),
    judged("check-unit of length 0", unit_text(0, [0]), "invalid model", b"1\n"),
    judged("check-unit of the greatest numbers", unit_text(MOST_END, [0, MOST_END]), "valid", b"2\n1 2\n"),
    judged("check-unit of too few vertices", unit_text(3, [2, 3, 4]), "invalid vertices"),
    judged("check-unit of no text", b"", "invalid text"),
    judged("check-unit of a verdict", b"pq-verdict 2\n", "invalid text"),
    judged("check-unit of the intervals of solve proper, cut to one length",
           unit_text(5, [5, 10, 15, 20]), "valid"),
    judged("check-unit of the intervals of solve proper, cut to one length, of a triangle and a path",
           unit_text(6, [6, 12, 18, 24, 30]), "invalid model", b"5\n1 2\n1 3\n2 3\n3 4\n4 5\n"),
    refused("check-unit of a refused file", ["check-unit", "file", "unit"], "1 code 1 line 0", files={"file": b"", "unit": b""}),
    case("check-unit of a missing unit model", ["check-unit", "file", "unit"], 4, err=b"pq: read fault\n", files={"file": PATH}),
    case("check-unit of standard input twice", ["check-unit", "-", "-"], 2, err=b"pq: words\n"),
    case("check-unit without a unit model", ["check-unit", "file"], 2, err=b"pq: words\n", files={"file": PATH}),
    judged("check-unit of too many bytes", b"0" * (VERDICT_LIMIT + 1), "invalid too-long"),
]


# The grammar, and what a unit model is.

def number(word, limit):
    """The number that a word writes plainly, at most the limit; else None."""
    if not re.fullmatch(rb"0|[1-9][0-9]*", word):
        return None
    return int(word) if int(word) <= limit else None


def entries(line, name, *limits):
    """The numbers of a line after its name; None where it has another form."""
    words = line.split(b" ")
    if words[0] != name or len(words) != len(limits) + 1:
        return None
    numbers = [number(word, limit) for word, limit in zip(words[1:], limits)]
    return None if None in numbers else numbers


def parsed(text):
    """The length and the left ends in a text; None where it is outside the grammar."""
    lines = text.split(b"\n")
    if len(lines) < 6 or lines.pop() != b"" or lines.pop() != b"end" or lines.pop(0) != b"pq-unit 1":
        return None
    vertices, length = entries(lines.pop(0), b"vertices", MOST_VERTICES), entries(lines.pop(0), b"length", MOST_END)
    if not vertices or not length or len(lines) != vertices[0]:
        return None
    units = [entries(line, b"unit", MOST_VERTICES, MOST_END) for line in lines]
    if None in units or [unit[0] for unit in units] != list(range(1, vertices[0] + 1)):
        return None
    return length[0], [unit[1] for unit in units]


def finding(count, edges, text):
    """What a check says of a text on a graph."""
    unit = parsed(text)
    if unit is None:
        return "invalid text"
    length, lefts = unit
    if len(lefts) != count:
        return "invalid vertices"
    near = {(u, v) for u, v in itertools.combinations(range(1, count + 1), 2) if abs(lefts[u - 1] - lefts[v - 1]) <= length}
    return "valid" if length >= 1 and near == set(edges) else "invalid model"


# The rule, by lists that are searched.

def has_umbrella(order, edges):
    """Whether an edge covers all between its ends in the order."""
    return all((min(u, w), max(u, w)) not in edges
               or (min(u, v), max(u, v)) in edges and (min(v, w), max(v, w)) in edges
               for u, v, w in itertools.combinations(order, 3))


@functools.cache
def is_proper(count, edges):
    """Whether a graph has an umbrella order."""
    return any(has_umbrella(order, set(edges)) for order in orders(count))


def neighbours(count, edges):
    near = {vertex: set() for vertex in range(1, count + 1)}
    for u, v in edges:
        near[u].add(v)
        near[v].add(u)
    return near


def layers_from(first, near):
    """The distances from a vertex to those of its component."""
    layers, front = {first: 0}, [first]
    while front:
        front = [v for u in front for v in near[u] if v not in layers and not layers.update({v: layers[u] + 1})]
    return layers


def ruled(order, edges):
    """The left ends of an umbrella order, by the rule."""
    count, near, base, lefts = len(order), neighbours(len(order), edges), 0, {}
    for first in order:
        if first in lefts:
            continue
        layers = layers_from(first, near)
        placed = [first]
        for vertex in sorted(layers, key=lambda v: (layers[v], order.index(v))):
            if vertex != first:
                above = next(u for u in order if u in near[vertex] and layers[u] == layers[vertex] - 1)
                placed.insert(placed.index(above), vertex)
        lefts.update({v: base + layers[v] * count + place for place, v in enumerate(placed)})
        base += (max(layers.values()) + 2) * count
    return [lefts[vertex] for vertex in range(1, count + 1)]


def content_of(count, edges):
    """The file of a graph."""
    return f"{count}\n".encode() + b"".join(f"{u} {v}\n".encode() for u, v in edges)


def graphs(largest):
    """All graphs of at most so many vertices."""
    for count in range(1, largest + 1):
        pairs = list(itertools.combinations(range(1, count + 1), 2))
        for size in range(len(pairs) + 1):
            yield from ((count, edges) for edges in itertools.combinations(pairs, size))


def graph_problem(count, edges):
    """What is wrong with `unit` and `check-unit` on a graph, or None."""
    content = content_of(count, edges)
    solved, printed = run(["solve", "proper", "-"], content), run(["unit", "-"], content)
    if not is_proper(count, edges):
        return difference("status", 1, printed.returncode) or difference("output", solved.stdout, printed.stdout)
    shown = next(line for line in solved.stdout.decode().splitlines() if line.startswith("order "))
    order = [int(word) for word in shown.split()[1:]]
    judged_so = run_over(["check-unit"], content, printed.stdout)
    return (difference("status", 0, printed.returncode) or difference("output", unit_text(count, ruled(order, edges)), printed.stdout)
            or difference("finding", "valid", finding(count, edges, printed.stdout))
            or difference("check", b"valid\n", judged_so.stdout) or difference("status of check", 0, judged_so.returncode))


def forgeries(text):
    """Every single change of a number, a line dropped, doubled or swapped, a byte cut or added."""
    for match in re.finditer(rb"[0-9]+", text):
        for new in {int(match[0]) - 1, int(match[0]) + 1, 2 * int(match[0]), *NUMBERS}:
            yield text[:match.start()] + str(new).encode() + text[match.end():]
        yield text[:match.start()] + b"0" + text[match.start():]
    lines = text.splitlines(keepends=True)
    for place in range(len(lines)):
        yield b"".join(lines[:place] + lines[place + 1:])
        yield b"".join(lines[:place + 1] + lines[place:])
        yield b"".join(lines[:place] + lines[place:place + 2][::-1] + lines[place + 2:])
    for place in range(len(text) + 1):
        yield text[:place] + text[place + 1:]
        yield from (text[:place] + byte + text[place:] for byte in ADDED)


def forged_problem(count, edges):
    """The first forgery of the unit model of a graph of which `check-unit` says something else than the plain checker, or None."""
    content = content_of(count, edges)
    printed = run(["unit", "-"], content)
    if printed.returncode != 0:
        return difference("status", 1, printed.returncode)
    for text in sorted(set(forgeries(printed.stdout))):
        done = run_over(["check-unit"], content, text)
        line = finding(count, edges, text)
        problem = (difference("output", f"{line}\n".encode(), done.stdout)
                   or difference("status", 0 if line == "valid" else 1, done.returncode))
        if problem:
            return f"{text!r}: {problem}"
    return None


def checks():
    """Each graph and each forged one, with its name, its function and what it is handed."""
    for graph in graphs(LARGEST):
        yield f"unit {graph}", graph_problem, graph
    for graph in [*graphs(FORGED), *LARGER]:
        yield f"forged unit {graph}", forged_problem, graph
