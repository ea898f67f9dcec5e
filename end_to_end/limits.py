"""Instances at the limits, of which `check` finds what `solve` wrote valid: the greatest number of columns, of rows, and of bytes of each kind.

Just past each limit a file is refused, which stands with the cases of each kind.
"""

import json

from cases import LIMIT

COLUMNS = 2_048
ROWS = 131_072
ITEMS = 256

# A few rows over many columns: runs of a hidden order, so that there is a valid order.
RUNS = [(1, 700), (350, 1_400), (1_000, 2_048), (3, 5)]


def dense(columns, runs):
    """The lines of digits of runs of columns."""
    return b"".join(b"0" * (first - 1) + b"1" * (last - first + 1) + b"0" * (columns - last) + b"\n" for first, last in runs)


def named(runs):
    """The lines that name the columns of runs."""
    return b"".join(" ".join(map(str, range(first, last + 1))).encode() + b"\n" for first, last in runs)


def cells(runs):
    """The records of a table with these runs."""
    return b"".join(b"r" + b"".join(b",1" if first <= column <= last else b"," for column in range(1, COLUMNS + 1)) + b"\n"
                    for first, last in runs)


def filled(content, line):
    """The content with the line repeated up to the greatest length of a file."""
    return content + line * ((LIMIT - len(content)) // len(line))


def clones(probes, rows):
    """A clone file."""
    return json.dumps({"probes": [str(probe) for probe in range(1, probes + 1)],
                       "clones": [{"probes": [str(probe) for probe in row]} for row in rows]}).encode()


def edges(head, pairs):
    """The file of a graph."""
    return "".join(f"{line}\n" for line in [head, *(f"{u} {v}" for u, v in pairs)]).encode()


def distances(items):
    """Points on a line that lie farther apart from one to the next, so that most distances differ."""
    places = [x * x + x for x in range(items)]
    rows = (" ".join(str(abs(x - y)) for y in places) for x in places)
    return "".join(f"{line}\n" for line in [items, *rows]).encode()


AT_LIMITS = [
    ("2,048 columns", "matrix", dense(COLUMNS, RUNS)),
    ("131,072 rows", "matrix", b"10\n11\n" * (ROWS // 2)),
    ("16,777,216 bytes", "matrix", filled(dense(COLUMNS, RUNS), b"0" * 2_047 + b"1\n")),
    ("2,048 columns and 131,072 rows", "rows", f"{COLUMNS}\n".encode() + named(RUNS) + b"7 8\n" * (ROWS - len(RUNS))),
    ("2,048 columns", "table", b"t" + b"," * COLUMNS + b"\n" + cells(RUNS)),
    ("131,072 rows", "table", b"t,a,b\n" + b"x,1,1\ny,,1\n" * (ROWS // 2)),
    ("2,048 probes and 131,072 clones", "clones", clones(COLUMNS, [range(first, last + 1) for first, last in RUNS] + [[7, 8]] * (ROWS - len(RUNS)))),
    ("2,048 columns", "circular", dense(COLUMNS, RUNS)),
    ("131,072 rows", "circular", b"101\n110\n" * (ROWS // 2)),
    ("131,072 and 2,048 vertices", "convex", edges(f"{ROWS} {COLUMNS}", ((x, 1 + x % 3 + step) for x in range(1, ROWS + 1) for step in (0, 1)))),
    ("2,048 vertices on each side", "doubly", edges(f"{COLUMNS} {COLUMNS}", ((x, x) for x in range(1, COLUMNS + 1)))),
    ("2,048 vertices", "proper", edges(COLUMNS, ((v, v + 1) for v in range(1, COLUMNS, 2)))),
    ("256 items", "robinson", distances(ITEMS)),
]
