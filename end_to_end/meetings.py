"""The cases of `meet`, and what it has to answer on small trees by a plain program that lists all frontiers.

Every wanted text was written by hand from the rules of the formats (docs/FORMATS.md), or is made by the plain rules below.
"""

import concurrent.futures
import itertools
import os
import re
import tempfile

from cases import LIMIT, case, count, outside
from cycles import printed_problem
from forgeries import Folder
from kinds import MARK
from other_trees import every_tree, in_pieces
from trees import frontiers, is_canonical, leaves, lines_problem, parsed, written

MOST_COLUMNS = 4


def shared(columns, rows, *body):
    """The text on two trees with so many rows, by its lines after those of the columns and the rows."""
    return "".join(f"{line}\n" for line in ["pq-meet 1", f"columns {columns}", f"rows {rows}", *body, "end"]).encode()


def common(columns, rows, tree, order):
    """The text on two trees that share orders."""
    return shared(columns, rows, "answer yes", f"tree {tree}", f"order {order}")


def meets(name, columns, first, second, out):
    """Two tree files that share orders."""
    return case(f"meet: {name}", ["meet", columns, "first", "second"], 0, out, files={"first": first, "second": second})


def refused(name, columns, first, second, which, code):
    """Two tree files of which one is refused."""
    return case(f"meet: {name}", ["meet", columns, "first", "second"], 3, err=f"pq: refused {which} code {code} line 0\n".encode(),
                files={"first": first, "second": second})


def nested(columns):
    """A nest of P-nodes of two children, with the first columns inmost."""
    return b"(" * (columns - 1) + b"1 2)" + b"".join(b" %d)" % column for column in range(3, columns + 1))


def line(columns):
    """A Q-node over the columns from left to right."""
    return b"[" + count(columns).encode() + b"]"


CHAIN = common(3, "3 2", "[1 2 3]", "1 2 3")
ALL = b"(1 2 3)"

MEET = [
    meets("two pairs", "3", b"(1 (2 3))", b"((1 2) 3)", common(3, "2 2", "[1 2 3]", "1 2 3")),
    meets("a line and a pair", "3", b"[1 2 3]", b"(1 (2 3))", CHAIN),
    meets("one column", "1", b"1", b"1\n", common(1, "0 0", "1", "1")),
    meets("two columns", "2", b"(2 1)\n", b"(1 2)", common(2, "1 1", "(1 2)", "1 2")),
    meets("leading zeros in the number of columns", "003", b"[1 2 3]", b"(1 (2 3))", CHAIN),
    meets("a tree with all orders gives the other tree turned up", "3", b"(3 (2 1))", ALL, common(3, "2 1", "((1 2) 3)", "1 2 3")),
    meets("a line feed behind a tree", "3", b"[1 2 3]\n", b"(1 (2 3))\n", CHAIN),
    meets("a carriage return and a line feed", "3", b"[1 2 3]\r\n", b"(1 (2 3))\r\n", CHAIN),
    meets("byte order marks", "3", MARK + b"[1 2 3]\r\n", MARK + b"(1 (2 3))", CHAIN),
    meets("2,048 columns in a line", "2048", line(2048), line(2048), common(2048, "2048 2048", line(2048).decode(), count(2048))),
    meets("a tree nested 2,047 deep, twice", "2048", nested(2048), nested(2048), common(2048, "2047 2047", nested(2048).decode(), count(2048))),
    meets("a tree nested 2,047 deep and a line", "2048", nested(2048), line(2048), common(2048, "2047 2048", line(2048).decode(), count(2048))),
    case("meet: the first tree on standard input", ["meet", "3", "-", "second"], 0, CHAIN, input=b"[1 2 3]\n", files={"second": b"(1 (2 3))"}),
    case("meet: the second tree on standard input", ["meet", "3", "first", "-"], 0, CHAIN, input=b"(1 (2 3))", files={"first": b"[1 2 3]"}),
    case("meet: no first file", ["meet", "3", "missing", "second"], 4, err=b"pq: read fault\n", files={"second": ALL}),
    case("meet: no second file", ["meet", "3", "first", "missing"], 4, err=b"pq: read fault\n", files={"first": ALL}),
    case("meet: a first tree that is refused, and no second file", ["meet", "3", "first", "missing"], 3,
         err=b"pq: refused 1 code 12 line 0\n", files={"first": b"(1 1 2)"}),
]

# What is no file of a tree over 1 to 3.
NO_TREES = [b"", b"\n", b" ", MARK, b"(1 1 2)", b"(1 2)", b"(1 2 4)", b"(1 2 3 4)", b"(0 1 2)", b"(1 2 03)", b"(1  2 3)", b"( 1 2 3)", b"(1 2 3 )",
            b" (1 2 3)", b"(1 2 3) ", b"(1 2 3)\r", b"(1 2 3)\n\n", b"(1 2 3)\n\r\n", b"(1 2 3)\r\r\n", b"(1 2 3)\n ", b"\n(1 2 3)", MARK + MARK + ALL,
            ALL + MARK, b"(1 2 3)\0", b"(1 2 3)(1 2 3)", b"(1 2 3]", b"[1 2 3)", b"(1 2 3", b"1 2 3)", b"1 2 3", b"()", b"(1)", b"[1 2]", b"[1 (2 3)]",
            b"((1 2 3))", b"(1 (2) 3)", b"(1,2,3)", b"{1 2 3}", b"(1\t2 3)", b"(1\n2 3)", b"(1 2 +3)", b"(1 2 3.)", b"1", b"tree (1 2 3)", b"(1 2 3)\x0b",
            b"(1 2 18446744073709551619)", b"(1 2 4294967299)", b"\xff", b"(1 2 \xd9\xa3)"]

REFUSED = [
    *(refused(f"no tree of three columns in {file!r}", "3", file, ALL, 1, 12) for file in NO_TREES),
    *(refused(f"no tree of three columns in {file!r} as the second", "3", ALL, file, 2, 12) for file in NO_TREES),
    refused("a tree over fewer columns", "4", ALL, b"(1 2 3 4)", 1, 12),
    refused("a tree over more columns", "2", b"(1 2)", ALL, 2, 12),
    refused("both are refused", "3", b"(1 1 2)", b"(1 2)", 1, 12),
    refused("2,049 nested nodes over 2,048 columns", "2048", b"(" + nested(2048) + b")", ALL, 1, 12),
    refused("16,777,216 bytes that are no tree", "3", b" " * LIMIT, ALL, 1, 12),
    refused("16,777,216 opening brackets", "2048", b"(" * LIMIT, ALL, 1, 12),
    refused("16,777,216 opening brackets of Q-nodes in the second", "3", ALL, b"[" * LIMIT, 2, 12),
    refused("16,777,216 digits", "3", b"1" * LIMIT, ALL, 1, 12),
    refused("nodes of two, up to 16,777,216 bytes", "2048", (b"(1 " * LIMIT)[:LIMIT], ALL, 1, 12),
    refused("one byte past the limit", "3", b"(1 2 3)" + b"\n" * (LIMIT - 6), ALL, 1, 7),
    refused("one byte past the limit in the second", "3", ALL, b"(1 2 3)" + b" " * (LIMIT - 6), 2, 7),
    refused("one byte past the limit by a byte order mark", "3", MARK + b"x" * (LIMIT - 2), ALL, 1, 7),
    refused("a tree, and up to the limit line feeds", "3", b"(1 2 3)" + b"\n" * (LIMIT - 7), ALL, 1, 12),
]

OUTSIDE = [
    outside("meet: no column", ["meet", "0", "a", "b"]),
    outside("meet: 2,049 columns", ["meet", "2049", "a", "b"]),
    outside("meet: a number past 64 bits", ["meet", "18446744073709551617", "a", "b"]),
    outside("meet: a word that is no number", ["meet", "x", "a", "b"]),
    outside("meet: a sign", ["meet", "+3", "a", "b"]),
    outside("meet: an empty word", ["meet", "", "a", "b"]),
    outside("meet: a kind in place of the number", ["meet", "matrix", "a", "b"]),
    outside("meet: standard input twice", ["meet", "3", "-", "-"]),
    outside("meet: one tree", ["meet", "3", "a"]),
    outside("meet: a word too many", ["meet", "3", "a", "b", "c"]),
]

MEET_CASES = MEET + REFUSED + OUTSIDE


def tree_rows(tree):
    """The rows of a tree: of each node before its children the leaves, and of a Q-node next those of each two neighbouring children."""
    if isinstance(tree, int):
        return []
    bracket, children = tree
    pairs = [leaves(child) + leaves(other) for child, other in itertools.pairwise(children)] if bracket == "[" else []
    return [set(row) for row in [leaves(tree), *pairs]] + [row for child in children for row in tree_rows(child)]


def meeting_problem(columns, first, second, given):
    """What is wrong with the status, the output and the errors on two trees, by their frontiers and rows, or None."""
    status, out, *err = given
    shares = frontiers(first) & frontiers(second)
    rows = [tree_rows(tree) for tree in (first, second)]
    head = ["pq-meet 1", f"columns {columns}", f"rows {len(rows[0])} {len(rows[1])}", f"answer {'yes' if shares else 'no'}"]
    lines = out.decode().split("\n")
    if status != (0 if shares else 1) or any(err) or lines[:4] != head or lines[-2:] != ["end", ""]:
        return f"{given}, wanted {head}"
    body = lines[4:-2]
    if shares:
        return lines_problem(*body, lambda found: found == shares) if len(body) == 2 else f"{body}"
    return "the length" if body[0] != f"cycle {len(body) - 1}" else printed_problem(columns, rows[0] + rows[1], body[1:])


def read_tree(columns, content):
    """The tree over so many columns in the bytes of a file, or None."""
    text = content.removeprefix(MARK)
    text = text.removesuffix(b"\r\n") if text.endswith(b"\r\n") else text.removesuffix(b"\n")
    if re.search(rb"[^0-9()\[\] ]", text):
        return None
    try:
        tree = parsed(text.decode())
    except (IndexError, ValueError):
        return None
    is_tree = written(tree).encode() == text and sorted(leaves(tree)) == list(range(1, columns + 1)) and has_enough(tree)
    return tree if is_tree else None


def has_enough(tree):
    """Whether each P-node has two children or more, and each Q-node three or more."""
    return isinstance(tree, int) or len(tree[1]) >= {"(": 2, "[": 3}[tree[0]] and all(map(has_enough, tree[1]))


def changed(content):
    """The bytes with one byte left out, put in or made another, or two neighbours exchanged."""
    bytes_of_trees = b"0123459()[] \r\n\t,"
    for place in range(len(content) + 1):
        front, rest = content[:place], content[place:]
        yield from (front + bytes([byte]) + rest for byte in bytes_of_trees)
        if rest:
            yield front + rest[1:]
            yield from (front + bytes([byte]) + rest[1:] for byte in bytes_of_trees)
        if len(rest) > 1:
            yield front + rest[1:2] + rest[:1] + rest[2:]


def turned(tree):
    """The tree with the children of each node the other way round."""
    return tree if isinstance(tree, int) else (tree[0], [turned(child) for child in tree[1][::-1]])


def tried(pairs):
    """Each pair of trees with what is wrong with the program's word on it, or None."""
    found = []
    with tempfile.TemporaryDirectory() as place:
        folder = Folder(place)
        for columns, first, second in pairs:
            folder.write(0, written(first).encode())
            folder.write(1, written(second).encode() + b"\n")
            given = folder.run("meet", str(columns), 2)
            found.append((f"meet {columns} {written(first)} {written(second)}", meeting_problem(columns, first, second, given)))
    return found


# A file of a tree of each form, and the number of its columns.
FILES = [(1, b"1"), (2, b"(1 2)\n"), (3, b"[1 2 3]\r\n"), (4, b"([1 2 3] 4)\n"), (4, b"[4 (3 1) 2]"), (5, MARK + b"((5 1) 2 (3 4))\n"), (12, b"(" + count(12).encode() + b")\n")]


def changed_files(files):
    """Each file with one change, met with the tree of all orders on either side, with what is wrong with the program's word on it, or None."""
    found = []
    with tempfile.TemporaryDirectory() as place:
        folder = Folder(place)
        for columns, content in files:
            every = ("(", list(range(1, columns + 1))) if columns > 1 else 1
            for number, file in enumerate(dict.fromkeys(changed(content)), 1):
                which = 1 + number % 2
                folder.write(which - 1, file)
                folder.write(2 - which, written(every).encode())
                given = folder.run("meet", str(columns), 2)
                tree = read_tree(columns, file)
                refusal = (3, f"pq: refused {which} code 12 line 0\n".encode())
                found.append((f"meet {columns} {file!r}", file_problem(columns, tree, given, refusal)))
    return found


def file_problem(columns, tree, given, refusal):
    """What is wrong with the program's word on the file of a tree, or of none, beside the tree of all orders, or None."""
    if tree is None:
        return None if given == refusal else f"{given}, wanted {refusal}"
    lines = given[1].decode().split("\n")
    if given[0] != 0 or len(lines) != 8:
        return f"{given}, which is a tree"
    # The tree itself, in its canonical form. Its frontiers are too many to be listed where it has many columns.
    found = parsed(lines[4].removeprefix("tree "))
    return None if is_canonical(found) and shape(found) == shape(tree) else f"{given}, which is another tree"


def shape(tree):
    """What of a tree stays where the children of P-nodes are permuted and those of Q-nodes are turned."""
    if isinstance(tree, int):
        return tree
    bracket, children = tree
    shapes = [shape(child) for child in children]
    return bracket, frozenset(shapes) if bracket == "(" else frozenset([tuple(shapes), tuple(shapes[::-1])])


def pairs_of_trees():
    """Every two trees over at most four columns, the second with the children of its nodes the other way round."""
    for columns in range(1, MOST_COLUMNS + 1):
        trees = every_tree(columns).values()
        yield from ((columns, first, turned(second)) for first, second in itertools.product(trees, trees))


def compared():
    """Each two small trees, and each changed file of a tree, with what is wrong with the program's word on them, or None."""
    with concurrent.futures.ProcessPoolExecutor(os.cpu_count()) as pool:
        for found in pool.map(tried, in_pieces(list(pairs_of_trees()))):
            yield from found
        for found in pool.map(changed_files, [[file] for file in FILES]):
            yield from found
