"""The cases of `list`, and what it has to answer for every small tree by a plain program that tries all orders.

Every wanted text was written by hand from the rules of the formats (docs/FORMATS.md), or is made by the plain rules below.
"""

from cases import CHAIN, LIMIT, TRIANGLE, case, outside
from kinds import lines
from other_trees import every_tree
from program import run
from trees import frontiers, leaves, written

MOST_COLUMNS = 5


def listed(kind, columns, orders, more):
    """The text of a list."""
    body = ["pq-list 1", f"kind {kind}", f"columns {columns}", f"orders {len(orders)}",
            *("order " + " ".join(map(str, order)) for order in orders), f"more {more}", "end"]
    return "".join(f"{line}\n" for line in body).encode()


def lists(name, kind, content, count, columns, orders, more):
    """A list of orders, each a text of its numbers."""
    return case(f"list {kind}: {name}", ["list", kind, "file", count], 0, listed(kind, columns, [order.split() for order in orders], more),
                files={"file": content})


FOUR = ["1 3 2", "2 1 3", "2 3 1", "3 1 2"]
TURNS = ["1 4 2 3", "1 4 3 2", "2 3 1 4", "2 3 4 1", "3 2 1 4", "3 2 4 1", "4 1 2 3", "4 1 3 2"]
TABLE = b"t,a,b,c\nx,1,,1\n"

LISTS = [
    lists("three of six", "rows", lines("5 / 1 2 / 3 4 / 2 3"), "3", 5, ["1 2 3 4 5", "4 3 2 1 5", "5 1 2 3 4"], "yes"),
    lists("all, fewer than are asked for", "matrix", b"101\n", "10", 3, FOUR, "no"),
    lists("all, as many as are asked for", "matrix", b"101\n", "4", 3, FOUR, "no"),
    lists("all but one", "matrix", b"101\n", "3", 3, FOUR[:3], "yes"),
    lists("two pairs that take turns", "rows", lines("4 / 1 4 / 2 3"), "10000", 4, TURNS, "no"),
    lists("the greatest number, with zeros before it", "matrix", CHAIN, "00010000", 3, ["1 2 3", "3 2 1"], "no"),
    lists("one column", "matrix", b"1\n", "1", 1, ["1"], "no"),
    lists("a table", "table", TABLE, "1", 3, ["1 3 2"], "yes"),
    lists("the first of 2,048 columns", "matrix", b"0" * 2048 + b"\n", "1", 2048, [" ".join(map(str, range(1, 2049)))], "yes"),
    case("list matrix: standard input", ["list", "matrix", "-", "1"], 0, listed("matrix", 3, [[1, 2, 3]], "yes"), input=CHAIN),
    case("list matrix: a file that is refused", ["list", "matrix", "file", "1"], 3, err=b"pq: refused 1 code 2 line 1\n", files={"file": b"12\n"}),
    case("list rows: a file past the limit", ["list", "rows", "file", "1"], 3, err=b"pq: refused 1 code 7 line 0\n",
         files={"file": b" " * (LIMIT + 1)}),
    case("list matrix: no file", ["list", "matrix", "missing", "1"], 4, err=b"pq: read fault\n"),
]

OUTSIDE = [
    outside("list: clones", ["list", "clones", "a", "1"]),
    outside("list: circular", ["list", "circular", "a", "1"]),
    outside("list: no number", ["list", "matrix", "a"]),
    outside("list: a word too many", ["list", "matrix", "a", "1", "1"]),
    outside("list: 0", ["list", "matrix", "a", "0"]),
    outside("list: 10,001", ["list", "matrix", "a", "10001"]),
    outside("list: a number past 64 bits", ["list", "matrix", "a", "18446744073709551617"]),
    outside("list: a word that is no number", ["list", "matrix", "a", "x"]),
    outside("list: a sign", ["list", "matrix", "a", "+1"]),
    outside("list: an empty word", ["list", "matrix", "a", ""]),
    outside("list: a blank before the number", ["list", "matrix", "a", " 1"]),
]

LIST_CASES = LISTS + OUTSIDE


def tree_rows(tree):
    """Rows whose valid orders are the tree's frontiers: the leaves of each node, and of each two neighbouring children of a Q-node."""
    if isinstance(tree, int):
        return []
    bracket, children = tree
    pairs = list(zip(children, children[1:])) if bracket == "[" else []
    return [leaves(tree), *(leaves(one) + leaves(two) for one, two in pairs), *(row for child in children for row in tree_rows(child))]


def list_problem(tree):
    """What is wrong with the lists of the orders of a tree, for each number of orders up to one more than there are, or None."""
    columns = len(leaves(tree))
    content = "".join(f"{line}\n" for line in [columns, *(" ".join(map(str, row)) for row in tree_rows(tree))]).encode()
    orders = sorted(frontiers(tree))
    for count in range(1, len(orders) + 2):
        wanted = listed("rows", columns, orders[:count], "yes" if count < len(orders) else "no")
        done = run(["list", "rows", "-", str(count)], content)
        if (done.returncode, done.stdout, done.stderr) != (0, wanted, b""):
            return f"{count} orders of {written(tree)}: status {done.returncode}, {done.stdout}, wanted {wanted}"
    return None


def small_trees():
    """Every tree of at most five columns."""
    for columns in range(1, MOST_COLUMNS + 1):
        yield from every_tree(columns).values()


def refused_problem(content):
    """What is wrong with `list` on a matrix without a valid order, which has to answer as `solve` does, or None."""
    done, solved = run(["list", "matrix", "-", "1"], content), run(["solve", "matrix", "-"], content)
    same = (done.returncode, done.stdout, done.stderr) == (1, solved.stdout, b"")
    return None if same else f"status {done.returncode}, {done.stdout}, wanted {solved.stdout}"


# Matrices without a valid order.
REFUTED = [TRIANGLE, b"1100\n0110\n0101\n", b"11000\n01100\n00110\n00011\n10001\n"]
