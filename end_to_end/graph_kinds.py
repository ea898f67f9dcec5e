"""The cases of the kinds `circular`, `convex`, `doubly`, `proper` and `robinson`.

Every wanted text was written by hand from the rules of the formats (docs/FORMATS.md).
"""

from cases import LIMIT, case, count, in_both, in_each
from kinds import DIGITS, MARK, answers, judged, lines, refused

BIG = "18446744073709551615"
PAST = "18446744073709551616"


def verdict(kind, columns, *body):
    """The text of a verdict, by its lines after those of the kind and the columns."""
    return "".join(f"{line}\n" for line in ["pq-verdict 2", f"kind {kind}", f"columns {columns}", *body, "end"]).encode()


def no(kind, columns, side, cycle):
    """A no, by the lines of its cycle, which are apart by ` / `."""
    steps = cycle.split(" / ")
    return verdict(kind, columns, "answer no", f"side {side}", f"cycle {len(steps)}", *steps)


def solved(name, kind, content, columns, *body):
    """What `solve` writes on a yes, by its lines after `answer yes`."""
    return case(f"{kind}: {name}", ["solve", kind, "file"], 0, verdict(kind, columns, "answer yes", *body), files={"file": content})


def both(name, content, columns, *sides):
    """What `solve doubly` writes, by the tree and the order of each side."""
    return solved(name, "doubly", content, columns, *(line for tree, order in sides for line in (f"tree {tree}", f"order {order}")))


# ---- circular ----

TRIANGLE = lines("110 / 011 / 101")
RING = lines("0110 / 0011 / 0101")
RING_CYCLE = "2 4 row 1 / 4 3 row 3 / 3 2 row 2"

CIRCULAR = [
    answers("a triangle", "circular", TRIANGLE, 3, "(1 (2 3))", "1 2 3"),
    answers("one column", "circular", b"1\n", 1, "1", "1"),
    answers("a row round the end of the order", "circular", lines("1001"), 4, "(1 (2 3) 4)", "1 2 3 4"),
    answers("a full and an empty row", "circular", lines("11 / 00"), 2, "(1 2)", "1 2"),
    answers("a pentagon", "circular", lines("11000 / 01100 / 00110 / 00011 / 10001"), 5, "(1 [2 3 4 5])", "1 2 3 4 5"),
    refused("an empty file", "circular", b"", 1, 0),
    refused("a short row", "circular", lines("110 / 01"), 3, 2),
    refused("another digit", "circular", b"12\n", 2, 1),
    refused("2,049 columns", "circular", b"0" * 2049 + b"\n", 7, 1),
    refused("the 131,073rd row", "circular", b"1\n" * 131_073, 7, 131_073),
    refused("a file past the limit", "circular", b"1" * (LIMIT + 1), 7, 0),
    judged("a no with its cycle", "circular", RING, no("circular", 4, 1, RING_CYCLE), "valid"),
    judged("a cycle in the rows as they stand in the file", "circular", TRIANGLE,
           no("circular", 3, 1, "1 3 row 1 / 3 2 row 3 / 2 1 row 2"), "invalid join 1"),
    judged("a rotation of the order, which is circular too", "circular", TRIANGLE,
           verdict("circular", 3, "answer yes", "tree (1 (2 3))", "order 3 1 2"), "valid"),
    judged("an order that is not circular", "circular", lines("1010 / 1100"),
           verdict("circular", 4, "answer yes", "tree (1 2 3 4)", "order 1 2 3 4"), "invalid order 1"),
    judged("a tree that holds no row", "circular", lines("1010"),
           verdict("circular", 4, "answer yes", "tree (1 2 3 4)", "order 1 3 2 4"), "invalid tree 1 1"),
    judged("a tree of circular orders that are not cut at column 1", "circular", TRIANGLE,
           verdict("circular", 3, "answer yes", "tree (1 2 3)", "order 1 2 3"), "invalid tree 1 2"),
]

# ---- convex ----

CONVEX_FILE = lines("2 3 / 1 1 / 1 3 / 2 2 / 2 3")

CONVEX = [
    answers("two neighbourhoods that overlap", "convex", CONVEX_FILE, 3, "[1 3 2]", "1 3 2"),
    answers("edges in any order, and some twice", "convex", lines("2 3 / 2 3 / 1 3 / 2 2 / 1 1 / 2 3 / 1 3"), 3, "[1 3 2]", "1 3 2"),
    answers("no edge", "convex", b"2 3\n", 3, "(1 2 3)", "1 2 3"),
    answers("one vertex on each side", "convex", lines("1 1 / 1 1"), 1, "1", "1"),
    answers("blank lines, tabs, CR LF and leading zeros", "convex", MARK + b"\n \t\n02\t3 \r\n\r\n1 001\n1 3\n\n2 2\n2 3", 3, "[1 3 2]", "1 3 2"),
    answers("131,072 xs and 2,048 ys", "convex", b"131072 2048\n131072 2048\n131072 1\n", 2048,
            f"((1 2048) {' '.join(map(str, range(2, 2048)))})", f"1 2048 {' '.join(map(str, range(2, 2048)))}"),
    refused("an empty file", "convex", b"", 1, 0),
    refused("blank lines alone", "convex", b"\n \n\t\r\n", 1, 0),
    refused("a byte order mark alone", "convex", MARK, 1, 0),
    refused("one number in the first line", "convex", b"3\n", 2, 1),
    refused("three numbers in the first line", "convex", b"1 2 3\n", 2, 1),
    refused("a word that is no number in the first line", "convex", b"\n2 x\n", 2, 2),
    refused("no x", "convex", lines("0 3"), 4, 1),
    refused("no y", "convex", lines("3 0"), 4, 1),
    refused("no y, and too many xs", "convex", lines("131073 0"), 4, 1),
    refused("131,073 xs", "convex", lines("131073 3"), 7, 1),
    refused("2,049 ys", "convex", lines("3 2049"), 7, 1),
    refused("a number of ys of 30 digits", "convex", b"3 " + DIGITS + b"\n", 7, 1),
    refused("a number of xs of 30 digits and no y", "convex", DIGITS + b" 0\n", 4, 1),
    refused("one number in an edge", "convex", lines("2 3 / 1"), 2, 2),
    refused("three numbers in an edge", "convex", lines("2 3 / 1 1 1"), 2, 2),
    refused("a word that is no number in an edge", "convex", lines("2 3 / 1 1 / 9 x"), 2, 3),
    refused("an x past the last", "convex", lines("2 3 / 3 1"), 4, 2),
    refused("an x 0", "convex", lines("2 3 / 0 1"), 4, 2),
    refused("a y past the last", "convex", b"2 3\n1 1\n\n2 4\n", 4, 4),
    refused("a y of 30 digits", "convex", b"2 3\n1 " + DIGITS + b"\n", 4, 2),
    refused("a sign", "convex", lines("2 3 / +1 1"), 2, 2),
    refused("a file past the limit", "convex", b"1 1\n" * (LIMIT // 4) + b"\n", 7, 0),
    judged("an order that keeps neighbours apart", "convex", CONVEX_FILE,
           verdict("convex", 3, "answer yes", "tree [1 3 2]", "order 1 2 3"), "invalid order 1"),
    judged("a tree with too many frontiers", "convex", CONVEX_FILE,
           verdict("convex", 3, "answer yes", "tree (1 2 3)", "order 1 3 2"), "invalid tree 1 1"),
    judged("the kind of another file", "convex", CONVEX_FILE, verdict("proper", 3, "answer no", "side 1", "cycle 1", "1 2 flip"), "invalid kind"),
    judged("the columns of the left side", "convex", CONVEX_FILE,
           verdict("convex", 2, "answer yes", "tree (1 2)", "order 1 2"), "invalid columns"),
]

# ---- doubly ----

STAR_FILE = lines("4 3 / 1 1 / 2 1 / 1 2 / 3 2 / 1 3 / 4 3")
STAR_CYCLE = "1 3 row 1 / 3 2 row 2 / 2 1 row 3 / 4 2 row 1 / 1 4 row 2 / 4 3 row 3 / 3 1 flip"
SQUARE = lines("2 2 / 1 1 / 1 2 / 2 2")
# The xs are tied by ys 1 and 2, the ys by no x.
PATH = lines("3 2 / 1 1 / 2 1 / 2 2 / 3 2")

DOUBLY = [
    both("a path of four vertices", SQUARE, "2 2", ("(1 2)", "1 2"), ("(1 2)", "1 2")),
    both("a path of five vertices", PATH, "2 3", ("(1 2)", "1 2"), ("[1 2 3]", "1 2 3")),
    both("no edge", b"1 2\n", "2 1", ("(1 2)", "1 2"), ("1", "1")),
    both("2,048 vertices on each side", b"2048 2048\n", "2048 2048", (f"({count(2048)})", count(2048)), (f"({count(2048)})", count(2048))),
    case("doubly: a side without an order, the second", ["check", "doubly", "file", "verdict"], 0, b"valid\n",
         files={"file": STAR_FILE, "verdict": no("doubly", "3 4", 2, STAR_CYCLE)}),
    judged("the cycle of side 2 on side 1", "doubly", STAR_FILE, no("doubly", "3 4", 1, STAR_CYCLE), "invalid pair 4"),
    refused("2,049 xs", "doubly", lines("2049 1"), 7, 1),
    refused("2,049 ys", "doubly", lines("1 2049"), 7, 1),
    refused("no x", "doubly", lines("0 2049"), 4, 1),
    refused("an empty file", "doubly", b"\n", 1, 0),
    refused("an x past the last", "doubly", lines("2 2 / 3 1"), 4, 2),
    judged("side 2 in an order that keeps neighbours apart", "doubly", PATH,
           verdict("doubly", "2 3", "answer yes", "tree (1 2)", "order 1 2", "tree [1 2 3]", "order 1 3 2"), "invalid order 2"),
    judged("side 2 with a tree that has too many frontiers", "doubly", PATH,
           verdict("doubly", "2 3", "answer yes", "tree (1 2)", "order 2 1", "tree (1 2 3)", "order 3 2 1"), "invalid tree 2 1"),
    judged("the sides the wrong way round", "doubly", PATH,
           verdict("doubly", "3 2", "answer yes", "tree [1 2 3]", "order 1 2 3", "tree (1 2)", "order 1 2"), "invalid columns"),
    judged("one side alone", "doubly", PATH, verdict("doubly", 2, "answer yes", "tree (1 2)", "order 1 2"), "invalid text"),
    judged("both sides in other orders", "doubly", PATH,
           verdict("doubly", "2 3", "answer yes", "tree (2 1)", "order 2 1", "tree [3 2 1]", "order 3 2 1"), "valid"),
]

# ---- proper ----

CHAIN = lines("4 / 1 2 / 2 3 / 3 4")
CHAIN_INTERVALS = ["interval 1 5 11", "interval 2 10 17", "interval 3 15 23", "interval 4 20 24"]
CLAW = lines("4 / 1 2 / 1 3 / 1 4")
CLAW_CYCLE = "1 3 row 2 / 3 2 row 3 / 2 1 row 4 / 4 2 row 2 / 1 4 row 3 / 4 3 row 4 / 3 1 flip"


def modelled(name, line, *ends):
    """A check of a yes on the chain with intervals of these ends."""
    return judged(name, "proper", CHAIN, verdict("proper", 4, "answer yes", "tree [1 2 3 4]", "order 1 2 3 4",
                                                 *(f"interval {v} {pair}" for v, pair in enumerate(ends, 1))), line)


PROPER = [
    answers("a chain", "proper", CHAIN, 4, "[1 2 3 4]", "1 2 3 4", *CHAIN_INTERVALS),
    answers("a chain whose edges are given backwards and twice", "proper", lines("4 / 4 3 / 3 2 / 2 1 / 3 4"), 4, "[1 2 3 4]", "1 2 3 4",
            *CHAIN_INTERVALS),
    answers("one vertex", "proper", b"1\n", 1, "1", "1", "interval 1 2 3"),
    answers("two vertices without an edge", "proper", b"2\n", 2, "(1 2)", "1 2", "interval 1 3 4", "interval 2 6 8"),
    answers("a triangle", "proper", lines("3 / 1 2 / 1 3 / 2 3"), 3, "(1 2 3)", "1 2 3", "interval 1 4 13", "interval 2 8 14", "interval 3 12 15"),
    answers("a chain in another order", "proper", lines("3 / 1 3 / 3 2"), 3, "[1 3 2]", "1 3 2", "interval 1 4 9", "interval 2 12 15",
            "interval 3 8 14"),
    answers("blank lines, tabs, CR LF and leading zeros", "proper", MARK + b"\r\n\t04\r\n \n01 2\n2\t3\n3 4", 4, "[1 2 3 4]", "1 2 3 4",
            *CHAIN_INTERVALS),
    judged("a claw, with its cycle", "proper", CLAW, no("proper", 4, 1, CLAW_CYCLE), "valid"),
    refused("an empty file", "proper", b"", 1, 0),
    refused("blank lines alone", "proper", b" \n\n", 1, 0),
    refused("two numbers in the first line", "proper", b"2 2\n", 2, 1),
    refused("a word that is no number", "proper", b"two\n", 2, 1),
    refused("no vertex", "proper", b"0\n", 4, 1),
    refused("2,049 vertices", "proper", b"\n2049\n", 7, 2),
    refused("a number of vertices of 30 digits", "proper", DIGITS + b"\n", 7, 1),
    refused("a loop", "proper", lines("2 / 1 1"), 6, 2),
    refused("a loop past the last vertex", "proper", lines("2 / 3 3"), 4, 2),
    refused("a vertex past the last", "proper", lines("2 / 1 3"), 4, 2),
    refused("a vertex 0", "proper", lines("2 / 0 1"), 4, 2),
    refused("one number in an edge", "proper", lines("2 / 1"), 2, 2),
    refused("three numbers in an edge", "proper", lines("2 / 1 2 1"), 2, 2),
    refused("a word that is no number, past a vertex past the last", "proper", lines("2 / 9 x"), 2, 2),
    refused("a loop of 30 digits", "proper", b"2\n" + DIGITS + b" " + DIGITS + b"\n", 4, 2),
    refused("a loop by leading zeros", "proper", lines("2 / 1 2 / 2 002"), 6, 3),
    refused("a file past the limit", "proper", b"2\n".ljust(LIMIT + 1), 7, 0),
    modelled("the intervals of the formula", "valid", "5 11", "10 17", "15 23", "20 24"),
    modelled("other intervals that fit", "valid", "0 1", "1 2", "2 3", "3 4"),
    modelled("an interval within another", "invalid intervals", "5 10", "10 15", "15 20", "20 20"),
    modelled("an edge whose intervals don't meet", "invalid intervals", "0 1", "2 3", "3 4", "4 5"),
    modelled("intervals that meet without an edge", "invalid intervals", "0 2", "1 3", "2 4", "4 5"),
    modelled("an interval the wrong way round", "invalid intervals", "1 0", "1 2", "2 3", "3 4"),
    modelled("an interval too few", "invalid text", "0 1", "1 2", "2 3"),
    modelled("ends of 64 bits", "valid", "0 1", "1 2", "2 3", f"3 {BIG}"),
    modelled("an end past 64 bits", "invalid text", "0 1", "1 2", "2 3", f"3 {PAST}"),
    judged("equal intervals of neighbours alike", "proper", lines("2 / 1 2"),
           verdict("proper", 2, "answer yes", "tree (1 2)", "order 1 2", "interval 1 7 7", "interval 2 7 7"), "valid"),
    judged("an order that is no umbrella order", "proper", CHAIN,
           verdict("proper", 4, "answer yes", "tree [1 2 3 4]", "order 1 3 2 4", *CHAIN_INTERVALS), "invalid order 1"),
    judged("a tree with too many frontiers", "proper", CHAIN,
           verdict("proper", 4, "answer yes", "tree (1 2 3 4)", "order 1 2 3 4", *CHAIN_INTERVALS), "invalid tree 1 1"),
]

# ---- robinson ----

LINE = lines("3 / 0 1 2 / 1 0 1 / 2 1 0")
RING_OF_FOUR = lines("4 / 0 1 2 1 / 1 0 1 2 / 2 1 0 1 / 1 2 1 0")

ROBINSON = [
    answers("three points on a line", "robinson", LINE, 3, "[1 2 3]", "1 2 3"),
    answers("equal distances", "robinson", lines("3 / 0 1 1 / 1 0 1 / 1 1 0"), 3, "(1 2 3)", "1 2 3"),
    answers("one item", "robinson", lines("1 / 0"), 1, "1", "1"),
    answers("256 items at one place", "robinson", b"256\n" + (b"0 " * 256 + b"\n") * 256, 256, f"({count(256)})", count(256)),
    answers("two items at the same place", "robinson", lines("3 / 0 0 5 / 0 0 5 / 5 5 0"), 3, "((1 2) 3)", "1 2 3"),
    answers("distances of 64 bits", "robinson", lines(f"2 / 0 {BIG} / {BIG} 0"), 2, "(1 2)", "1 2"),
    answers("blank lines, tabs, CR LF and leading zeros", "robinson", MARK + b"\n3\r\n\r\n0\t1 002\n1 0 1\n \n2 1 0", 3, "[1 2 3]", "1 2 3"),
    refused("an empty file", "robinson", b"", 1, 0),
    refused("blank lines alone", "robinson", b"\n\n", 1, 0),
    refused("two numbers in the first line", "robinson", b"2 2\n", 2, 1),
    refused("a word that is no number in the first line", "robinson", b"x\n", 2, 1),
    refused("no item", "robinson", b"0\n", 4, 1),
    refused("257 items", "robinson", b"257\n", 7, 1),
    refused("a number of items of 30 digits", "robinson", DIGITS + b"\n", 7, 1),
    refused("no row", "robinson", b"256\n", 3, 0),
    refused("a row too few", "robinson", lines("2 / 0 1"), 3, 0),
    refused("a row too many", "robinson", lines("2 / 0 1 / 1 0 / 0 0"), 3, 4),
    refused("a row too many that is also malformed", "robinson", lines("1 / 0 / x"), 3, 3),
    refused("a word that is no number", "robinson", lines("2 / 0 x"), 2, 2),
    refused("a word that is no number in a row that is too long", "robinson", lines("2 / 0 1 x"), 2, 2),
    refused("a distance past 64 bits", "robinson", lines(f"1 / {PAST}"), 4, 2),
    refused("a distance past 64 bits before a word that is no number", "robinson", lines(f"2 / {PAST} x"), 4, 2),
    refused("a word that is no number before a distance past 64 bits", "robinson", lines(f"2 / x {PAST}"), 2, 2),
    refused("a short row", "robinson", lines("2 / 0"), 3, 2),
    refused("a long row", "robinson", lines("2 / 0 1 1"), 3, 2),
    refused("a short row whose diagonal is not zero", "robinson", lines("2 / 1"), 3, 2),
    refused("a diagonal that is not zero", "robinson", lines("2 / 1 0 / 0 0"), 6, 2),
    refused("a distance that is not symmetric", "robinson", lines("3 / 0 1 2 / 1 0 1 / 2 2 0"), 6, 4),
    refused("a fraction", "robinson", lines("2 / 0 1.5"), 2, 2),
    refused("a negative distance", "robinson", lines("2 / 0 -1"), 2, 2),
    refused("a file past the limit", "robinson", b"1\n0".ljust(LIMIT + 1), 7, 0),
    judged("an order that is no Robinson order", "robinson", LINE, verdict("robinson", 3, "answer yes", "tree [1 2 3]", "order 1 3 2"),
           "invalid order 1"),
    judged("a tree with too many frontiers", "robinson", LINE, verdict("robinson", 3, "answer yes", "tree (1 2 3)", "order 1 2 3"),
           "invalid tree 1 2"),
    judged("a no on a table that has an order", "robinson", LINE, no("robinson", 3, 1, "1 3 row 2 / 3 2 row 8 / 2 1 row 5"), "invalid join 2"),
]

# ---- versions ----

# A kind, a file of it, its columns, the lines of a yes, and the line of a check in version 2 and in version 1.
COMPLETE = [
    ("two cut orders of four", "circular", TRIANGLE, 3, ["tree [1 2 3]", "order 1 2 3"], "invalid complete 1", "valid"),
    ("two cut orders of four, and an order round the end", "circular", TRIANGLE, 3, ["tree [1 2 3]", "order 2 3 1"], "invalid complete 1", "valid"),
    ("all cut orders", "circular", TRIANGLE, 3, ["tree ((3 2) 1)", "order 2 3 1"], "valid", "valid"),
    ("two orders of six", "convex", b"2 3\n", 3, ["tree [1 2 3]", "order 1 2 3"], "invalid complete 1", "valid"),
    ("too few orders of side 1", "doubly", b"3 3\n", "3 3", ["tree [1 2 3]", "order 1 2 3", "tree (1 2 3)", "order 1 2 3"], "invalid complete 1", "valid"),
    ("too few orders of side 2", "doubly", b"3 3\n", "3 3", ["tree (1 2 3)", "order 1 2 3", "tree [1 2 3]", "order 1 2 3"], "invalid complete 2", "valid"),
    ("too few orders of side 1, and a wrong one of side 2", "doubly", b"3 3\n", "3 3",
     ["tree [1 2 3]", "order 1 2 3", "tree (1 2 3)", "order 1 2 2"], "invalid complete 1", "invalid order 2"),
    ("too few orders of side 1, and a tree that parts a row of side 2", "doubly", lines("3 3 / 1 1 / 2 1"), "3 3",
     ["tree [1 2 3]", "order 1 2 3", "tree (1 2 3)", "order 1 2 3"], "invalid complete 1", "invalid tree 2 1"),
    ("all orders of both sides", "doubly", b"3 3\n", "3 3", ["tree (3 2 1)", "order 1 2 3", "tree (1 2 3)", "order 1 2 3"], "valid", "valid"),
    ("two orders of six, with intervals", "proper", b"3\n", 3,
     ["tree [1 2 3]", "order 1 2 3", "interval 1 4 5", "interval 2 8 10", "interval 3 12 15"], "invalid complete 1", "valid"),
    ("two orders of six, with intervals that meet", "proper", b"3\n", 3,
     ["tree [1 2 3]", "order 1 2 3", "interval 1 4 8", "interval 2 8 10", "interval 3 12 15"], "invalid complete 1", "invalid intervals"),
    ("two orders of six", "robinson", lines("3 / 0 1 1 / 1 0 1 / 1 1 0"), 3, ["tree [1 2 3]", "order 1 2 3"], "invalid complete 1", "valid"),
]

VERSIONS = [check for name, kind, content, columns, body, *answers_of in COMPLETE
            for check in in_each(lambda name, text, line, kind=kind, content=content: judged(name, kind, content, text, line),
                                 name, verdict(kind, columns, "answer yes", *body), *answers_of)]

GRAPH_CASES = [*in_both(CIRCULAR + CONVEX + DOUBLY + PROPER + ROBINSON), *VERSIONS]

# Instances whose verdicts, yes and no, `check` finds valid.
GRAPH_SOLVED = [
    ("a ring that has no order", "circular", RING),
    ("a triangle", "circular", TRIANGLE),
    ("two neighbourhoods that overlap", "convex", CONVEX_FILE),
    ("three neighbourhoods in a ring", "convex", lines("3 3 / 1 1 / 1 2 / 2 2 / 2 3 / 3 1 / 3 3")),
    ("a star", "doubly", STAR_FILE),
    ("a ring on both sides", "doubly", lines("3 3 / 1 1 / 1 2 / 2 2 / 2 3 / 3 1 / 3 3")),
    ("a path", "doubly", PATH),
    ("a claw", "proper", CLAW),
    ("a ring of five", "proper", lines("5 / 1 2 / 2 3 / 3 4 / 4 5 / 5 1")),
    ("2,048 vertices in a chain", "proper", lines(" / ".join(["2048", *(f"{v} {v + 1}" for v in range(1, 2048))]))),
    ("a ring of four items", "robinson", RING_OF_FOUR),
    ("100 points on a line", "robinson",
     lines(" / ".join(["100", *(" ".join(str(abs(37 * x % 101 - 37 * y % 101)) for y in range(100)) for x in range(100))]))),
]
