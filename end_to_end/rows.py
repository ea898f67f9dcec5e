"""Further cases of all commands, as rows of tables: right verdicts and unit models that are checked, yes and no of
every kind in both versions, and replies with a cycle, of which any may be printed.

Every wanted text was written by hand from the rules of the formats (docs/FORMATS.md).
"""

from cases import CHAIN, TRIANGLE, in_both, in_each, outside, says
from cores import FOUR, ORDERS, core_text
from cycles import printed_problem
from forged import VERDICT, text, with_lines
from graph_kinds import no
from kinds import MAP, MAP_ANSWER, MARK, NESTED_ANSWER, NESTED_TABLE, judged, lines, yes
from listing import FOUR as ALL_OF_A_PAIR, lists
from meetings import common, meets
from program import run, run_over, verdict
from sessions import cycle_lines, generates
from streams import difference
from units import judged as judged_unit, unit_text

# A kind, a file, and the columns, the tree and the order of the right verdict, with the lines that the kind adds.
RIGHT = [
    ("matrix", b"00\n11\n", 2, "(1 2)", "1 2"),
    ("matrix", b"1100\n1110\n1100\n1110\n", 4, "(((1 2) 3) 4)", "1 2 3 4"),
    ("matrix", b"101\n110\n", 3, "[2 1 3]", "2 1 3"),
    ("rows", lines("5 / 1 2 / 3 4 / 2 3"), 5, "([1 2 3 4] 5)", "1 2 3 4 5"),
    ("table", NESTED_TABLE, *NESTED_ANSWER),
    ("clones", MAP, *MAP_ANSWER),
    ("circular", TRIANGLE, 3, "(1 (2 3))", "1 2 3"),
    ("convex", lines("2 3 / 1 1 / 1 3 / 2 2 / 2 3"), 3, "[1 3 2]", "1 3 2"),
    ("doubly", lines("2 2 / 1 1 / 1 2 / 2 2"), "2 2", "(1 2)", "1 2", "tree (1 2)", "order 1 2"),
    ("robinson", lines("3 / 0 1 2 / 1 0 1 / 2 1 0"), 3, "[1 2 3]", "1 2 3"),
    ("robinson", lines("3 / 0 1 1 / 1 0 1 / 1 1 0"), 3, "(1 2 3)", "1 2 3"),
]

THREE_PROBES = b'{"probes":["a","b","c"],"clones":[]}'
THREE_CLONES = b'{"probes":["a","b","c"],"clones":[{"probes":["a","b"]},{"probes":["b","c"]},{"probes":["a","c"]}]}'
LINE = ["tree [1 2 3]", "order 1 2 3"]
LONE = ["places 0", "contigs 3", "contig 1 1", "contig 2 2", "contig 3 3"]

# A kind, a file, the columns and the lines of a yes with too few orders, and what `check` says in version 2
# and in version 1.
TOO_FEW = [
    ("rows", b"3\n", 3, LINE, "invalid complete 1", "valid"),
    ("table", b"t,a,b,c\n", 3, LINE, "invalid complete 1", "valid"),
    ("clones", THREE_PROBES, 3, LINE + LONE, "invalid complete 1", "valid"),
    ("clones", THREE_PROBES, 3, [*LINE, "places 0", "contigs 0"], "invalid complete 1", "invalid contigs"),
    ("convex", b"1 3\n", 3, LINE, "invalid complete 1", "valid"),
    ("doubly", b"3 3\n", "3 3", LINE + LINE, "invalid complete 1", "valid"),
]

RING = "1 3 row 1 / 3 2 row 3 / 2 1 row 2"
RING_GRAPH = lines("3 3 / 1 1 / 1 2 / 2 2 / 2 3 / 3 1 / 3 3")
# Round each of four items in a ring lies the ball of its two neighbours and itself: row 11 is that of item 4, which has
# 1, 3 and 4.
RING_OF_FOUR = lines("4 / 0 1 2 1 / 1 0 1 2 / 2 1 0 1 / 1 2 1 0")

# A kind, a file, the columns, and a cycle that shows that it has no order.
WITHOUT = [
    ("rows", lines("3 / 1 2 / 2 3 / 1 3"), 3, RING),
    ("table", lines("t,a,b,c / x,1,1, / y,,1,1 / z,1,,1"), 3, RING),
    ("clones", THREE_CLONES, 3, RING),
    ("convex", RING_GRAPH, 3, RING),
    ("doubly", RING_GRAPH, "3 3", RING),
    ("robinson", RING_OF_FOUR, 4, "1 2 row 11 / 2 3 row 2 / 3 1 row 8"),
]

# What is changed in a verdict, and the changed verdict, which is outside the grammar.
SPOILT = [
    ("a CR behind the columns", with_lines(columns="columns 3\r")),
    ("a second last line", text([*VERDICT, "end"])),
]

JUDGED = [
    *(judged(f"the right verdict {answer}", kind, content, yes(kind, *answer), "valid")
      for kind, content, *answer in RIGHT),
    *in_both(judged("a cycle of the rows", kind, content, no(kind, columns, 1, cycle), "valid")
             for kind, content, columns, cycle in WITHOUT),
    *in_both(judged(f"a verdict with {what}", "matrix", CHAIN, changed, "invalid text") for what, changed in SPOILT),
    *(check for kind, content, columns, body, *answers in TOO_FEW
      for check in in_each(lambda *given, kind=kind, content=content: judged(given[0], kind, content, *given[1:]),
                           f"too few orders: {body}", verdict(kind, columns, "answer yes", *body), *answers)),
]

WRITTEN = [
    lists("all, far fewer than are asked for", "matrix", b"101\n", "10000", 3, ALL_OF_A_PAIR, "no"),
    meets("a byte order mark and a leading zero", "03", MARK + b"[1 2 3]\n", b"(1 (2 3))\r\n",
          common(3, "3 2", "[1 2 3]", "1 2 3")),
    meets("one column, without a line feed", "1", b"1", b"1", common(1, "0 0", "1", "1")),
    generates("fewer leading zeros", ["000", "02", "03"], 2, 3, 6, 1, 0),
    judged_unit("check-unit of a triangle", unit_text(3, [2, 3, 4]), "valid", b"3\n1 2\n1 3\n2 3\n"),
    judged_unit("check-unit of two vertices without an edge", unit_text(2, [0, 4]), "valid", b"2\n"),
    judged_unit("check-unit of half as many vertices", unit_text(2, [0, 4]), "invalid vertices"),
]

OUTSIDE = [
    outside("a file too many", ["solve", "matrix", "file", "file"]),
    outside("meet: a number in letters", ["meet", "three", "file", "file"]),
    outside("gen: a sign before the rows", ["gen", "0", "1", "+1"]),
    outside("core: another kind and a file too many", ["core", "circular", "file", "file"]),
]

ROW_CASES = JUDGED + WRITTEN + OUTSIDE

# A kind, a file, and the columns and the side of its no; which cycle is printed is free.
UNSOLVED = [
    ("circular", b"0110\n0011\n0101\n", "4", 1),
    ("doubly", lines("4 3 / 1 1 / 2 1 / 1 2 / 3 2 / 1 3 / 4 3"), "3 4", 2),
    ("proper", lines("4 / 1 2 / 1 3 / 1 4"), "4", 1),
    ("robinson", RING_OF_FOUR, "4", 1),
]


def unsolved_problem(kind, content, columns, side):
    """What is wrong with the no of `solve` on a file, or with the checks of it in both versions, or None."""
    done = run(["solve", kind, "-"], content)
    head = says(f"no / side {side} / cycle ", kind, columns).removesuffix(b"\nend\n")
    told = difference("status", 1, done.returncode) or difference("errors", b"", done.stderr)
    if told or not done.stdout.startswith(head):
        return told or f"head of {done.stdout}"
    for version in (b"1", b"2"):
        checked = run_over(["check", kind], content, done.stdout.replace(b"pq-verdict 2", b"pq-verdict " + version, 1))
        if (checked.returncode, checked.stdout) != (0, b"valid\n"):
            return f"check in version {version}: {checked.returncode}, {checked.stdout}"
    return None


# Words and the files behind them, a kind, and a first file without an order, on which the reply is that of `solve`.
AS_SOLVE = [
    (["extend", "matrix"], "matrix", TRIANGLE, b"1\n"),
    (["list", "matrix", "-", "1"], "matrix", TRIANGLE),
    (["unit"], "proper", lines("4 / 1 2 / 1 3 / 1 4")),
]


def other_than_solve(words, kind, content, *further):
    """How what a command leaves differs from what `solve` leaves, or None."""
    done = run(words, content) if "-" in words else run_over(words, content, *further)
    solved = run(["solve", kind, "-"], content)
    return (difference("status", 1, done.returncode) or difference("output", solved.stdout, done.stdout)
            or difference("errors", b"", done.stderr))


def between_cycles(out, pieces):
    """The cycles between these pieces of a text, each as its lines; None where the text is another."""
    cycles = []
    for number, piece in enumerate(pieces):
        if not out.startswith(piece):
            return None
        out = out.removeprefix(piece)
        if number + 1 < len(pieces):
            left = out.decode().split("\n")
            cycles.append(cycle_lines(left))
            out = "\n".join(left).encode()
    return cycles if out == b"" and None not in cycles else None


# A name, words, the files behind them, the status, the pieces of the reply round its cycles, and the rows that each
# cycle is of.
CYCLES = [
    ("a session goes on after a refused row", ["extend", "matrix"], [CHAIN, b"1 3\n1 2 3\n"], 0,
     [lines("pq-extend 1 / kind matrix / columns 3 / 1 no"), lines("2 ok / tree [1 2 3] / order 1 2 3 / end")],
     [{1, 2}, {2, 3}, {1, 3}]),
    ("the seventeenth refused row has its line alone", ["extend", "matrix"], [CHAIN, b"\n" + b"1 3\n" * 17], 0,
     [lines("pq-extend 1 / kind matrix / columns 3 / 1 ok / 2 no"), *(lines(f"{number} no") for number in range(3, 18)),
      lines("18 no / tree [1 2 3] / order 1 2 3 / end")],
     [{1, 2}, {2, 3}, set(), {1, 3}]),
    ("two trees that share no order", ["meet", "3"], [b"[1 2 3]", b"[2 1 3]"], 1,
     [lines("pq-meet 1 / columns 3 / rows 3 3 / answer no"), b"end\n"],
     [{1, 2, 3}, {1, 2}, {2, 3}, {1, 2, 3}, {1, 2}, {1, 3}]),
    ("the rows to blame", ["core", "matrix"], [FOUR], 0,
     [core_text("core 3", *ORDERS).removesuffix(b"end\n"), b"end\n"], [{1, 2}, {2, 3}, {1, 3}]),
]


def told_problem(words, contents, status, pieces, rows):
    """What is wrong with a reply over three columns round its cycles, or with one of these, or None."""
    done = run_over(words, *contents)
    told = difference("status", status, done.returncode) or difference("errors", b"", done.stderr)
    cycles = between_cycles(done.stdout, pieces)
    if told or cycles is None:
        return told or f"output {done.stdout}"
    return next(filter(None, (printed_problem(3, rows, cycle) for cycle in cycles)), None)


def blamed_problem(head, line):
    """What is wrong with `check-core` on rows with the cycle that `core` prints on the first three, or None."""
    found = run(["core", "matrix", "-"], FOUR).stdout
    named = head.removesuffix(b"end\n") + found[found.index(b"cycle "):]
    done = run_over(["check-core", "matrix"], FOUR, named)
    return (difference("status", 0 if line == "valid" else 1, done.returncode)
            or difference("output", f"{line}\n".encode(), done.stdout))


# Rows to blame, and what `check-core` says of them: the rows before the fourth have no order together.
BLAMED = [
    (core_text("core 3", *ORDERS), "valid"),
    (core_text("core 4", *ORDERS, "row 4", "without 1 2 3"), "invalid order 4"),
]


def row_checks():
    """The checks of replies with cycles: names, what tells the problem, and what it is handed."""
    for kind, *given in UNSOLVED:
        yield f"{kind}: a no whose cycle is free", unsolved_problem, (kind, *given)
    for words, *given in AS_SOLVE:
        yield f"{words}: as solve", other_than_solve, (words, *given)
    for name, *given in CYCLES:
        yield name, told_problem, given
    for head, line in BLAMED:
        yield f"rows to blame: {line}", blamed_problem, (head, line)
