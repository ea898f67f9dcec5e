"""Verdicts that are changed in one place, instances of each kind that are refused, and the deepest tree, with what is wanted of each.

Every wanted text was written by hand from the rules of the formats (docs/FORMATS.md).
"""

from cases import CHAIN, case, count, in_both, judged, nested_tree

# The verdict on two rows that overlap, by its lines.
VERDICT = ["pq-verdict 2", "kind matrix", "columns 3", "answer yes", "tree [1 2 3]", "order 1 2 3", "end"]
COLUMNS = 2_048


def text(lines):
    """Lines as a text, each ended by LF."""
    return "".join(f"{line}\n" for line in lines).encode()


def with_lines(**lines):
    """The verdict with other lines in the place of those that begin with these words."""
    return text(lines.get(line.split()[0], line) for line in VERDICT)


def with_no(*lines):
    """The verdict with an answer of no and these lines."""
    return text([*VERDICT[:3], "answer no", *lines, "end"])


# What is changed, the changed verdict, and the line that `check` writes on it.
CHANGED = [
    ("a leading zero", with_lines(columns="columns 03"), "invalid text"),
    ("a column more", with_lines(columns="columns 4", tree="tree (1 2 3 4)", order="order 1 2 3 4"), "invalid columns"),
    ("a short order", with_lines(order="order 1 2"), "invalid order 1"),
    ("a column twice in the order", with_lines(order="order 1 2 2"), "invalid order 1"),
    ("a node of one child round the tree", with_lines(tree="tree ((1 2 3))"), "invalid text"),
    ("a tree that ends before the last column", with_lines(tree="tree [1 2] 3"), "invalid text"),
    ("more nodes than columns are opened", with_lines(tree="tree ((((1 2 3))))"), "invalid text"),
    ("the tree turned round", with_lines(tree="tree [3 2 1]"), "valid"),
    ("a CR before the first LF", text(VERDICT).replace(b"\n", b"\r\n", 1), "invalid text"),
    ("no LF after the last line", text(VERDICT)[:-1], "invalid text"),
    ("an interval", text([*VERDICT[:-1], "interval 1 0 0", "end"]), "invalid text"),
    ("side 2 of a matrix", with_no("side 2", "cycle 1", "1 2 flip"), "invalid text"),
    ("a cycle without lines", with_no("side 1", "cycle 0"), "invalid length 0"),
    ("a cycle of one line", with_no("side 1", "cycle 1", "1 2 flip"), "invalid length 1"),
    ("a pair of one column", with_no("side 1", "cycle 3", "1 1 flip", "1 2 flip", "2 1 flip"), "invalid pair 1"),
    ("a column past the last", with_no("side 1", "cycle 3", "1 2 flip", "2 1 flip", "1 4 flip"), "invalid pair 3"),
    ("the cycle of three rows", with_no("side 1", "cycle 3", "1 3 row 1", "3 2 row 3", "2 1 row 2"), "invalid join 2"),
    ("more lines than a number can be", with_no("side 1", "cycle 4294967296", "1 2 flip"), "invalid text"),
    ("the greatest number of lines, and one line", with_no("side 1", "cycle 4294967295", "1 2 flip"), "invalid text"),
    ("a version that there is not", text(["pq-verdict 3", *VERDICT[1:]]), "invalid text"),
]

# The kind, the file, and the code and the line of its refusal.
REFUSED = [
    ("rows", b"2 3\n", 2, 1),
    ("rows", b"2\n1 x\n", 2, 2),
    ("table", b"t\n", 1, 1),
    ("table", b"t,a\nx,-1\n", 2, 2),
    ("clones", b"[" * 200 + b"]" * 200, 9, 0),
    ("clones", b'{"probes":["a","a"],"clones":[]}', 5, 0),
    ("clones", b'{"probes":["a"],"clones":[{}]}', 10, 1),
    ("clones", b'{"probes":["a"],"clones":[{"probes":["b"]}]}', 4, 1),
    ("proper", b"2\n1 3\n", 4, 2),
    ("convex", b"0 3\n", 4, 1),
    ("doubly", b"%d 1\n" % (COLUMNS + 1), 7, 1),
    ("robinson", b"2\n1 0\n0 0\n", 6, 2),
    ("robinson", b"2\n0 1\n1 0\n0 0\n", 3, 4),
]

# The rows 1 to 2, 1 to 3 and so on, whose tree is nested as deep as a tree can be.
DEEP = f"{COLUMNS}\n".encode() + b"".join(f"{count(last)}\n".encode() for last in range(2, COLUMNS))
DEEP_VERDICT = text(["pq-verdict 2", "kind rows", f"columns {COLUMNS}", "answer yes", f"tree {nested_tree(COLUMNS)}", f"order {count(COLUMNS)}", "end"])

FORGED_CASES = [
    *in_both(judged(f"a verdict with {what}", CHAIN, verdict, line) for what, verdict, line in CHANGED),
    *(case(f"{kind} {content[:40]!r} is refused", ["solve", kind, "file"], 3, err=f"pq: refused 1 code {code} line {line}\n".encode(),
           files={"file": content}) for kind, content, code, line in REFUSED),
    case("a tree nested 2,047 deep", ["solve", "rows", "file"], 0, DEEP_VERDICT, files={"file": DEEP}),
    *in_both([case("a verdict with a tree nested 2,047 deep", ["check", "rows", "file", "verdict"], 0, b"valid\n",
                   files={"file": DEEP, "verdict": DEEP_VERDICT})]),
]
