"""The cases of the end-to-end checks: words, files, standard input, and the output, line of errors and status that are wanted.

Every wanted text was written by hand from the rules of the formats (docs/FORMATS.md).
"""

LIMIT = 16_777_216
VERDICT_LIMIT = 134_217_728

# Two rows that overlap, and three of which each two overlap.
CHAIN = b"110\n011\n"
TRIANGLE = b"110\n011\n101\n"


def case(name, words, status, out=b"", err=b"", **more):
    return {"name": name, "words": words, "status": status, "out": out, "err": err, **more}


def yes(columns, tree, order):
    """The verdict on a matrix that has a valid order."""
    return (f"pq-verdict 2\nkind matrix\ncolumns {columns}\nanswer yes\n"
            f"tree {tree}\norder {order}\nend\n").encode()


def answers(name, content, status, out):
    return case(name, ["solve", "matrix", "file"], status, out, files={"file": content})


def refused(name, content, code, line):
    return case(name, ["solve", "matrix", "file"], 3, err=f"pq: refused 1 code {code} line {line}\n".encode(),
                files={"file": content})


def says(answer, kind="matrix", columns="3", version="2"):
    """The text of a verdict with this answer, whose lines are apart by ` / `."""
    lines = f"pq-verdict {version} / kind {kind} / columns {columns} / answer {answer} / end / "
    return lines.replace(" / ", "\n").encode()


def judged(name, matrix, verdict, line):
    """A check of a verdict, and the line that it writes."""
    return case(name, ["check", "matrix", "file", "verdict"], 0 if line == "valid" else 1, f"{line}\n".encode(),
                files={"file": matrix, "verdict": verdict})


def claims(name, answer, line, matrix=TRIANGLE, **head):
    """A check of a verdict with this answer."""
    return judged(name, matrix, says(answer, **head), line)


def in_version_1(verdict):
    """A verdict of version 2 with the header of version 1. What has another header stays."""
    return verdict.replace(b"pq-verdict 2", b"pq-verdict 1", 1)


def in_both(cases):
    """The cases, and each with a verdict of version 2 again: with the header of version 1, and with the same answer."""
    for one in cases:
        yield one
        files = one.get("files", {})
        old = in_version_1(files.get("verdict", b""))
        if old != files.get("verdict", b""):
            yield {**one, "name": f"{one['name']}, in version 1", "files": {**files, "verdict": old}}


def in_each(judge, name, verdict, line, line_of_1):
    """Two checks of a verdict, of version 2 and with the header of version 1, and the line that each writes."""
    return [judge(name, verdict, line), judge(f"{name}, in version 1", in_version_1(verdict), line_of_1)]


def cycle(*lines):
    """An answer of no with a cycle of these lines."""
    return " / ".join(["no / side 1", f"cycle {len(lines)}", *lines])


def outside(name, words):
    return case(name, words, 2, err=b"pq: words\n")


def nested_rows(columns):
    """The rows 1 to 2, 1 to 3 and so on, up to 1 to columns - 1."""
    return b"".join(b"1" * last + b"0" * (columns - last) + b"\n" for last in range(2, columns))


def nested_tree(columns):
    """The tree of nested rows, a P-node of two children at each level."""
    return "(" * (columns - 1) + "1 2)" + "".join(f" {column})" for column in range(3, columns + 1))


def count(last):
    """The numbers from 1 to the last, with a space between each two."""
    return " ".join(str(number) for number in range(1, last + 1))


WORDS = [
    outside("no words", []),
    outside("one word", ["solve"]),
    outside("a word is missing", ["solve", "matrix"]),
    outside("a word too many", ["solve", "matrix", "-", "-"]),
    outside("another command", ["solved", "matrix", "-"]),
    outside("another kind", ["solve", "matrices", "-"]),
    outside("capitals", ["SOLVE", "matrix", "-"]),
    outside("an empty word in place of the kind", ["solve", "", "-"]),
    outside("a word that is no UTF-8", ["solve", "matrix", b"\xff"]),
    outside("a kind that is no UTF-8", ["solve", b"\xc3", "-"]),
    outside("no verdict to check", ["check", "matrix", "-"]),
    outside("a word too many after check", ["check", "matrix", "file", "verdict", "verdict"]),
    outside("another kind to check", ["check", "matrices", "file", "verdict"]),
    outside("standard input twice", ["check", "matrix", "-", "-"]),
]

ANSWERS = [
    answers("one column", b"1\n", 0, yes(1, "1", "1")),
    answers("one column that no row has", b"0\n", 0, yes(1, "1", "1")),
    answers("a full and an empty row", b"00\n11\n", 0, yes(2, "(1 2)", "1 2")),
    answers("nested rows", b"1100\n1110\n1100\n1110\n", 0, yes(4, "(((1 2) 3) 4)", "1 2 3 4")),
    answers("disjoint rows", b"10100\n01010\n", 0, yes(5, "((1 3) (2 4) 5)", "1 3 2 4 5")),
    answers("two rows that overlap", b"110\n011\n", 0, yes(3, "[1 2 3]", "1 2 3")),
    answers("the middle column comes first", b"101\n110\n", 0, yes(3, "[2 1 3]", "2 1 3")),
    answers("a chain beside a column", b"11000\n00110\n01100\n", 0, yes(5, "([1 2 3 4] 5)", "1 2 3 4 5")),
    answers("blanks and tabs between the digits", b" 1\t1 0 \n0 1 1\n", 0, yes(3, "[1 2 3]", "1 2 3")),
    answers("lines that end with CR LF", b"110\r\n011\r\n", 0, yes(3, "[1 2 3]", "1 2 3")),
    answers("no LF at the end", b"110\n011", 0, yes(3, "[1 2 3]", "1 2 3")),
    answers("a lone CR at the end", b"110\n011\r", 0, yes(3, "[1 2 3]", "1 2 3")),
    answers("a byte order mark", b"\xef\xbb\xbf110\n011\n", 0, yes(3, "[1 2 3]", "1 2 3")),
    answers("blank lines", b"\n\n110\n \t\n011\n\n", 0, yes(3, "[1 2 3]", "1 2 3")),
    answers("2,048 columns", b"0" * 2048 + b"\n", 0, yes(2048, f"({count(2048)})", count(2048))),
    answers("a tree nested 2,047 deep", nested_rows(2048), 0, yes(2048, nested_tree(2048), count(2048))),
    answers("131,072 rows", b"1\n" * 131_072, 0, yes(1, "1", "1")),
    answers("a file of the greatest length", b"1\n" + b" " * (LIMIT - 2), 0, yes(1, "1", "1")),
    case("standard input", ["solve", "matrix", "-"], 0, yes(3, "[2 1 3]", "2 1 3"), input=b"101\n110\n"),
    *(case(f"a file named {name!r}", ["solve", "matrix", name], 0, yes(2, "(1 2)", "1 2"), files={name: b"11\n"}, input=b"1\n")
      for name in ["-x", "--", "--help", " f", "f ", "\tf", "f\n", "a\nb", "- ", " -", "./-", "*", "f.txt\r"]),
    case("a name with blanks and other letters", ["solve", "matrix", "r\u00e4nge 1.txt"], 0, yes(2, "(1 2)", "1 2"),
         files={"r\u00e4nge 1.txt": b"11\n"}),
]

REFUSED = [
    refused("a short row", b"110\n01\n", 3, 2),
    refused("a long row", b"110\n0110\n", 3, 2),
    refused("an empty file", b"", 1, 0),
    refused("a blank file", b" \n\t\r\n\n", 1, 0),
    refused("a byte order mark alone", b"\xef\xbb\xbf", 1, 0),
    refused("a second byte order mark", b"\xef\xbb\xbf\xef\xbb\xbf1\n", 2, 1),
    refused("a digit that is neither 0 nor 1", b"12\n", 2, 1),
    refused("a CR in the middle", b"11\n1\r1\n", 2, 2),
    refused("two CR at the end", b"11\n11\r\r\n", 2, 2),
    refused("a byte outside the grammar before a row of another length", b"11\n\n1x1\n1\n", 2, 3),
    refused("a row of another length before a byte outside the grammar", b"11\n1\n1x\n", 3, 2),
    refused("a byte outside the grammar in a row of another length", b"11\n1x1\n", 2, 2),
    refused("a zero byte", b"1\x001\n", 2, 1),
    refused("2,049 digits", b"0" * 2049 + b"\n", 7, 1),
    refused("2,049 digits and a byte outside the grammar", b"0" * 2049 + b"x\n", 2, 1),
    refused("the 131,073rd row", b"1\n" * 131_073, 7, 131_073),
    refused("the 131,073rd row is also malformed", b"1\n" * 131_072 + b"\nx\n", 7, 131_074),
    refused("a file one byte past the limit", b"1\n" + b" " * (LIMIT - 1), 7, 0),
    refused("a file past the limit is judged by its length first", b"x" * (LIMIT + 1), 7, 0),
]

FILES = [
    case("a missing file", ["solve", "matrix", "file"], 4, err=b"pq: read fault\n"),
    *(case(f"no file named {name!r}, but one of a name beside it", ["solve", "matrix", name], 4, err=b"pq: read fault\n",
           files={"f": b"11\n"}, input=b"11\n") for name in [" f", "f ", "f\n", "--", "-f", " -", "- "]),
    case("an empty name", ["solve", "matrix", ""], 4, err=b"pq: read fault\n"),
    case("a directory", ["solve", "matrix", "folder"], 4, err=b"pq: read fault\n", folders=["folder"]),
    case("a file without leave to read", ["solve", "matrix", "file"], 4, err=b"pq: read fault\n",
         files={"file": b"11\n"}, unreadable=["file"]),
]

VALID = [
    claims("an odd cycle", cycle("1 3 row 1", "3 2 row 3", "2 1 row 2"), "valid"),
    claims("an odd cycle of nine lines",
           cycle("2 3 row 4", "3 6 row 2", "6 4 row 3", "4 5 row 4", "5 2 row 3", "2 6 row 1", "6 1 row 4", "1 4 row 1",
                 "4 2 row 2"), "valid", matrix=b"110000\n001100\n000011\n010101\n", columns="6"),
    claims("a tree and its order", "yes / tree [1 2 3] / order 1 2 3", "valid", CHAIN),
    claims("the tree turned round, and the order the other way", "yes / tree [3 2 1] / order 3 2 1", "valid", CHAIN),
    claims("a single column", "yes / tree 1 / order 1", "valid", b"1\n", columns="1"),
]

# A matrix, the tree and the order of a yes, and the line of a check in version 2 and in version 1.
COMPLETE = [
    ("a tree of two orders of six", b"000\n", "[1 2 3]", "1 2 3", "invalid complete 1", "valid"),
    ("a tree of all six orders", b"000\n", "(1 2 3)", "1 2 3", "valid", "valid"),
    ("a tree of two orders of four", b"110\n", "[1 2 3]", "1 2 3", "invalid complete 1", "valid"),
    ("a tree of all four orders", b"110\n", "(3 (2 1))", "1 2 3", "valid", "valid"),
    ("a tree of two orders that are not the printed one", b"000\n", "[1 3 2]", "1 2 3", "invalid complete 1", "valid"),
    ("a tree of two orders that part a row", b"101\n", "[1 2 3]", "1 3 2", "invalid tree 1 1", "invalid tree 1 1"),
    ("a tree of two orders, and a printed one that parts a row", b"110\n", "[1 2 3]", "1 3 2", "invalid order 1", "invalid order 1"),
    ("a node too many", b"000\n", "((1 2) 3)", "1 2 3", "invalid complete 1", "valid"),
    ("a column too many in a node in square brackets", b"11000\n00110\n01100\n", "[1 2 3 4 5]", "1 2 3 4 5", "invalid complete 1", "valid"),
    ("a node in square brackets beside a column", b"11000\n00110\n01100\n", "([1 2 3 4] 5)", "1 2 3 4 5", "valid", "valid"),
    ("two nodes in square brackets in place of one", b"11000\n01100\n00110\n00011\n", "[[1 2 3] 4 5]", "1 2 3 4 5", "invalid tree 1 3", "invalid tree 1 3"),
]

VERSIONS = [check for name, matrix, tree, order, *answers_of in COMPLETE
            for check in in_each(lambda name, verdict, line, matrix=matrix: judged(name, matrix, verdict, line),
                                 name, says(f"yes / tree {tree} / order {order}", columns=str(len(matrix.split()[0]))), *answers_of)]

# Each verdict fails one test of those that are made on a matrix, and passes those before it.
FORGED = [
    judged("the greatest verdict that is read", CHAIN, b"x" * VERDICT_LIMIT, "invalid text"),
    judged("a verdict one byte past the limit", CHAIN, b"x" * (VERDICT_LIMIT + 1), "invalid too-long"),
    judged("an empty verdict", TRIANGLE, b"", "invalid text"),
    judged("a byte after the last line", TRIANGLE, says(cycle("1 3 row 1", "3 2 row 3", "2 1 row 2")) + b"\n", "invalid text"),
    judged("a last line without its LF", CHAIN, says("yes / tree [1 2 3] / order 1 2 3")[:-1], "invalid text"),
    judged("lines that end with CR LF", CHAIN, says("yes / tree [1 2 3] / order 1 2 3").replace(b"\n", b"\r\n"), "invalid text"),
    judged("a byte order mark", CHAIN, b"\xef\xbb\xbf" + says("yes / tree [1 2 3] / order 1 2 3"), "invalid text"),
    *(claims(f"version {version!r}", "yes / tree [1 2 3] / order 1 2 3", "invalid text", CHAIN, version=version)
      for version in ["0", "3", "02", "12", "", "2 ", "2.0", "two"]),
    claims("a column twice in the tree", "yes / tree [1 2 2] / order 1 2 3", "invalid text", CHAIN),
    claims("a column that the tree lacks", "yes / tree (1 2) / order 1 2 3", "invalid text", CHAIN),
    claims("a node in square brackets with two children", "yes / tree [1 (2 3)] / order 1 2 3", "invalid text", CHAIN),
    claims("a node with one child", "yes / tree [1 2 (3)] / order 1 2 3", "invalid text", CHAIN),
    claims("a leading zero", "yes / tree [1 2 3] / order 01 2 3", "invalid text", CHAIN),
    claims("two spaces", "yes / tree [1 2 3] / order 1  2 3", "invalid text", CHAIN),
    claims("no order", "yes / tree [1 2 3]", "invalid text", CHAIN),
    claims("a number past 32 bits", "yes / tree [1 2 3] / order 4294967296 2 3", "invalid text", CHAIN),
    claims("no columns", "yes / tree [1 2 3] / order 1 2 3", "invalid text", CHAIN, columns="0"),
    claims("2,049 columns", "yes / tree [1 2 3] / order 1 2 3", "invalid text", CHAIN, columns="2049"),
    claims("side 2 of a matrix", "no / side 2 / cycle 0", "invalid text"),
    claims("fewer lines than are counted", "no / side 1 / cycle 3 / 1 3 row 1 / 3 2 row 3", "invalid text"),
    claims("another kind", "yes / tree [1 2 3] / order 1 2 3", "invalid kind", CHAIN, kind="rows"),
    claims("other columns", "yes / tree (1 2 3 4) / order 1 2 3 4", "invalid columns", CHAIN, columns="4"),
    claims("an order that parts a row", "yes / tree [1 2 3] / order 1 3 2", "invalid order 1", CHAIN),
    claims("an order with a column twice", "yes / tree [1 2 3] / order 1 2 2", "invalid order 1", CHAIN),
    claims("a short order", "yes / tree [1 2 3] / order 1 2", "invalid order 1", CHAIN),
    claims("an order with a 0", "yes / tree [1 2 3] / order 0 1 2", "invalid order 1", CHAIN),
    claims("an order with the greatest number", "yes / tree [1 2 3] / order 4294967295 2 3", "invalid order 1", CHAIN),
    claims("yes where there is no valid order", "yes / tree [1 2 3] / order 1 2 3", "invalid order 1"),
    claims("a tree whose leaves alone keep the rows", "yes / tree (1 2 3) / order 1 2 3", "invalid tree 1 1", CHAIN),
    claims("a tree that keeps the first row alone", "yes / tree ((1 2) 3) / order 1 2 3", "invalid tree 1 2", CHAIN),
    claims("a cycle without lines", cycle(), "invalid length 0"),
    claims("a cycle of one line", cycle("1 3 flip"), "invalid length 1"),
    claims("a cycle of two lines", cycle("1 3 row 1", "3 2 row 3"), "invalid length 2"),
    claims("a cycle of four lines", cycle("1 3 flip", "3 1 flip", "1 2 flip", "2 1 flip"), "invalid length 4"),
    claims("a column past the last", cycle("1 3 row 1", "3 4 row 3", "4 1 row 2"), "invalid pair 2"),
    claims("a column 0", cycle("0 3 row 1", "3 2 row 3", "2 1 row 2"), "invalid pair 1"),
    claims("a pair of one column", cycle("1 3 row 1", "3 2 row 3", "2 2 row 2"), "invalid pair 3"),
    claims("two flips, more than `solve` writes", cycle("1 2 row 3", "2 3 flip", "3 2 row 1", "1 3 flip", "3 1 row 2"), "valid"),
    claims("a pair that comes twice", cycle("1 3 flip", "3 1 flip", "1 3 row 1", "3 2 row 3", "2 1 row 2"), "invalid repeat 3"),
    claims("a row past the last", cycle("1 3 row 1", "3 2 row 3", "2 1 row 9"), "invalid join 3"),
    claims("a row 0", cycle("1 3 row 0", "3 2 row 3", "2 1 row 2"), "invalid join 1"),
    claims("a row that does not join the pairs", cycle("1 3 row 1", "3 2 row 1", "2 1 row 2"), "invalid join 2"),
    claims("a flip that does not join the pairs", cycle("1 3 flip", "3 2 row 3", "2 1 row 2"), "invalid join 1"),
    claims("a last line that does not lead to the first", cycle("1 3 row 1", "3 2 flip", "2 3 flip"), "invalid join 3"),
    claims("no where there is a valid order", cycle("1 3 row 1", "3 2 row 3", "2 1 row 2"), "invalid join 2", CHAIN),
]

CHECK_FILES = [
    case("a verdict from standard input", ["check", "matrix", "file", "-"], 0, b"valid\n", files={"file": CHAIN},
         input=says("yes / tree [1 2 3] / order 1 2 3")),
    case("a matrix from standard input", ["check", "matrix", "-", "verdict"], 0, b"valid\n", input=CHAIN,
         files={"verdict": says("yes / tree [1 2 3] / order 1 2 3")}),
    case("a missing verdict", ["check", "matrix", "file", "verdict"], 4, err=b"pq: read fault\n", files={"file": CHAIN}),
    case("a verdict that is a directory", ["check", "matrix", "file", "folder"], 4, err=b"pq: read fault\n",
         files={"file": CHAIN}, folders=["folder"]),
    case("a matrix that is missing", ["check", "matrix", "file", "verdict"], 4, err=b"pq: read fault\n",
         files={"verdict": b""}),
    case("the matrix is refused before the verdict is read", ["check", "matrix", "file", "verdict"], 3,
         err=b"pq: refused 1 code 2 line 1\n", files={"file": b"12\n"}),
]

# Matrices with no valid order: the number of columns, and the rows. Which odd cycle is printed is free.
REFUTED = [
    ("three columns of which each two shall meet", 3, [{1, 2}, {2, 3}, {1, 3}]),
    ("three pairs and a row across", 6, [{1, 2}, {3, 4}, {5, 6}, {2, 4, 6}]),
    ("four columns round a circle", 4, [{1, 2}, {2, 3}, {3, 4}, {1, 4}]),
    ("a row across two nested ones", 5, [{1, 2, 3}, {1, 2}, {2, 3}, {1, 3, 4}, {5}]),
]

CASES = WORDS + ANSWERS + REFUSED + FILES + [*in_both(VALID + FORGED + CHECK_FILES), *VERSIONS]
