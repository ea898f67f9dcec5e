"""The cases of `extend` and `gen`, and what both have to answer by a plain program.

Every wanted text was written by hand from the rules of the formats (docs/FORMATS.md), or is made by the plain rules below.
"""

import itertools
import random

from all_kinds import dense
from cases import CHAIN, LIMIT, TRIANGLE, case, outside
from cycles import printed_problem
from definitions import valid_orders
from kinds import MARK, lines
from program import run, run_over
from trees import lines_problem, nodes, parsed

EXPLAINED = 16


def session(kind, columns, *body):
    """The text of a session, by its lines after those of the kind and the columns."""
    return "".join(f"{line}\n" for line in ["pq-extend 1", f"kind {kind}", f"columns {columns}", *body, "end"]).encode()


def extends(name, kind, base, rows, *body, columns=3):
    """A session on a base that has a valid order."""
    return case(f"extend {kind}: {name}", ["extend", kind, "file", "rows"], 0, session(kind, columns, *body), files={"file": base, "rows": rows})


def refused(name, kind, base, rows, which, code, line):
    """A session that is refused, by the number of its file, the code and the line."""
    return case(f"extend {kind}: {name}", ["extend", kind, "file", "rows"], 3, err=f"pq: refused {which} code {code} line {line}\n".encode(),
                files={"file": base, "rows": rows})


CHAIN_TREE = ["tree [1 2 3]", "order 1 2 3"]
TABLE = b"t,a,b,c\nx,1,1,\ny,,1,1\n"

EXTEND = [
    extends("no further row", "matrix", CHAIN, b"", *CHAIN_TREE),
    extends("a row that is taken", "matrix", CHAIN, b"1 2 3\n", "1 ok", *CHAIN_TREE),
    extends("empty rows", "matrix", CHAIN, b"\n \t\n\r\n", "1 ok", "2 ok", "3 ok", *CHAIN_TREE),
    extends("columns that fall and that come twice, CR LF, tabs, a byte order mark and no LF at the end", "matrix", CHAIN,
            MARK + b"3\t2 2\r\n003  2 1", "1 ok", "2 ok", *CHAIN_TREE),
    extends("a base without rows that bind", "rows", b"3\n", b"1 3\n", "1 ok", "tree ((1 3) 2)", "order 1 3 2"),
    extends("a row that turns the tree", "rows", lines("3 / 1 2"), b"1 3\n", "1 ok", "tree [2 1 3]", "order 2 1 3"),
    extends("a table", "table", TABLE, b"3\n2 3\n", "1 ok", "2 ok", *CHAIN_TREE),
    case("extend matrix: the rows on standard input", ["extend", "matrix", "file", "-"], 0, session("matrix", 3, "1 ok", *CHAIN_TREE),
         input=b"2\n", files={"file": CHAIN}),
    case("extend matrix: the base on standard input", ["extend", "matrix", "-", "rows"], 0, session("matrix", 3, "1 ok", *CHAIN_TREE),
         input=CHAIN, files={"rows": b"2\n"}),
    refused("a column past the last", "matrix", CHAIN, b"1 4\n", 2, 4, 1),
    refused("a column 0", "matrix", CHAIN, b"1\n0\n", 2, 4, 2),
    refused("a word that is no number", "matrix", CHAIN, b"1\n\n2 x\n", 2, 2, 3),
    refused("a number of columns before the rows, as in a file of its own", "matrix", lines("1"), b"3\n", 2, 4, 1),
    refused("the 131,073rd further row", "matrix", b"1\n", b"\n" * 131_073, 2, 7, 131_073),
    refused("rows past the limit of bytes", "matrix", b"1\n", b" " * (LIMIT + 1), 2, 7, 0),
    refused("a base that is refused", "matrix", b"12\n", b"1 4\n", 1, 2, 1),
    refused("a base of named columns that is refused", "rows", b"2\n3\n", b"1\n", 1, 4, 2),
    refused("rows that are refused after a base that has no order", "matrix", TRIANGLE, b"1 4\n", 2, 4, 1),
    case("extend matrix: no base", ["extend", "matrix", "missing", "rows"], 4, err=b"pq: read fault\n", files={"rows": b"1\n"}),
    case("extend matrix: no further rows", ["extend", "matrix", "file", "missing"], 4, err=b"pq: read fault\n", files={"file": CHAIN}),
    case("extend matrix: a base that is refused, and no further rows", ["extend", "matrix", "file", "missing"], 3,
         err=b"pq: refused 1 code 1 line 0\n", files={"file": b""}),
    extends("131,072 further rows", "matrix", b"1\n", b"1\n" * 131_072, *(f"{i} ok" for i in range(1, 131_073)), "tree 1", "order 1", columns=1),
]


def summary(columns, rows, ones, p, q):
    """The text that `gen` writes."""
    return f"pq-gen 1\ncolumns {columns}\nrows {rows}\nones {ones}\nanswer yes\np {p}\nq {q}\nend\n".encode()


def generates(name, words, *counts):
    return case(f"gen: {name}", ["gen", *words], 0, summary(*counts))


GEN = [
    generates("two columns and three full rows", ["0", "2", "3"], 2, 3, 6, 1, 0),
    generates("leading zeros", ["000", "02", "0003"], 2, 3, 6, 1, 0),
    generates("one column without rows", ["0", "1", "0"], 1, 0, 0, 0, 0),
    generates("two columns without rows", ["5", "2", "0"], 2, 0, 0, 1, 0),
    generates("2,048 columns without rows", ["0", "2048", "0"], 2048, 0, 0, 1, 0),
    generates("the greatest number", ["18446744073709551615", "1", "1"], 1, 1, 1, 0, 0),
    generates("131,072 rows of one column", ["7", "1", "131072"], 1, 131_072, 131_072, 0, 0),
]

OUTSIDE = [
    outside("extend: clones", ["extend", "clones", "a", "b"]),
    outside("extend: circular", ["extend", "circular", "a", "b"]),
    outside("extend: no rows", ["extend", "matrix", "a"]),
    outside("extend: a word too many", ["extend", "matrix", "a", "b", "c"]),
    outside("extend: standard input twice", ["extend", "matrix", "-", "-"]),
    outside("gen: no column", ["gen", "0", "0", "1"]),
    outside("gen: 2,049 columns", ["gen", "0", "2049", "1"]),
    outside("gen: 131,073 rows", ["gen", "0", "1", "131073"]),
    outside("gen: a number past 64 bits", ["gen", "18446744073709551616", "1", "1"]),
    outside("gen: columns of 30 digits", ["gen", "0", "1" * 30, "1"]),
    outside("gen: a word that is no number", ["gen", "0", "x", "1"]),
    outside("gen: a sign", ["gen", "-1", "1", "1"]),
    outside("gen: an empty word", ["gen", "", "1", "1"]),
    outside("gen: a blank before a number", ["gen", " 1", "1", "1"]),
    outside("gen: a word is missing", ["gen", "0", "1"]),
    outside("gen: a word too many", ["gen", "0", "1", "1", "1"]),
]

SESSION_CASES = EXTEND + GEN + OUTSIDE


class Draws:
    """The linear congruential generator of the definition."""

    def __init__(self, seed):
        self.state = seed

    def below(self, bound):
        """A number below the bound."""
        self.state = (6364136223846793005 * self.state + 1442695040888963407) % 2**64
        return (self.state >> 33) % bound


def generated(seed, columns, rows):
    """The rows of the generated matrix, each as a set."""
    draws = Draws(seed)
    hidden = list(range(1, columns + 1))
    for i in range(columns, 1, -1):
        j = 1 + draws.below(i)
        hidden[i - 1], hidden[j - 1] = hidden[j - 1], hidden[i - 1]
    found = []
    for _ in range(rows):
        p, q = 1 + draws.below(columns), 1 + draws.below(columns)
        found.append(set(hidden[min(p, q) - 1:max(p, q)]))
    return found


def gen_problem(seed, columns, rows):
    """What is wrong with the summary of a generated matrix, or with that of a second call, or None. The tree is that of `solve` on its rows."""
    made = generated(seed, columns, rows)
    text = "".join(f"{line}\n" for line in [columns, *(" ".join(map(str, row)) for row in made)]).encode()
    solved = run(["solve", "rows", "-"], text).stdout.decode().split("\n")
    tree = parsed(solved[4].removeprefix("tree "))
    wanted = summary(columns, rows, sum(map(len, made)), nodes(tree, "("), nodes(tree, "["))
    for _ in range(2):
        done = run(["gen", str(seed), str(columns), str(rows)])
        if (done.returncode, done.stdout, done.stderr) != (0, wanted, b""):
            return f"{done.stdout}, wanted {wanted}"
    return None


def cycle_lines(text):
    """Takes the lines of a cycle from the front, or None where there is none."""
    if not text or not text[0].startswith("cycle "):
        return None
    count = int(text.pop(0).split(" ")[1])
    return [text.pop(0) for _ in range(count)]


def row_problem(columns, rows, row, number, refusals, text):
    """What is wrong with the lines of a further row, or None."""
    word = "ok" if valid_orders(columns, rows + [row]) else "no"
    if not text or text.pop(0) != f"{number} {word}":
        return f"row {number} is not {word}"
    found = cycle_lines(text)
    if (found is not None) != (word == "no" and refusals < EXPLAINED):
        return f"row {number}: cycle {found}"
    return printed_problem(columns, rows + [row], found) if found is not None else None


def session_problem(columns, base, further, status, out):
    """What is wrong with what `extend` wrote for a base that has a valid order, or None."""
    text = out.decode().split("\n")
    if status != 0 or text[:3] != ["pq-extend 1", "kind matrix", f"columns {columns}"] or text[-2:] != ["end", ""]:
        return f"status {status}, head or end of {text}"
    text = text[3:-2]
    rows, refusals = list(base), 0
    for number, row in enumerate(further, 1):
        problem = row_problem(columns, rows, row, number, refusals, text)
        if problem:
            return problem
        if valid_orders(columns, rows + [row]):
            rows.append(row)
        else:
            refusals += 1
    return f"{text}" if len(text) != 2 else lines_problem(*text, lambda found: found == valid_orders(columns, rows))


def extend_problem(columns, base, further):
    """What is wrong with a session, or None."""
    content = dense(columns, base)
    done = run_over(["extend", "matrix"], content, "".join(" ".join(map(str, row)) + "\n" for row in further).encode())
    if valid_orders(columns, base):
        return session_problem(columns, base, further, done.returncode, done.stdout)
    solved = run(["solve", "matrix", "-"], content)
    return None if (done.returncode, done.stdout) == (1, solved.stdout) else f"status {done.returncode}, {done.stdout}, wanted {solved.stdout}"


def sessions():
    """Sessions drawn from a fixed seed: two that refuse more than sixteen rows, and many short ones."""
    rng = random.Random(20261127)
    pairs = list(itertools.combinations(range(1, 6), 2))
    yield 5, [{1, 2}, {2, 3}, {3, 4}, {4, 5}], [set(pair) for pair in pairs + pairs + pairs]
    yield 5, [{1, 2}, {2, 3}], [set(pair) for pair in pairs[::-1] * 4]
    for _ in range(300):
        columns = rng.randint(1, 5)
        rows = [{column for column in range(1, columns + 1) if rng.random() < 0.5} for _ in range(rng.randint(1, 8))]
        cut = rng.randint(1, min(len(rows), 3))
        yield columns, rows[:cut], rows[cut:]


def drawn():
    """Numbers, columns and rows of generated matrices."""
    rng = random.Random(20261127)
    for seed in [0, 7, 2**64 - 1]:
        yield seed, 10, 10
    yield 7, 100, 500
    for _ in range(100):
        yield rng.randrange(2**64), rng.randint(1, 30), rng.randint(0, 30)
