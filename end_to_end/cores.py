"""The cases of `core` and `check-core`, and what both have to answer by plain programs.

Every wanted text was written by hand from the rules of the formats (docs/FORMATS.md), or is judged by the plain program `core_checker.py`.
"""

import itertools
import random
import re

from all_kinds import dense
from cases import CHAIN, case, outside
from core_checker import judged, parsed
from definitions import valid_orders
from program import run, run_over

FOUR = b"110\n011\n101\n111\n"


def core_text(*body, kind="matrix", columns=3):
    """The text of a core, by its lines after those of the kind and the columns."""
    return "".join(f"{line}\n" for line in ["pq-core 1", f"kind {kind}", f"columns {columns}", *body, "end"]).encode()


ORDERS = ["row 1", "without 1 3 2", "row 2", "without 2 1 3", "row 3", "without 1 2 3"]
CYCLE = ["cycle 3", "1 3 row 1", "3 2 row 2", "2 1 row 3"]


def checks(name, text, line, matrix=FOUR):
    """A check of a core, and the line that it writes."""
    return case(f"check-core: {name}", ["check-core", "matrix", "file", "core"], 0 if line == "valid" else 1, f"{line}\n".encode(),
                files={"file": matrix, "core": text})


CORE_CASES = [
    checks("row 4, without which the others have no order", core_text("core 4", *ORDERS, "row 4", "without 1 2 3", *CYCLE), "invalid order 4"),
    checks("no byte", b"", "invalid text"),
    checks("another kind", core_text("core 3", *ORDERS, *CYCLE, kind="rows"), "invalid kind"),
    checks("another number of columns", core_text("core 3", *ORDERS, *CYCLE, columns=4), "invalid columns"),
    checks("a row that the matrix lacks", core_text("core 3", *ORDERS[:4], "row 5", "without 1 2 3", *CYCLE), "invalid rows"),
    checks("rows that do not ascend", core_text("core 3", *ORDERS[:2], *ORDERS[4:], *ORDERS[2:4], *CYCLE), "invalid rows"),
    checks("no rows", core_text("core 0", *CYCLE), "invalid join 1"),
    checks("an even cycle", core_text("core 3", *ORDERS, "cycle 2", *CYCLE[1:3]), "invalid length 2"),
    case("core: a matrix that has an order", ["core", "matrix", "file"], 1,
         b"pq-verdict 2\nkind matrix\ncolumns 3\nanswer yes\ntree [1 2 3]\norder 1 2 3\nend\n", files={"file": CHAIN}),
    case("core: a file that is refused", ["core", "matrix", "file"], 3, err=b"pq: refused 1 code 2 line 1\n", files={"file": b"12\n"}),
    case("check-core: a file that is refused", ["check-core", "matrix", "file", "core"], 3, err=b"pq: refused 1 code 2 line 1\n",
         files={"file": b"12\n", "core": b""}),
    outside("core circular: outside", ["core", "circular", "file"]),
    outside("check-core clones: outside", ["check-core", "clones", "file", "core"]),
    outside("check-core: both on standard input", ["check-core", "matrix", "-", "-"]),
]


def minimal(columns, rows, core):
    """Whether the rows of these numbers are a core, by a plain search."""
    part = [rows[row - 1] for row in core]
    return not valid_orders(columns, part) and all(valid_orders(columns, part[:place] + part[place + 1:]) for place in range(len(part)))


def core_problem(columns, rows):
    """What is wrong with the answers of `core` and `check-core` on a matrix, or None."""
    content = dense(columns, rows)
    done = run(["core", "matrix", "-"], content)
    if valid_orders(columns, rows):
        solved = run(["solve", "matrix", "-"], content)
        return None if (done.returncode, done.stdout) == (1, solved.stdout) else f"status {done.returncode}, {done.stdout}"
    found = parsed(done.stdout)
    if done.returncode or not found:
        return f"status {done.returncode}, {done.stdout}"
    if not minimal(columns, rows, [row for row, _ in found[2]]):
        return f"no core: {done.stdout}"
    if judged("matrix", columns, rows, done.stdout) != "valid":
        return f"{judged('matrix', columns, rows, done.stdout)} by the plain program: {done.stdout}"
    checked = run_over(["check-core", "matrix"], content, done.stdout)
    return None if (checked.returncode, checked.stdout) == (0, b"valid\n") else f"status {checked.returncode}, {checked.stdout}"


def core_matrices():
    """The matrix of three rows that are a core, with one row more, and small ones drawn from a fixed seed; most of them have no order."""
    yield 3, [{1, 2}, {2, 3}, {1, 3}, {1, 2, 3}]
    for size in range(3, 7):
        ring = [{place, place % size + 1} for place in range(1, size + 1)]
        yield size, ring + [set(range(1, size + 1)), set(), {1}]
    rng = random.Random(20261128)
    for _ in range(400):
        columns = rng.randint(3, 6)
        yield columns, [{column for column in range(1, columns + 1) if rng.random() < 0.5} for _ in range(rng.randint(2, 12))]


def changed(text):
    """Texts that differ from this one in a number, a line or a byte."""
    for number in re.finditer(rb"[0-9]+", text):
        for other in [b"", b"0", b"01", b"4294967295", b"4294967296", str(int(number[0]) + 1).encode(), str(max(int(number[0]) - 1, 0)).encode()]:
            yield text[:number.start()] + other + text[number.end():]
    given = text.splitlines(keepends=True)
    for place in range(len(given)):
        yield b"".join(given[:place] + given[place + 1:])
        yield b"".join(given[:place + 1] + given[place:])
        if place:
            yield b"".join(given[:place - 1] + [given[place], given[place - 1]] + given[place + 1:])
    for place in range(len(text)):
        yield text[:place] + text[place + 1:]
        yield text[:place] + b" " + text[place:]
    yield text + b"\n"


def forged_problem(columns, rows, text):
    """What is wrong with what `check-core` says of a text on a matrix, or None."""
    done = run_over(["check-core", "matrix"], dense(columns, rows), text)
    wanted = judged("matrix", columns, rows, text)
    status = 0 if wanted == "valid" else 1
    return None if (done.returncode, done.stdout) == (status, f"{wanted}\n".encode()) else f"{text!r}: {done.returncode}, {done.stdout}, wanted {wanted}"


def forged_cores():
    """Texts that `core` wrote, each changed at one place, with the matrix of each."""
    for columns, rows in [(3, [{1, 2}, {2, 3}, {1, 3}, {1, 2, 3}]), (5, [{1}, {1, 2}, {2, 3}, {3, 4}, {4, 5}, {1, 5}, {2, 4}])]:
        written = run(["core", "matrix", "-"], dense(columns, rows)).stdout
        for text in itertools.chain([written], changed(written)):
            yield columns, rows, text


def drawn_order(rng, columns, rows):
    """An order that keeps the rows, most often, and else any order."""
    kept = sorted(valid_orders(columns, rows))
    return list(rng.choice(kept)) if kept and rng.random() < 0.9 else rng.sample(range(1, columns + 1), columns)


def drawn_texts():
    """Texts of rows with drawn orders, and the matrix of each, from a fixed seed: the rows and the cycle of a core that `core` found, with one row more
    or without one, and as they are."""
    rng = random.Random(20261129)
    for columns, rows in itertools.islice(core_matrices(), 5, 205):
        found = parsed(run(["core", "matrix", "-"], dense(columns, rows)).stdout)
        if not found:
            continue
        core, cycle = {row for row, _ in found[2]}, [f"{a} {b} " + ("flip" if row is None else f"row {row}") for a, b, row in found[3]]
        for named in (core, core | {rng.randint(1, len(rows))}, core - {rng.randint(1, len(rows))}):
            entries = []
            for row in sorted(named):
                order = drawn_order(rng, columns, [rows[other - 1] for other in named - {row}])
                entries += [f"row {row}", "without " + " ".join(map(str, order))]
            yield columns, rows, core_text(f"core {len(named)}", *entries, f"cycle {len(cycle)}", *cycle, columns=columns)


def core_problems():
    """What the commands answer on matrices and on texts of cores: names and problems."""
    for columns, rows in core_matrices():
        yield f"core {columns} {rows}", core_problem, (columns, rows)
    for number, (columns, rows, text) in enumerate(forged_cores()):
        yield f"check-core, text {number}", forged_problem, (columns, rows, text)
    for number, (columns, rows, text) in enumerate(drawn_texts()):
        yield f"check-core, drawn text {number}", forged_problem, (columns, rows, text)
