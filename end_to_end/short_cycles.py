"""Cycles of drawn matrices without a valid order, as `solve`, `extend` and `core` print them: none has two flips, or more lines than half
the ordered pairs and one. And where three neighbours in a long chain show why a row is refused, the cycle of `solve` has few lines."""

import itertools
import random

from all_kinds import dense
from cycles import printed_problem
from program import run, run_over
from sessions import cycle_lines

GROUPS = 20
# The cycles of a group that each of the three commands prints.
CYCLES = 50
CHAINS = 10
CHAIN_COLUMNS = 200
# Three lines are enough. A cycle that leads through the whole chain may have as many as there are columns, and more.
MOST_CHAIN_LINES = 25


def drawn_rows(rng, columns, count):
    """So many rows, each of which has a column four times in ten."""
    return [{column for column in range(1, columns + 1) if rng.random() < 0.4} for _ in range(count)]


def drawn_runs(rng, columns, count):
    """So many rows that have a valid order: each is a run of the columns in one drawn order."""
    order = rng.sample(range(1, columns + 1), columns)
    ends = [sorted(rng.sample(range(columns + 1), 2)) for _ in range(count)]
    return [set(order[start:end]) for start, end in ends]


def solved_cycles(rng):
    """The columns, rows and printed cycles of drawn matrices without a valid order."""
    while True:
        columns = rng.randint(4, 12)
        rows = drawn_rows(rng, columns, rng.randint(4, 16))
        done = run(["solve", "matrix", "-"], dense(columns, rows))
        if done.returncode == 1:
            yield columns, rows, done.stdout.decode().split("\n")[6:-2]


def refused_cycles(rng):
    """The columns, rows and printed cycles of drawn rows that are refused."""
    while True:
        columns = rng.randint(4, 12)
        rows = drawn_runs(rng, columns, columns)
        further = drawn_rows(rng, columns, 16)
        done = run_over(["extend", "matrix"], dense(columns, rows), "".join(" ".join(map(str, row)) + "\n" for row in further).encode())
        text = done.stdout.decode().split("\n")[3:]
        for row in further:
            word = text.pop(0).split(" ")[1]
            lines = cycle_lines(text)
            if lines is not None:
                yield columns, rows + [row], lines
            if word == "ok":
                rows = rows + [row]


def blamed_cycles(rng):
    """The columns, rows and printed cycles of drawn matrices that have a core."""
    while True:
        columns = rng.randint(4, 12)
        rows = drawn_rows(rng, columns, rng.randint(4, 16))
        done = run(["core", "matrix", "-"], dense(columns, rows))
        if done.returncode == 0:
            lines = done.stdout.decode().split("\n")
            start = next(number for number, line in enumerate(lines) if line.startswith("cycle "))
            yield columns, rows, lines[start + 1:-2]


def group_problem(seed):
    """What is wrong with some cycle of a group, or None."""
    rng = random.Random(seed)
    drawn = [itertools.islice(cycles(rng), CYCLES) for cycles in (solved_cycles, refused_cycles, blamed_cycles)]
    for columns, rows, lines in itertools.chain(*drawn):
        problem = printed_problem(columns, rows, lines)
        if problem:
            return f"{columns} columns, rows {rows}: {problem}"
    return None


def chain_problem(seed):
    """What is wrong with the cycle of a chain, or None: each row has two neighbours of a drawn order, and the last one 21 columns in turn
    but the one in their middle."""
    rng = random.Random(seed)
    order = rng.sample(range(1, CHAIN_COLUMNS + 1), CHAIN_COLUMNS)
    rows = [set(pair) for pair in zip(order, order[1:])]
    rng.shuffle(rows)
    start = rng.randrange(CHAIN_COLUMNS - 20)
    rows.append(set(order[start:start + 21]) - {order[start + 10]})
    done = run(["solve", "matrix", "-"], dense(CHAIN_COLUMNS, rows))
    if done.returncode != 1:
        return f"status {done.returncode}"
    lines = done.stdout.decode().split("\n")[6:-2]
    if len(lines) > MOST_CHAIN_LINES:
        return f"{len(lines)} lines"
    return printed_problem(CHAIN_COLUMNS, rows, lines)


def checks():
    """Each group of drawn cycles and each chain by its name, with what tells its problem."""
    for seed in range(GROUPS):
        yield f"short cycles {seed}", group_problem, (seed,)
    for seed in range(CHAINS):
        yield f"short cycles of a chain {seed}", chain_problem, (seed,)
