#!/usr/bin/env python3
"""Compares `solve` with the definitions of the kinds on every small instance, by trying all orders.

Usage: end_to_end/all_kinds.py [COLUMNS]     after `rt ci` or `./pq`, which leave the program in crates/pq/out/pq

The instances are every matrix of at most COLUMNS columns (default 4; 5 takes some minutes) and 4 rows for `matrix`, every matrix of at most 4
columns and 3 rows for `circular`, every bipartite graph of at most 3 and 4 vertices for `convex` and `doubly`, every graph of at most 5
vertices for `proper`, and every table of at most 4 items with distances 0 to 2 for `robinson`. The rows of a matrix are taken as a set. On yes
the frontiers of each printed tree are exactly the textbook orders of its side, of circular ones up to rotation; on no the printed side is the
least that has none, and the cycle is an odd cycle of its derived rows. What is written is then found valid by `check`.
The last line is `N passed, N failed`.
"""

import concurrent.futures
import itertools
import os
import sys

import definitions
from cycles import printed_problem
from program import HEADER, run, run_over
from trees import lines_problem

MOST_COLUMNS = 4
MOST_ROWS = 4


class Instance:
    """An instance: its kind, the bytes of its file, its sides, and what its kind adds to a yes."""

    def __init__(self, kind, content, sides, added=lambda order: []):
        self.kind = kind
        self.content = content
        self.sides = sides
        self.added = added

    def columns(self):
        """The numbers of columns as a verdict has them."""
        return " ".join(str(side.columns) for side in self.sides)


def turned(order):
    """The rotation that begins with column 1."""
    at = order.index(1)
    return order[at:] + order[:at]


def side_problem(kind, side, tree_line, order_line):
    """What is wrong with the tree and the order of a side, or None."""

    def stands_for_all(found):
        if kind != "circular":
            return found == side.textbook
        return found <= side.textbook and side.textbook == {order for order in definitions.orders(side.columns) if turned(order) in found}

    problem = lines_problem(tree_line, order_line, stands_for_all)
    return problem and f"{problem}: {sorted(side.textbook)}"


def yes_problem(instance, status, body):
    """What is wrong with the lines after `answer yes`, or None."""
    if status != 0 or not all(side.textbook for side in instance.sides):
        return f"yes with status {status}"
    for number, side in enumerate(instance.sides):
        problem = side_problem(instance.kind, side, body[2 * number], body[2 * number + 1])
        if problem:
            return problem
    order = tuple(map(int, body[1].split(" ")[1:]))
    added = body[2 * len(instance.sides):]
    return None if added == instance.added(order) else f"{added}, wanted {instance.added(order)}"


def answer_problem(instance, status, text):
    """What is wrong with what `solve` wrote, or None."""
    lines = text.split("\n")
    if lines[:3] != [HEADER, f"kind {instance.kind}", f"columns {instance.columns()}"] or lines[-2:] != ["end", ""]:
        return f"head or end of {lines}"
    body = lines[4:-2]
    if lines[3] == "answer yes":
        return yes_problem(instance, status, body)
    if lines[3] != "answer no" or status != 1:
        return f"{lines[3]} with status {status}"
    without = [number for number, side in enumerate(instance.sides, 1) if not side.textbook]
    if not without or body[0] != f"side {without[0]}" or body[1] != f"cycle {len(body) - 2}":
        return f"{body[:2]}, sides without an order {without}"
    side = instance.sides[without[0] - 1]
    return printed_problem(side.columns, side.rows, body[2:])


def problem(instance):
    """What is wrong with the program's answer on an instance, or with its check of it, or None."""
    solved = run(["solve", instance.kind, "-"], instance.content)
    found = answer_problem(instance, solved.returncode, solved.stdout.decode())
    if found:
        return found
    checked = run_over(["check", instance.kind], instance.content, solved.stdout)
    return None if (checked.returncode, checked.stdout) == (0, b"valid\n") else f"check: {checked.stdout}"


def dense(columns, rows):
    """The file of a matrix."""
    return "".join("".join("1" if column in row else "0" for column in range(1, columns + 1)) + "\n" for row in rows).encode()


def subsets(items, most=None):
    """Every set of the items, of at most so many."""
    items = list(items)
    sizes = range(len(items) + 1 if most is None else most + 1)
    return itertools.chain.from_iterable(itertools.combinations(items, size) for size in sizes)


def edge_file(head, edges):
    """The file of a graph: its sizes, and a line for each edge."""
    return "".join(f"{line}\n" for line in [head, *(f"{u} {v}" for u, v in edges)]).encode()


def row_sets(columns, most):
    """Every set of one row, or of more up to so many, over the columns."""
    return (rows for rows in subsets(map(frozenset, subsets(range(1, columns + 1))), most) if rows)


def matrix_instance(columns, rows):
    """A matrix."""
    return Instance("matrix", dense(columns, rows), definitions.matrix(columns, rows))


def matrix_instances(most_columns):
    """Every set of one to four rows over at most so many columns."""
    for columns in range(1, most_columns + 1):
        for rows in row_sets(columns, MOST_ROWS):
            yield matrix_instance(columns, rows)


def circular_instances():
    """Every set of one to three rows over at most four columns."""
    for columns in range(1, 5):
        for rows in row_sets(columns, 3):
            yield Instance("circular", dense(columns, rows), definitions.circular(columns, rows))


def bipartite_instances():
    """Every bipartite graph with at most three xs and four ys, as both kinds."""
    for left, right in itertools.product(range(1, 4), range(1, 5)):
        for edges in subsets(itertools.product(range(1, left + 1), range(1, right + 1))):
            content = edge_file(f"{left} {right}", edges)
            yield Instance("convex", content, definitions.convex(left, right, edges))
            yield Instance("doubly", content, definitions.doubly(left, right, edges))


def interval_lines(vertices, edges):
    """The lines of the intervals, by the order that is printed; they are a proper model."""

    def added(order):
        intervals = definitions.formula(vertices, edges, order)
        assert definitions.is_proper_model(edges, intervals)
        return [f"interval {v} {left} {right}" for v, (left, right) in enumerate(intervals, 1)]

    return added


def graph_instances():
    """Every graph with at most five vertices."""
    for vertices in range(1, 6):
        for edges in subsets(itertools.combinations(range(1, vertices + 1), 2)):
            yield Instance("proper", edge_file(vertices, edges), definitions.proper(vertices, edges), interval_lines(vertices, edges))


def table_instances():
    """Every table of distances of at most four items with distances 0 to 2."""
    for items in range(1, 5):
        pairs = list(itertools.combinations(range(items), 2))
        for values in itertools.product(range(3), repeat=len(pairs)):
            table = [[0] * items for _ in range(items)]
            for (x, y), value in zip(pairs, values):
                table[x][y] = table[y][x] = value
            content = "".join(f"{line}\n" for line in [items, *(" ".join(map(str, row)) for row in table)]).encode()
            yield Instance("robinson", content, definitions.robinson(items, table))


def instances(most_columns):
    """All small instances."""
    return itertools.chain(matrix_instances(most_columns), circular_instances(), bipartite_instances(), graph_instances(), table_instances())


def tried(some):
    """Each instance with what is wrong with its answer, or None."""
    some = list(some)
    with concurrent.futures.ThreadPoolExecutor(os.cpu_count()) as pool:
        return zip(some, pool.map(problem, some))


def main():
    passed = failed = 0
    for instance, found in tried(instances(int(sys.argv[1]) if len(sys.argv) > 1 else MOST_COLUMNS)):
        if found is None:
            passed += 1
        else:
            failed += 1
            print(f"FAILED {instance.kind} {instance.content!r}: {found}")
    print(f"{passed} passed, {failed} failed")
    return 1 if failed else 0


if __name__ == "__main__":
    sys.exit(main())
