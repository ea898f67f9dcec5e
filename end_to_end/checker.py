#!/usr/bin/env python3
"""A second checker of verdicts, written from docs/FORMATS.md and docs/CERTIFICATES.md alone: its own readers of every file, and every test of
a verdict.

Usage: end_to_end/checker.py KIND FILE VERDICT

Prints the line that `pq check` prints, with the same status: 0 where the verdict is valid, 1 where it isn't, and 3 where FILE is refused.
Each order is tested by what is asked of it, and each tree by the rows that all its frontiers keep, and in version 2 by the classes of pairs
besides; nothing here solves an instance.
"""

import itertools
import sys
from typing import Callable, NamedTuple

from file_readers import Limits, Refused, read_convex, read_dense, read_distances, read_doubly, read_graph, read_rows
from text_readers import read_clones, read_table
from verdict_reader import FLIP, NoVerdict, read_verdict


class Side(NamedTuple):
    """A side of an instance: its number of columns, its derived rows, and what is asked of an order of its columns."""

    columns: int
    rows: list
    is_asked_for: Callable


class Instance(NamedTuple):
    """What a file holds, side by side, with the graph that intervals have to fit, and the clones that lie in places."""

    sides: list
    graph: object = None
    clones: object = None


def positions_of(order):
    """The position of each column of an order, from 1."""
    return {column: position for position, column in enumerate(order, 1)}


def span_of(positions, row):
    """The first and the last position of the columns of a row that is not empty."""
    taken = [positions[column] for column in row]
    return min(taken), max(taken)


def is_together(positions, row):
    """Whether the columns of a row stand together."""
    if not row:
        return True
    first, last = span_of(positions, row)
    return last - first + 1 == len(row)


def keeps_all(rows):
    """The orders in which the columns of each row stand together."""
    def is_asked_for(order):
        positions = positions_of(order)
        return all(is_together(positions, row) for row in rows)
    return is_asked_for


def keeps_all_round(rows):
    """The orders in which of each row the columns, or else the others, stand together."""
    def is_asked_for(order):
        positions = positions_of(order)
        return all(is_together(positions, row) or is_together(positions, positions.keys() - row) for row in rows)
    return is_asked_for


def has_umbrellas(graph):
    """The orders in which an edge implies edges from both its ends to every vertex between them."""
    def is_asked_for(order):
        for first, left in enumerate(order):
            later = [place for place in range(first + 1, len(order)) if order[place] in graph.neighbours[left - 1]]
            for last in later:
                ends = graph.neighbours[left - 1] & graph.neighbours[order[last] - 1]
                if not ends.issuperset(order[first + 1:last]):
                    return False
        return True
    return is_asked_for


def rises_outwards(table):
    """The orders in which of any three items the outer two are at least as far apart as the middle one is from either."""
    def is_asked_for(order):
        ordered = [[table[x - 1][y - 1] for y in order] for x in order]
        places = range(len(order))
        return all(ordered[i][k] >= max(ordered[i][j], ordered[j][k])
                   for i in places for j in places[i + 1:] for k in places[j + 1:])
    return is_asked_for


def matrix_side(matrix):
    """The side of a matrix."""
    return Side(matrix.columns, matrix.rows, keeps_all(matrix.rows))


def circular_side(matrix):
    """The side of a matrix round a circle: each row that has column 1 is replaced by the columns that it lacks."""
    whole = frozenset(range(1, matrix.columns + 1))
    cut_rows = [whole - row if 1 in row else row for row in matrix.rows]
    return Side(matrix.columns, cut_rows, keeps_all_round(matrix.rows))


def proper_side(graph):
    """The side of a graph: row v has v and its neighbours."""
    rows = [frozenset(neighbours | {vertex}) for vertex, neighbours in enumerate(graph.neighbours, 1)]
    return Side(graph.vertices, rows, has_umbrellas(graph))


def robinson_side(table):
    """The side of a table of distances: its rows are the balls."""
    rows = [frozenset(item for item, distance in enumerate(row, 1) if distance <= most) for row in table for most in sorted(set(row))]
    return Side(len(table), rows, rises_outwards(table))


def bigraph_sides(bigraph):
    """The two sides of a bipartite graph: the columns of the first are the vertices on the right."""
    of_left, of_right = bigraph
    return [Side(len(of_right), of_left, keeps_all(of_left)), Side(len(of_left), of_right, keeps_all(of_right))]


def read_instance(kind, content, limits):
    """What a file of a kind holds."""
    if kind == "clones":
        matrix = read_clones(content, limits)
        return Instance([matrix_side(matrix)], clones=matrix.rows)
    if kind == "proper":
        graph = read_graph(content, limits)
        return Instance([proper_side(graph)], graph=graph)
    if kind == "robinson":
        return Instance([robinson_side(read_distances(content, limits))])
    if kind == "convex":
        return Instance(bigraph_sides(read_convex(content, limits))[:1])
    if kind == "doubly":
        return Instance(bigraph_sides(read_doubly(content, limits)))
    if kind == "circular":
        return Instance([circular_side(read_dense(content, limits))])
    readers = {"matrix": read_dense, "rows": read_rows, "table": read_table}
    return Instance([matrix_side(readers[kind](content, limits))])


def always_kept(tree):
    """The rows that every frontier of a tree keeps, as a test."""
    position = positions_of(tree.leaves)
    count = len(tree.leaves)
    nodes = {(1, count), *(child for node in tree.nodes for child in node.children)}
    first_of, last_of = {}, {}
    for number, node in enumerate(tree.nodes):
        if node.bracket == b"[":
            for first, last in node.children:
                first_of.setdefault(first, set()).add(number)
                last_of.setdefault(last, set()).add(number)

    def is_kept(row):
        if not row:
            return True
        first, last = span_of(position, row)
        if last - first + 1 != len(row):
            return False
        return (first, last) in nodes or bool(first_of.get(first, set()) & last_of.get(last, set()))
    return is_kept


def gaps_of(tree, rows):
    """Of the rows that have two neighbours of a tree from left to right, the least last position and the greatest first one, by the position
    of the left neighbour. Where there is no such row, nothing lies past the one or before the other."""
    position = positions_of(tree.leaves)
    least_last, greatest_first = [len(tree.leaves)] * len(tree.leaves), [1] * len(tree.leaves)
    for first, last in {span_of(position, row) for row in rows if row}:
        for left in range(first, last):
            least_last[left] = min(least_last[left], last)
            greatest_first[left] = max(greatest_first[left], first)
    return least_last, greatest_first


def has_all_orders(tree, rows):
    """Whether each order that keeps the rows is a frontier of a tree whose frontiers all keep them."""
    least_last, greatest_first = gaps_of(tree, rows)

    def leads_on(x, p, first, last):
        return (x > first and p > least_last[x - 1]) or (p < last and x < greatest_first[p])

    def is_one_class(children):
        first, last = children[0][0], children[-1][1]
        return all((x, p) == (first, last) or leads_on(x, p, first, last)
                   for left, right in itertools.combinations(children, 2)
                   for x in range(left[0], left[1] + 1) for p in range(right[0], right[1] + 1))

    def is_bound(node):
        return is_one_class(node.children) if node.bracket == b"[" else all(map(is_one_class, itertools.combinations(node.children, 2)))

    return all(map(is_bound, tree.nodes))


def failed_sides(instance, verdict):
    """The first test of an order or a tree that fails, or None."""
    for number, (side, tree, order) in enumerate(zip(instance.sides, verdict.trees, verdict.orders), 1):
        if sorted(order) != list(range(1, side.columns + 1)) or not side.is_asked_for(order):
            return f"order {number}"
        is_kept = always_kept(tree)
        for row_number, row in enumerate(side.rows, 1):
            if not is_kept(row):
                return f"tree {number} {row_number}"
        if verdict.version == 2 and not has_all_orders(tree, side.rows):
            return f"complete {number}"
    return None


def fits_graph(intervals, graph):
    """Whether intervals have ends in their order, share numbers exactly at edges, and hold each other only where they are equal."""
    if any(left > right for left, right in intervals):
        return False
    for a, (left, right) in enumerate(intervals, 1):
        for b, (other_left, other_right) in enumerate(intervals[:a - 1], 1):
            if (left <= other_right and other_left <= right) != (b in graph.neighbours[a - 1]):
                return False
            if (left - other_left) * (right - other_right) <= 0 and (left, right) != (other_left, other_right):
                return False
    return True


def places_in(order, clones):
    """The place of each clone in an order that keeps them."""
    positions = positions_of(order)
    return [span_of(positions, clone) if clone else None for clone in clones]


def contigs_in(order, clones):
    """The contigs of an order that keeps the clones, from left to right."""
    contig_of = {probe: {probe} for probe in order}
    for clone in clones:
        tied = set().union(*(contig_of[probe] for probe in clone))
        contig_of.update((probe, tied) for probe in tied)
    positions = positions_of(order)
    return sorted({span_of(positions, contig) for contig in contig_of.values()})


def failed_yes(instance, verdict):
    """The first test that fails of a verdict that says yes, or None."""
    failed = failed_sides(instance, verdict)
    if failed:
        return failed
    if instance.graph is not None and not fits_graph(verdict.intervals, instance.graph):
        return "intervals"
    if instance.clones is not None:
        (order,) = verdict.orders
        if verdict.places != places_in(order, instance.clones):
            return "places"
        if verdict.contigs != contigs_in(order, instance.clones):
            return "contigs"
    return None


def is_joined(line, following, rows):
    """Whether the reason of a line joins its pair to the following one."""
    (a, b), (c, d) = line.pair, following
    if line.reason == FLIP:
        return (c, d) == (b, a)
    if not 1 <= line.reason <= len(rows):
        return False
    row = rows[line.reason - 1]
    runs_on = c == b and a != d and {a, d} <= row and b not in row
    runs_back = d == a and c != b and {c, b} <= row and a not in row
    return runs_on or runs_back


def failed_no(instance, verdict):
    """The first test that fails of a verdict that says no, or None."""
    side, cycle = instance.sides[verdict.side - 1], verdict.cycle
    if len(cycle) < 3 or len(cycle) % 2 == 0:
        return f"length {len(cycle)}"
    for number, ((a, b), _) in enumerate(cycle, 1):
        if a == b or not (1 <= a <= side.columns and 1 <= b <= side.columns):
            return f"pair {number}"
    earlier = set()
    for number, (pair, _) in enumerate(cycle, 1):
        if pair in earlier:
            return f"repeat {number}"
        earlier.add(pair)
    for number, (line, following) in enumerate(zip(cycle, [*cycle[1:], cycle[0]]), 1):
        if not is_joined(line, following.pair, side.rows):
            return f"join {number}"
    return None


def failed_test(kind, instance, content, limits):
    """The first test that the bytes of a verdict fail, or None."""
    if len(content) > limits.verdict_bytes:
        return "too-long"
    try:
        verdict = read_verdict(content, limits)
    except NoVerdict:
        return "text"
    if verdict.kind != kind:
        return "kind"
    if verdict.columns != [side.columns for side in instance.sides]:
        return "columns"
    return failed_yes(instance, verdict) if verdict.answer else failed_no(instance, verdict)


def judgement(kind, instance, content, limits):
    """The line that `check` prints on the bytes of a verdict."""
    failed = failed_test(kind, instance, content, limits)
    return "valid" if failed is None else f"invalid {failed}"


def main(kind, file, verdict):
    """Judges a verdict in a file on an instance in a file."""
    limits = Limits()
    with open(file, "rb") as instance_stream, open(verdict, "rb") as verdict_stream:
        contents = instance_stream.read(), verdict_stream.read()
    try:
        instance = read_instance(kind, contents[0], limits)
    except Refused as refused:
        print(f"refused {refused}", file=sys.stderr)
        return 3
    line = judgement(kind, instance, contents[1], limits)
    print(line)
    return 0 if line == "valid" else 1


if __name__ == "__main__":
    sys.exit(main(*sys.argv[1:]))
