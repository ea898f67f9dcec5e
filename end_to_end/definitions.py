"""The definitions of the kinds in plain words of a program: which orders are textbook orders, by trying all, and which rows are derived.

Nothing here is fast: each definition stands as docs/DEFINITIONS.md has it.
"""

import functools
import itertools


def keeps(order, row):
    """Whether the columns of the row stand together in the order."""
    places = [place for place, column in enumerate(order) if column in row]
    return not places or places[-1] - places[0] == len(places) - 1


def orders(count):
    """All orders of 1 to the count."""
    return itertools.permutations(range(1, count + 1))


@functools.cache
def keeping(columns, row):
    """All orders that keep a row."""
    return frozenset(order for order in orders(columns) if keeps(order, row))


def triples(order):
    """Any three columns of an order, from left to right."""
    return itertools.combinations(order, 3)


class Side:
    """What is asked of one order: the number of columns, the textbook orders, and the derived rows."""

    def __init__(self, columns, is_textbook, rows):
        self.columns = columns
        self.is_textbook = is_textbook
        self.rows = rows

    @functools.cached_property
    def textbook(self):
        """The textbook orders."""
        return {order for order in orders(self.columns) if self.is_textbook(order)}


def valid_orders(columns, rows):
    """All orders that keep every row."""
    found = keeping(columns, frozenset())
    for row in rows:
        found &= keeping(columns, frozenset(row))
    return found


def matrix(columns, rows):
    """A matrix: an order keeps every row."""
    return [Side(columns, lambda order: all(keeps(order, row) for row in rows), rows)]


def circular(columns, rows):
    """Rows round a circle: the columns of each, or those outside it, stand together."""
    every = frozenset(range(1, columns + 1))

    def is_circular(order):
        return all(keeps(order, row) or keeps(order, every - row) for row in rows)

    return [Side(columns, is_circular, [every - row if 1 in row else row for row in rows])]


def right_side(left, right, edges):
    """The right side of a bipartite graph: between two neighbours of an x stand its neighbours alone."""
    near = [frozenset(y for x, y in edges if x == some) for some in range(1, left + 1)]

    def is_convex(order):
        return all(b in row for row in near for a, b, c in triples(order) if a in row and c in row)

    return Side(right, is_convex, near)


def convex(left, right, edges):
    """A bipartite graph, and its right side."""
    return [right_side(left, right, edges)]


def doubly(left, right, edges):
    """A bipartite graph, and both its sides."""
    return [right_side(left, right, edges), right_side(right, left, {(y, x) for x, y in edges})]


def adjacent(edges, u, v):
    """Whether an edge joins two vertices."""
    return (u, v) in edges or (v, u) in edges


def proper(vertices, edges):
    """A graph: in an umbrella order an edge between the outer two of three vertices implies the other two edges."""

    def is_umbrella(order):
        return all(adjacent(edges, u, v) and adjacent(edges, v, w) for u, v, w in triples(order) if adjacent(edges, u, w))

    return [Side(vertices, is_umbrella,
                 [frozenset(u for u in range(1, vertices + 1) if u == v or adjacent(edges, u, v)) for v in range(1, vertices + 1)])]


def robinson(items, distances):
    """A table of distances, row by row: of three items the outer two are at least as far apart as the middle one is from either."""

    def apart(x, y):
        return distances[x - 1][y - 1]

    def is_robinson(order):
        return all(apart(x, z) >= max(apart(x, y), apart(y, z)) for x, y, z in triples(order))

    some = range(1, items + 1)
    return [Side(items, is_robinson,
                 [frozenset(y for y in some if apart(x, y) <= radius) for x in some for radius in sorted(set(distances[x - 1]))])]


def is_proper_model(edges, intervals):
    """Whether the intervals of vertices 1, 2 and so on meet exactly at edges, and none holds another unless they are equal."""
    if any(left > right for left, right in intervals):
        return False
    for (u, (a, b)), (v, (c, d)) in itertools.combinations(enumerate(intervals, 1), 2):
        meet = a <= d and c <= b
        nested = (a, b) != (c, d) and (a <= c and d <= b or c <= a and b <= d)
        if nested or meet != adjacent(edges, u, v):
            return False
    return True


def formula(vertices, edges, order):
    """The intervals that an umbrella order gives."""
    wide = vertices + 1
    found = {}
    for i, u in enumerate(order, 1):
        last = max(j for j, v in enumerate(order, 1) if j >= i and (j == i or adjacent(edges, u, v)))
        found[u] = (wide * i, wide * last + i)
    return [found[v] for v in range(1, vertices + 1)]
