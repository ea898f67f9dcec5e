"""The inputs of bench/growth.py, by their sizes."""

import json

from inputs import edge_lines


def runs(columns, rows, width, rng):
    """Rows that are runs of 2 to so many columns of a hidden order."""
    order = hidden(columns, rng)
    starts = [rng.randrange(columns - 1) for _ in range(rows)]
    return [order[start:start + rng.randint(2, width)] for start in starts]


def hidden(count, rng):
    """The numbers from 1 on in a hidden order."""
    return rng.sample(range(1, count + 1), count)


def chain(columns, rng):
    """Each two neighbours of a hidden order, shuffled: one long Q-node."""
    order = hidden(columns, rng)
    pairs = [list(pair) for pair in zip(order, order[1:])]
    return rng.sample(pairs, len(pairs))


def ring(columns, rng):
    """The neighbours of a hidden order and its two ends, so that no order is left: the shortest cycle meets all columns."""
    order = hidden(columns, rng)
    return [list(pair) for pair in zip(order, order[1:] + order[:1])]


def nested(columns, rng):
    """The first columns of a hidden order, in rising numbers: nodes one within another."""
    order = hidden(columns, rng)
    return [order[:count] for count in range(2, columns)]


def blocks(columns, rng):
    """Blocks of 16 columns of a hidden order: a wide P-node of small ones."""
    order = hidden(columns, rng)
    return [order[first:first + 16] for first in range(0, columns, 16)]


def claw(rows):
    """The rows, and three pairs behind them that share a column and leave no order."""
    return rows + [[1, 2], [1, 3], [1, 4]]


def named(columns, rows):
    """A file of the kind `rows`."""
    return b"%d\n" % columns + lines(rows)


def lines(rows):
    """The lines of rows that name their columns."""
    return b"".join(b"%s\n" % b" ".join(b"%d" % column for column in row) for row in rows)


def digits(columns, rows):
    """A file of the kinds `matrix` and `circular`."""
    return b"".join(bytes(49 if column in row else 48 for column in range(1, columns + 1)) + b"\n" for row in map(set, rows))


def table(columns, rows):
    """A file of the kind `table`."""
    records = [",".join(["kind", *(f"site {column}" for column in range(1, columns + 1))])]
    for number, row in enumerate(map(set, rows), 1):
        records.append(",".join([f"kind {number}", *("1" if column in row else "0" for column in range(1, columns + 1))]))
    return "".join(f"{record}\n" for record in records).encode()


def clones(columns, rows):
    """A file of the kind `clones`."""
    return json.dumps({"probes": [f"p{column}" for column in range(1, columns + 1)],
                       "clones": [{"name": f"k{number}", "probes": [f"p{column}" for column in row]} for number, row in enumerate(rows, 1)]}).encode()


def bigraph(columns, rows):
    """A bipartite graph in which each row is the neighbours of a vertex of the left side."""
    return edge_lines(f"{len(rows)} {columns}\n".encode(), [(x, y) for x, row in enumerate(rows, 1) for y in row])


def band(count, width, rng):
    """Rows that are all runs of so many places of a hidden order, in another hidden order: convex on both sides."""
    order = hidden(count, rng)
    return rng.sample([order[max(0, place - width):place + 1] for place in range(count)], count)


def near(count, width, rng):
    """A graph whose vertices stand in a hidden order, each adjacent to so many before it and behind it."""
    order = hidden(count, rng)
    pairs = [(order[i], order[j]) for i in range(count) for j in range(i + 1, min(count, i + width + 1))]
    return edge_lines(f"{count}\n".encode(), rng.sample(pairs, len(pairs)))


def round_graph(count, rng):
    """A graph that is a cycle in a hidden order, which has no model."""
    order = hidden(count, rng)
    return edge_lines(f"{count}\n".encode(), zip(order, order[1:] + order[:1]))


def distances(places):
    """The distances of points on a line."""
    return "".join(f"{line}\n" for line in [len(places), *(" ".join(str(abs(x - y)) for y in places) for x in places)]).encode()


def drawn_distances(items, rng):
    """Distances that all differ, of which almost none leave an order."""
    values = iter(rng.sample(range(1, 10 * items * items), items * items))
    rows = [[0] * items for _ in range(items)]
    for x in range(items):
        for y in range(x):
            rows[x][y] = rows[y][x] = next(values)
    return "".join(f"{line}\n" for line in [items, *(" ".join(map(str, row)) for row in rows)]).encode()


def nest(order):
    """A tree of P-nodes one within another."""
    inner = f"({order[0]} {order[1]})"
    return "(" * (len(order) - 2) + inner + "".join(f" {column})" for column in order[2:])


def line(order):
    """A tree of one Q-node."""
    return "[" + " ".join(map(str, order)) + "]"


def turned(order, width):
    """The order with each so many columns of it turned round."""
    return [column for first in range(0, len(order), width) for column in reversed(order[first:first + width])]


def blocks_tree(columns):
    """A P-node of P-nodes of 16 neighbours each."""
    return "(" + " ".join("(" + " ".join(map(str, range(first, first + 16))) + ")" for first in range(1, columns, 16)) + ")"


def refused_half(columns, rng):
    """A chain, and as many rows behind it: every other one is a pair that no order of the chain keeps."""
    order = hidden(columns, rng)
    pairs = [list(pair) for pair in zip(order, order[1:])]
    return pairs + [row for place in range(0, columns - 2, 2) for row in (pairs[place], [order[place], order[place + 2]])]


def pairs(count, rng):
    """A graph of pairs, each two vertices that are adjacent to no other."""
    order = hidden(count, rng)
    return edge_lines(f"{count}\n".encode(), zip(order[::2], order[1::2]))
