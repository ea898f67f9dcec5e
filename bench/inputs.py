"""The files that the benches read, made from a seed."""

import json

FILE_LIMIT = 16_777_216
MOST_COLUMNS = 2_048
MOST_ROWS = 131_072


def dense_file(columns, density, rng):
    """Rows of random digits up to the limit of bytes, the last of them one digit short."""
    rows = min(MOST_ROWS, FILE_LIMIT // (columns + 1))
    lines = []
    for _ in range(rows - 1):
        lines.append(bytes(49 if rng.random() < density else 48 for _ in range(columns)))
    lines.append(b"0" * (columns - 1))
    text = b"\n".join(lines) + b"\n"
    return text + b" " * (FILE_LIMIT - len(text))


def sparse_file(columns, ones, rng):
    """Rows that name so many random columns each, in no order, up to the limits; the last row names a column past the last."""
    words = [str(column).encode() for column in range(1, columns + 1)]
    text = bytearray(f"{columns}\n".encode())
    for _ in range(MOST_ROWS - 1):
        line = b" ".join(rng.sample(words, ones)) + b"\n"
        if len(text) + len(line) > FILE_LIMIT - 8:
            break
        text += line
    text += f"{columns + 1}\n".encode()
    return bytes(text)


def random_edges(left, right, degree, rng):
    """The edges of a bipartite graph in which each x has so many random ys, ascending."""
    return [(x, y) for x in range(1, left + 1) for y in sorted(rng.sample(range(1, right + 1), degree))]


def repeated_edges(left, right, count, rng):
    """So many random edges, in no order and many of them repeated."""
    return [(rng.randint(1, left), rng.randint(1, right)) for _ in range(count)]


def bigraph_file(left, right, edges):
    """A line for each edge, up to the limit of bytes, behind the sizes of the two sides."""
    text = bytearray(f"{left} {right}\n".encode())
    for x, y in edges:
        line = f"{x} {y}\n".encode()
        if len(text) + len(line) > FILE_LIMIT:
            break
        text += line
    return bytes(text)


def generated_file(seed, columns, rows):
    """The lists of columns of the matrix that `gen` draws with these words, cut to the limit of bytes. The rule is that of docs/FORMATS.md."""
    state = seed

    def draw(bound):
        nonlocal state
        state = (6364136223846793005 * state + 1442695040888963407) % 2**64
        return (state >> 33) % bound

    hidden = list(range(1, columns + 1))
    for i in range(columns, 1, -1):
        j = 1 + draw(i)
        hidden[i - 1], hidden[j - 1] = hidden[j - 1], hidden[i - 1]
    text = bytearray(f"{columns}\n".encode())
    for _ in range(rows):
        first, last = sorted((draw(columns), draw(columns)))
        line = (" ".join(map(str, hidden[first:last + 1])) + "\n").encode()
        if len(text) + len(line) > FILE_LIMIT:
            break
        text += line
    return bytes(text)


def table_file(columns, cells, rng):
    """A table of random cells up to the limit of bytes, under a header; the last cell is none that a table may have."""
    header = b"kind," + b",".join(f"site {place}".encode() for place in range(1, columns + 1)) + b"\n"
    text = bytearray(header)
    for number in range(1, MOST_ROWS):
        line = f"kind {number},".encode() + b",".join(rng.choices(cells, k=columns)) + b"\n"
        if len(text) + len(line) > FILE_LIMIT - len(header):
            break
        text += line
    text += b"kind" + b"," * columns + b"?\n"
    return bytes(text)


def clone_file(probes, named, rng):
    """Clones that each name so many random probes, as JSON, up to the limits; the last clone names one that is not among the probes."""
    names = [f"p{place}" for place in range(1, probes + 1)]
    text = bytearray(b'{"probes":' + json.dumps(names, separators=(",", ":")).encode() + b',"clones":[')
    last = b'{"name":"last","probes":["another"]}]}'
    for number in range(1, MOST_ROWS):
        line = json.dumps({"name": f"k{number}", "probes": rng.sample(names, named)}, separators=(",", ":")).encode() + b","
        if len(text) + len(line) + len(last) > FILE_LIMIT:
            break
        text += line
    return bytes(text) + last


def filled(head, line, tail=b"", most=MOST_ROWS):
    """A head, one line again and again up to the limit of bytes or so many times, and a tail."""
    return head + line * min(most, (FILE_LIMIT - len(head) - len(tail)) // len(line)) + tail


def edge_lines(head, edges):
    """A graph: its sizes, and a line for each edge, up to the limit of bytes."""
    text = bytearray(head)
    for u, v in edges:
        line = f"{u} {v}\n".encode()
        if len(text) + len(line) > FILE_LIMIT:
            break
        text += line
    return bytes(text)


def heavy_files(rng):
    """Files of each kind that take much memory for their bytes, with what they are and their kind. Their rows are of few different sets of
    columns, so that they are reduced soon. `no` has no valid order, which its last rows show."""
    ones = b"1" * MOST_COLUMNS + b"\n"
    names = "".join(f'"{chr(97 + place)}",' for place in range(26))
    near = [(x, y) for x in range(1, MOST_COLUMNS + 1) for y in range(x + 1, min(x + 900, MOST_COLUMNS) + 1)]
    yield "all ones", "matrix", filled(b"", ones)
    yield "one column", "matrix", filled(b"", b"1\n")
    yield "no, all zeros before", "matrix", filled(b"", b"0" * MOST_COLUMNS + b"\n", b"".join(
        bytes(48 + (column in pair) for column in range(MOST_COLUMNS)) + b"\n" for pair in [(0, 1), (1, 2), (0, 2)]))
    yield "rows of one column", "rows", filled(b"2048\n", b"2048\n")
    yield "rows of 60 columns", "rows", filled(b"2048\n", " ".join(map(str, range(1, 61))).encode() + b"\n")
    yield "no, rows of 40 columns before", "rows", filled(b"2048\n", " ".join(map(str, range(100, 130))).encode() + b"\n", b"1 2\n2 3\n1 3\n", MOST_ROWS - 3)
    yield "no, a ring", "rows", b"2048\n" + b"".join(f"{column} {column % MOST_COLUMNS + 1}\n".encode() for column in range(1, MOST_COLUMNS + 1))
    yield "commas alone", "table", filled(b"", b"," * MOST_COLUMNS + b"\n")
    yield "all ones", "table", filled(b"t" + b"," * MOST_COLUMNS + b"\n", b"t" + b",1" * MOST_COLUMNS + b"\n")
    yield "one column", "table", filled(b"t,a\n", b"t,1\n")
    yield "short names", "clones", filled(b'{"probes":[' + names[:-1].encode() + b'],"clones":[', b'{"probes":[' + (names * 4)[:-1].encode() + b"]},",
                                         b'{"probes":[]}]}', MOST_ROWS - 1)
    yield "empty clones", "clones", filled(b'{"probes":["a"],"clones":[', b'{"probes":[]},', b'{"probes":[]}]}', MOST_ROWS - 1)
    yield "many keys", "clones", filled(b'{"probes":["a"],"clones":[],"more":[', b"{},", b"{}]}", FILE_LIMIT)
    yield "all ones", "circular", filled(b"", ones)
    yield "many edges", "convex", edge_lines(b"131072 2048\n", ((x, y) for x in range(1, MOST_ROWS + 1) for y in range(1, 15)))
    yield "one edge again and again", "convex", filled(b"2 3\n", b"1 1\n", most=FILE_LIMIT)
    yield "many edges", "doubly", edge_lines(b"2048 2048\n", ((x, y) for x in range(1, MOST_COLUMNS + 1) for y in range(1, 1_000)))
    yield "many edges", "proper", edge_lines(b"2048\n", near)
    yield "one edge again and again", "proper", filled(b"2\n", b"1 2\n", most=FILE_LIMIT)
    yield "distances that all differ", "robinson", distance_file(256, rng)[0]


def nested_file(columns, rows, rng):
    """Rows that are runs from the first column on: they are nested."""
    lines = []
    for _ in range(rows):
        last = rng.randint(1, columns)
        lines.append(b"1" * last + b"0" * (columns - last))
    return b"\n".join(lines) + b"\n"


def interval_file(columns, rows, rng):
    """Rows that are runs in a hidden order of the columns, so that an order exists."""
    hidden = list(range(columns))
    rng.shuffle(hidden)
    lines = []
    for _ in range(rows):
        low, high = sorted((rng.randrange(columns), rng.randrange(columns)))
        line = bytearray(b"0" * columns)
        for place in range(low, high + 1):
            line[hidden[place]] = 49
        lines.append(bytes(line))
    return b"\n".join(lines) + b"\n"


def window_file(columns, rows, width, rng):
    """Rows that name a run, of at most so many columns, of a hidden order of the columns; and the order."""
    order = list(range(1, columns + 1))
    rng.shuffle(order)
    words = [str(column) for column in order]
    lines = [str(columns)]
    for _ in range(rows):
        start = rng.randrange(columns)
        lines.append(" ".join(words[start : start + rng.randint(1, width)]))
    return ("\n".join(lines) + "\n").encode(), order


def yes_verdict(kind, order):
    """The verdict of an order, under a Q-node over its columns: both of its frontiers keep what the order keeps."""
    words = " ".join(str(column) for column in order)
    lines = ["pq-verdict 2", f"kind {kind}", f"columns {len(order)}", "answer yes", f"tree [{words}]", f"order {words}", "end", ""]
    return "\n".join(lines).encode()


def distance_file(items, rng):
    """A table of distances that all differ, so that each item has a ball of each size; and an order in which item 1 and the item nearest
    to it, which make up a ball, stand apart."""
    rows = [[0] * items for _ in range(items)]
    values = iter(rng.sample(range(1, items**3), items * (items - 1) // 2))
    for x in range(items):
        for y in range(x):
            rows[x][y] = rows[y][x] = next(values)
    lines = [str(items)] + [" ".join(str(value) for value in row) for row in rows]
    apart = sorted(range(1, items), key=lambda y: -rows[0][y])
    return ("\n".join(lines) + "\n").encode(), [1] + [y + 1 for y in apart]


def every_pair(columns):
    """A row for each two columns: (a,b) is joined to (b,d) for any three columns."""
    lines = []
    number = {}
    for a in range(1, columns + 1):
        for b in range(a + 1, columns + 1):
            line = bytearray(b"0" * columns)
            line[a - 1] = line[b - 1] = 49
            lines.append(bytes(line))
            number[a, b] = number[b, a] = len(lines)
    return b"\n".join(lines) + b"\n", number


def steps_round(columns):
    """Columns in a round, the number of them odd: no step from one to the next is taken twice, and none straight back.

    The number of columns is an odd prime, so that steps of one width lead through every column and home.
    """
    widths = list(range(1, columns - 3))
    middle = columns // 2
    widths.remove(middle)
    widths.insert(0, middle)
    at, walk = 0, []
    for width in widths:
        for _ in range(columns):
            walk.append(at + 1)
            at = (at + width) % columns
    return walk


def cycle_verdict(columns, walk, number):
    """The verdict of an odd cycle through the pairs of neighbours of a closed walk."""
    length = len(walk)
    lines = []
    for i, a in enumerate(walk):
        b, d = walk[(i + 1) % length], walk[(i + 2) % length]
        lines.append(f"{a} {b} row {number[a, d]}")
    head = ["pq-verdict 2", "kind matrix", f"columns {columns}", "answer no", "side 1", f"cycle {length}"]
    return "\n".join(head + lines + ["end", ""]).encode()
