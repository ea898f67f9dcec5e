"""Runs of all commands and kinds, drawn by a seed: the words, and the bytes of the files `1` and `2`. About one file in six is spoilt."""

import random

KINDS = ["matrix", "circular", "rows", "table", "clones", "convex", "doubly", "proper", "robinson", "matrices"]
PLAIN = ["matrix", "rows", "table"]
JUNK = b"01 2\n\t,\r\xff([x"
SIZES = (1, 6)
COLUMNS = 2048
# A run whose reply is longer than the room that is tried first.
LONG = (["list", "rows", "1", "5500"], b"800\n", b"")


def size(draw):
    """A small number."""
    return draw.randint(*SIZES)


def digits(draw, columns, rows):
    """Rows as digits."""
    return "".join("".join(draw.choice("01") for _ in range(columns)) + "\n" for _ in range(rows))


def members(draw, columns):
    """A row by its columns."""
    return " ".join(map(str, sorted(draw.sample(range(1, columns + 1), draw.randint(0, columns)))))


def lists(draw, columns, rows):
    """Rows by their columns, with the header."""
    return f"{columns}\n" + "".join(members(draw, columns) + "\n" for _ in range(rows))


def table(draw, columns, rows):
    """A table with names."""
    lines = [",".join(["type", *(f"g{k}" for k in range(columns))])]
    lines += [",".join([f"r{k}", *(draw.choice(["", "1", "0", "x", "12"]) for _ in range(columns))]) for k in range(rows)]
    return "\n".join(lines) + "\n"


def number(draw):
    """A number, about the greatest that JSON may have here."""
    digits = draw.choice(["17976931348623157", "17976931348623158", "17976931348623159", str(draw.randint(1, 10 ** 20))])
    behind = "".join(draw.choice("0123456789") for _ in range(draw.randint(0, 24)))
    return f"{digits}{behind}e{draw.choice([300, 308, 308, 309, 309]) - len(digits) - len(behind)}"


def clones(draw, columns, rows):
    """Probes and clones in JSON, with a number beside them."""
    probes = ", ".join(f'"p{k}"' for k in range(columns))
    each = [", ".join(f'"p{k}"' for k in range(columns) if draw.random() < 0.5) for _ in range(rows)]
    listed = ", ".join(f'{{"name": "c{k}", "probes": [{one}]}}' for k, one in enumerate(each))
    return f'{{"length": {number(draw)}, "probes": [{probes}], "clones": [{listed}]}}\n'


def edges(draw, head, most, other):
    """A graph by its edges."""
    return head + "".join(f"{draw.randint(1, most)} {draw.randint(1, other)}\n" for _ in range(draw.randint(0, 7)))


def distances(draw, items):
    """A table of distances between places on a line, some of them moved."""
    places = [draw.randint(0, 9) for _ in range(items)]
    return f"{items}\n" + "".join(" ".join(str(abs(one - other)) for other in places) + "\n" for one in places)


def file_of(draw, kind):
    """A file of a kind."""
    columns, rows = size(draw), draw.randint(0, 6)
    if kind in ("matrix", "circular", "matrices"):
        return digits(draw, columns, rows)
    if kind in ("convex", "doubly"):
        return edges(draw, f"{columns} {size(draw)}\n", columns, 6)
    if kind == "proper":
        return edges(draw, f"{columns}\n", columns, columns)
    if kind == "robinson":
        return distances(draw, columns)
    return {"rows": lists, "table": table, "clones": clones}[kind](draw, columns, rows)


def tree(draw, leaves):
    """The text of a tree over these leaves."""
    if len(leaves) == 1:
        return str(leaves[0])
    cut = sorted(draw.sample(range(1, len(leaves)), draw.randint(1, min(3, len(leaves) - 1))))
    parts = [tree(draw, leaves[begin:end]) for begin, end in zip([0, *cut], [*cut, len(leaves)])]
    opening, closing = draw.choice(["()", "[]"]) if len(parts) > 2 else "()"
    return opening + " ".join(parts) + closing


def shuffled(draw, count):
    """The numbers up to a count, shuffled."""
    return draw.sample(range(1, count + 1), count)


def spoilt(draw, content):
    """The content, about once in six with a byte changed, added or taken away."""
    content = bytearray(content)
    if content and draw.random() < 0.17:
        at = draw.randrange(len(content))
        content[at:at + draw.randint(0, 1)] = bytes(draw.choices(JUNK, k=draw.randint(0, 1)))
    return bytes(content)


def run(draw, solve):
    """The words of a run and its two files. `solve` gives what a run of these words over one file writes, for the judges."""
    command = draw.choice(["solve", "solve", "check", "check", "extend", "extend", "core", "check-core", "list", "unit", "check-unit", "gen", "meet", "other"])
    kind = draw.choice(KINDS if command in ("solve", "check") else PLAIN)
    first = spoilt(draw, file_of(draw, "proper" if command in ("unit", "check-unit") else kind).encode())
    if command == "gen":
        return ["gen", *(str(draw.randint(0, 99)) for _ in range(3))], b"", b""
    if command == "meet":
        count = size(draw)
        trees = [spoilt(draw, (tree(draw, shuffled(draw, count)) + "\n").encode()) for _ in range(2)]
        return ["meet", str(count), "1", "2"], *trees
    if command == "unit":
        return ["unit", "1"], first, b""
    if command == "check-unit":
        return ["check-unit", "1", "2"], first, spoilt(draw, solve(["unit", "1"], first))
    if command == "other":
        others = [["solve", kind, "3"], ["solve", kind], [], ["unit", "1", ""], ["list", kind, "1", "0"], ["solve", kind, "é"]]
        return draw.choice([*others, [f"solve\n{kind}", "1"], ["solve", f"{kind}\r", "1"]]), first, b""
    if command == "extend":
        rows = file_of(draw, kind) if kind != "rows" else "".join(members(draw, 6) + "\n" for _ in range(4))
        return ["extend", kind, "1", "2"], first, spoilt(draw, rows.encode())
    if command == "list":
        return ["list", kind, "1", str(draw.randint(1, 9))], first, b""
    if command in ("check", "check-core"):
        given = solve(["solve" if command == "check" else "core", kind, "1"], first)
        return [command, kind, "1", "2"], first, spoilt(draw, given)
    return [command, kind, "1"], first, b""


def runs(seed, count, solve):
    """So many runs of this seed."""
    draw = random.Random(seed)
    return [run(draw, solve) for _ in range(count)]


def deep_runs():
    """Runs that take the most stack: trees as deep as there may be columns, and an order with nothing fixed."""
    nested = "".join(" ".join(map(str, range(1, end))) + "\n" for end in range(3, COLUMNS + 1))
    rows, tree = f"{COLUMNS}\n{nested}".encode(), b"(" * (COLUMNS - 1) + b"1" + b"".join(b" %d)" % leaf for leaf in range(2, COLUMNS + 1)) + b"\n"
    return [(["list", "rows", "1", "3"], b"%d\n" % COLUMNS, b""), (["list", "rows", "1", "3"], rows, b""),
            (["extend", "rows", "1", "2"], rows, b"1 3\n"), (["meet", str(COLUMNS), "1", "2"], tree, tree)]
