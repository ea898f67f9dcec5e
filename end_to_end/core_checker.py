"""A plain judge of the text of a core, written from docs/FORMATS.md alone."""

import re

from cycles import joined

LIMIT = 1_610_612_736
GREATEST = 4_294_967_295
KINDS = "matrix|rows|table|circular|convex|doubly|proper|robinson|clones"
NUMBER = "(?:0|[1-9][0-9]*)"
HEAD = re.compile(f"pq-core 1\nkind ({KINDS})\ncolumns ({NUMBER})\ncore ({NUMBER})\n".encode())
ENTRY = re.compile(f"row ({NUMBER})\nwithout((?: {NUMBER})+)\n".encode())
CYCLE = re.compile(f"cycle ({NUMBER})\n".encode())
LINE = re.compile(f"({NUMBER}) ({NUMBER}) (?:flip|row ({NUMBER}))\n".encode())


def parsed(text):
    """The kind, the columns, the rows with their orders and the lines of a text; None where it is outside the grammar."""
    head = HEAD.match(text)
    if not head:
        return None
    kind, columns, count = head[1].decode(), int(head[2]), int(head[3])
    at, entries, numbers = head.end(), [], [count]
    while entry := ENTRY.match(text, at):
        order = [int(word) for word in entry[2].split()]
        entries.append((int(entry[1]), order))
        numbers += [int(entry[1]), *order]
        at = entry.end()
    cycle = CYCLE.match(text, at)
    if not cycle or len(entries) != count or not 1 <= columns <= 2048:
        return None
    at, lines = cycle.end(), []
    while line := LINE.match(text, at):
        lines.append((int(line[1]), int(line[2]), None if line[3] is None else int(line[3])))
        numbers += [number for number in lines[-1] if number is not None]
        at = line.end()
    numbers.append(int(cycle[1]))
    if len(lines) != int(cycle[1]) or text[at:] != b"end\n" or max(numbers) > GREATEST:
        return None
    return kind, columns, entries, lines


def keeps(order, row):
    """Whether the columns of the row stand together in the order."""
    places = [place for place, column in enumerate(order) if column in row]
    return not places or places[-1] - places[0] + 1 == len(places)


def lines_fault(columns, rows, core, lines):
    """The first test that the lines of the cycle fail, or None."""
    if len(lines) % 2 == 0 or len(lines) < 3:
        return f"length {len(lines)}"
    pairs = [(a, b) for a, b, _ in lines]
    for number, (a, b) in enumerate(pairs, 1):
        if a == b or not (1 <= a <= columns and 1 <= b <= columns):
            return f"pair {number}"
    seen = set()
    for number, pair in enumerate(pairs, 1):
        if pair in seen:
            return f"repeat {number}"
        seen.add(pair)
    for number, (a, b, row) in enumerate(lines, 1):
        after = pairs[number % len(pairs)]
        if row is not None and row not in core or not joined(rows, (a, b), after, "flip" if row is None else row):
            return f"join {number}"
    return None


def judged(kind, columns, rows, text):
    """What `check-core` has to say of a text on a matrix whose rows are sets of columns."""
    if len(text) > LIMIT:
        return "invalid too-long"
    found = parsed(text)
    if not found:
        return "invalid text"
    its_kind, its_columns, entries, lines = found
    if its_kind != kind:
        return "invalid kind"
    if its_columns != columns:
        return "invalid columns"
    core = [row for row, _ in entries]
    if any(not 1 <= row <= len(rows) for row in core) or any(row >= after for row, after in zip(core, core[1:])):
        return "invalid rows"
    for row, order in entries:
        others = [rows[other - 1] for other in core if other != row]
        if sorted(order) != list(range(1, columns + 1)) or not all(keeps(order, other) for other in others):
            return f"invalid order {row}"
    fault = lines_fault(columns, rows, core, lines)
    return f"invalid {fault}" if fault else "valid"
