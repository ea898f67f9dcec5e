"""Odd cycles of the incompatibility graph, by its rule."""

import re


def joined(rows, pair, other, why):
    """Whether the reason joins the two ordered pairs in the incompatibility graph."""
    (a, b), (c, d) = pair, other
    if why == "flip":
        return (a, b) == (d, c)
    row = rows[int(why) - 1]

    def crosses(first, middle, again, last):
        return middle == again and first != last and first in row and last in row and middle not in row

    return crosses(a, b, c, d) or crosses(c, d, a, b)


def cycle_problem(columns, rows, lines):
    """What is wrong with an odd cycle, or None."""
    pairs, reasons = [], []
    for line in lines:
        match = re.fullmatch(r"(\d+) (\d+) (?:(flip)|row (\d+))", line)
        if not match:
            return f"line {line!r}"
        pairs.append((int(match[1]), int(match[2])))
        reasons.append(match[3] or match[4])
    if len(pairs) < 3 or len(pairs) % 2 == 0:
        return f"length {len(pairs)}"
    if len(set(pairs)) < len(pairs) or any(a == b or not (1 <= a <= columns and 1 <= b <= columns) for a, b in pairs):
        return "pairs"
    for place, why in enumerate(reasons):
        if why != "flip" and not 1 <= int(why) <= len(rows):
            return f"row of line {place + 1}"
        if not joined(rows, pairs[place], pairs[(place + 1) % len(pairs)], why):
            return f"join {place + 1}"
    return None


def printed_problem(columns, rows, lines):
    """What is wrong with an odd cycle that the program prints, which has at most one flip and c(c - 1)/2 + 1 lines, or None."""
    flips = sum(line.endswith(" flip") for line in lines)
    if flips > 1:
        return f"{flips} flips"
    if 2 * len(lines) > columns * (columns - 1) + 2:
        return f"{len(lines)} lines"
    return cycle_problem(columns, rows, lines)
