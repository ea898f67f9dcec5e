"""The files that `pq` takes, read by the rules of docs/FORMATS.md: what a file holds, or its first refusal.

Written from that page alone, as is checker.py. This file has the kinds that are made of lines; text_readers.py has tables and clones.
"""

from typing import NamedTuple

BYTE_ORDER_MARK = b"\xef\xbb\xbf"
MOST_WORD = 2 ** 64 - 1
# The codes of refusals.
EMPTY, GRAMMAR, COUNT, RANGE, TWICE, DISAGREES, LIMIT, UNEVEN, NO_JSON, SHAPE = range(1, 11)


class Limits(NamedTuple):
    """What a file and a verdict may have at most."""

    columns: int = 2_048
    rows: int = 131_072
    items: int = 256
    file_bytes: int = 16_777_216
    verdict_bytes: int = 134_217_728


class Refused(Exception):
    """The first refusal of a file: its code and its line."""

    def __init__(self, code, line):
        super().__init__(f"code {code} line {line}")


class Matrix(NamedTuple):
    """A number of columns, and rows as sets of columns."""

    columns: int
    rows: list


class Graph(NamedTuple):
    """A number of vertices, and the neighbours of each in turn."""

    vertices: int
    neighbours: list


def text_of(content, limits):
    """The bytes of a file of a length within the limit, without a byte order mark."""
    if len(content) > limits.file_bytes:
        raise Refused(LIMIT, 0)
    return content.removeprefix(BYTE_ORDER_MARK)


def lines_of(text):
    """The lines of a text. What follows the last line feed is a line too, unless nothing does."""
    if text and not text.endswith(b"\n"):
        text += b"\n"
    return text.replace(b"\r\n", b"\n").split(b"\n")[:-1]


def without_blanks(line):
    """The bytes of a line that are no blanks."""
    return line.translate(None, b" \t")


def words_of(line):
    """The words of a line."""
    return list(filter(None, line.replace(b"\t", b" ").split(b" ")))


def filled_lines(text):
    """The lines that are not blank, each with its number."""
    return [(number, line) for number, line in enumerate(lines_of(text), 1) if without_blanks(line)]


def number_of(word):
    """The number that a word is, or None. Of those past 64 bits any one will do."""
    if not word.isdigit():
        return None
    digits = word.lstrip(b"0")
    return int(digits or b"0") if len(digits) <= 20 else MOST_WORD + 1


def numbers_within(words, place, least, most):
    """The numbers that the words of a line are, each from the least to the most: they are judged from left to right."""
    numbers = []
    for word in words:
        number = number_of(word)
        if number is None:
            raise Refused(GRAMMAR, place)
        if not least <= number <= most:
            raise Refused(RANGE, place)
        numbers.append(number)
    return numbers


def numbers_of(line, place, count):
    """The numbers of a line that has exactly so many words."""
    numbers = [number_of(word) for word in words_of(line)]
    if len(numbers) != count or None in numbers:
        raise Refused(GRAMMAR, place)
    return numbers


def sizes_of(line, place, *limits):
    """The sizes on a first line, one for each limit."""
    sizes = numbers_of(line, place, len(limits))
    if 0 in sizes:
        raise Refused(RANGE, place)
    if any(size > limit for size, limit in zip(sizes, limits)):
        raise Refused(LIMIT, place)
    return sizes


def sizes_and_lines(content, limits, *size_limits):
    """The sizes on the first line of a graph that is not blank, one for each limit, and the lines behind it, each with its number."""
    lines = lines_of(text_of(content, limits))
    head = next((place for place, line in enumerate(lines, 1) if without_blanks(line)), None)
    if head is None:
        raise Refused(EMPTY, 0)
    return sizes_of(lines[head - 1], head, *size_limits), first_lines(lines, head)


def first_lines(lines, place):
    """The lines behind a place that are not blank, each with its number, where it comes first. One that comes again has the same edge, and is
    refused after the first."""
    for line in dict.fromkeys(lines[place:]):
        place = lines.index(line, place) + 1
        if without_blanks(line):
            yield place, line


def edges_of(lines, left, right):
    """The edges on these lines, each with the number of its line."""
    for place, line in lines:
        a, b = numbers_of(line, place, 2)
        if not (1 <= a <= left and 1 <= b <= right):
            raise Refused(RANGE, place)
        yield place, a, b


def read_dense(content, limits):
    """A matrix as lines of digits."""
    columns, rows = None, []
    for place, line in filled_lines(text_of(content, limits)):
        if len(rows) == limits.rows:
            raise Refused(LIMIT, place)
        digits = without_blanks(line)
        if digits.strip(b"01"):
            raise Refused(GRAMMAR, place)
        if columns is None:
            columns = len(digits)
            if columns > limits.columns:
                raise Refused(LIMIT, place)
        if len(digits) != columns:
            raise Refused(COUNT, place)
        rows.append(frozenset(column for column, digit in enumerate(digits, 1) if digit == ord("1")))
    if not rows:
        raise Refused(EMPTY, 0)
    return Matrix(columns, rows)


def rows_on(lines, first, columns, limits):
    """The rows on these lines, that name their columns; the first of them stands on this line. A word that comes again names the same column."""
    rows = []
    for place, line in enumerate(lines, first):
        if place - first == limits.rows:
            raise Refused(LIMIT, place)
        rows.append(frozenset(numbers_within(dict.fromkeys(words_of(line)), place, 1, columns)))
    return rows


def read_rows(content, limits):
    """A matrix as lines that name columns."""
    lines = lines_of(text_of(content, limits))
    if not lines:
        raise Refused(EMPTY, 0)
    (columns,) = sizes_of(lines[0], 1, limits.columns)
    return Matrix(columns, rows_on(lines[1:], 2, columns, limits))


def read_further(content, columns, limits):
    """Further rows over these columns."""
    return rows_on(lines_of(text_of(content, limits)), 1, columns, limits)


def read_graph(content, limits):
    """A graph: its size, and its edges."""
    (vertices,), lines = sizes_and_lines(content, limits, limits.columns)
    neighbours = [set() for _ in range(vertices)]
    for place, a, b in edges_of(lines, vertices, vertices):
        if a == b:
            raise Refused(DISAGREES, place)
        neighbours[a - 1].add(b)
        neighbours[b - 1].add(a)
    return Graph(vertices, neighbours)


def read_bigraph(content, left_limit, limits):
    """A bipartite graph: the neighbours of each vertex of the left side, and those of each of the right side."""
    (left, right), lines = sizes_and_lines(content, limits, left_limit, limits.columns)
    of_left, of_right = [set() for _ in range(left)], [set() for _ in range(right)]
    for _, a, b in edges_of(lines, left, right):
        of_left[a - 1].add(b)
        of_right[b - 1].add(a)
    return of_left, of_right


def read_convex(content, limits):
    """A bipartite graph whose left side may be long."""
    return read_bigraph(content, limits.rows, limits)


def read_doubly(content, limits):
    """A bipartite graph of which both sides are to be ordered."""
    return read_bigraph(content, limits.columns, limits)


def read_distances(content, limits):
    """A table of distances."""
    filled = filled_lines(text_of(content, limits))
    if not filled:
        raise Refused(EMPTY, 0)
    place, line = filled[0]
    (items,) = sizes_of(line, place, limits.items)
    table = []
    for place, line in filled[1:]:
        if len(table) == items:
            raise Refused(COUNT, place)
        row = numbers_within(words_of(line), place, 0, MOST_WORD)
        if len(row) != items:
            raise Refused(COUNT, place)
        item = len(table)
        if row[item] != 0 or any(row[other] != table[other][item] for other in range(item)):
            raise Refused(DISAGREES, place)
        table.append(row)
    if len(table) < items:
        raise Refused(COUNT, 0)
    return table
