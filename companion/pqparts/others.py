"""Clones in JSON, distances, graphs, and files of `pq` as they are, as questions."""

import csv
import io
import json
from decimal import MAX_EMAX, MAX_PREC, MIN_EMIN, Context

from . import cells
from .question import Question, bipartite_question, circular_question, distance_question, graph_question, rows_question
from .stops import WORDS, Stop, unreadable
from .tables import FIRST, NONE, clone_question, kept_of, question_of, told_drop
from .texts import sheet

MOST_DIGITS = 18
MOST_DISTANCE = 2**64 - 1
# No digit is lost; differences are told with 60 digits.
EXACT, ROUGH = Context(prec=MAX_PREC, Emax=MAX_EMAX, Emin=MIN_EMIN), Context(prec=60, Emax=MAX_EMAX, Emin=MIN_EMIN)


def clones_question(text, where, reading):
    """Probes and clones from JSON: an object with `probes`, a list of names, and `clones`, objects with `probes` and maybe a `name`."""
    try:
        value = json.loads(text)
    except (ValueError, RecursionError) as error:
        raise unreadable(where, f"no JSON: {error}") from error
    probes, clones = (value.get("probes"), value.get("clones")) if isinstance(value, dict) else (None, None)
    if not is_text(value):
        raise unreadable(where, "a name in it has half a character, an escape from \\ud800 to \\udfff alone")
    if not is_names(probes) or not isinstance(clones, list):
        raise unreadable(where, 'no object with a list of names "probes" and a list "clones"')
    twice = first_twice(probes)
    if twice is not None:
        raise unreadable(where, f"the probe {twice!r} is named twice")
    places, rows, names = {name: at for at, name in enumerate(probes, 1)}, [], []
    for number, clone in enumerate(clones, 1):
        held = clone.get("probes") if isinstance(clone, dict) else None
        if not is_names(held):
            raise unreadable(where, f'clone {number} has no list of names "probes"')
        name = clone.get("name")
        names.append(name if isinstance(name, str) and name else f"clone {number}")
        unknown = [probe for probe in held if probe not in places]
        if unknown:
            raise unreadable(where, f"clone {number} ({names[-1]}) holds {unknown[0]!r}, which is no probe")
        rows.append(sorted({places[probe] for probe in held}))
    twice = first_twice(names)
    if twice is not None:
        raise unreadable(where, f"two clones are named {twice!r}: name one of them otherwise")
    question = question_of(reading, *kept_of(probes, rows, names, reading.drop, where), "clones")
    question.notes = told_drop(reading.drop)
    return question


def is_text(value):
    """Whether a value of JSON can be written as UTF-8: escapes can make halves of characters."""
    try:
        json.dumps(value, ensure_ascii=False).encode()
    except UnicodeEncodeError:
        return False
    return True


def is_names(value):
    """Whether a value of JSON is a list of texts."""
    return isinstance(value, list) and all(isinstance(one, str) for one in value)


def first_twice(names):
    """The first name that stands twice, or None."""
    seen = set()
    for name in names:
        if name in seen:
            return name
        seen.add(name)
    return None


def distances_question(text, where, reading):
    """A table of distances, with names at its head and sides or without. Each number is kept as it is, or rounded where digits are asked for."""
    found = sheet(text, where, reading.separator, reading.header)
    names, rows, lines = named_square(found, where, reading)
    values = [[distance_of(cell, where, lines[at], names, at, other) for other, cell in enumerate(row)] for at, row in enumerate(rows)]
    shift = digits_of(values, where, reading.digits)
    whole = [[int(value.scaleb(shift, EXACT).to_integral_value()) for value in row] for row in values]
    notes = [*found.notes, f"distances are taken with {shift} digits behind the point"]
    worst = asymmetry(values)
    if worst[0]:
        notes.append(f"the table isn't symmetric: {names[worst[1]]} and {names[worst[2]]} differ most, by {worst[0]:g}")
    refuse_unequal(whole, names, where, lines)
    question = distance_question(names, whole, shift)
    question.notes = notes
    return question


def named_square(found, where, reading):
    """The names, the rows of cells, and the line of each row of a square table."""
    records = found.records
    has_names = reading.line_names
    if has_names is None:
        head = records[0].fields
        is_numeric = all(cells.number(cell) is not None for cell in head)
        has_names = NONE if is_numeric and len(records) == len(head) and zero_diagonal(records) else FIRST
        if is_numeric and has_names == FIRST and len(records) == len(head):
            raise unreadable(where, "the first line has numbers alone, and the diagonal isn't 0: say --line-names first or --line-names none")
    body = records if has_names == NONE else records[1:]
    begin = 0 if has_names == NONE else 1
    names = [f"item {at}" for at in range(1, len(body) + 1)] if has_names == NONE else [record.fields[0] for record in body]
    rows = [record.fields[begin:] for record in body]
    if any(len(row) != len(body) for row in rows):
        raise unreadable(where, f"the table isn't square: {len(body)} lines and {len(rows[0])} columns of distances")
    if has_names == FIRST and names != records[0].fields[1:]:
        raise unreadable(where, f"the names at the head ({', '.join(records[0].fields[1:4])}, ..) are not those at the side "
                                f"({', '.join(names[:3])}, ..)")
    twice = first_twice(names)
    if twice is not None or not all(names):
        raise unreadable(where, "an item has no name" if twice is None else f"two items are named {twice!r}")
    unknown = [name for name in reading.drop if name not in names]
    if unknown:
        raise unreadable(where, f"there is no item {unknown[0]!r} to drop")
    kept = [at for at, name in enumerate(names) if name not in reading.drop]
    if not kept:
        raise unreadable(where, "nothing is left after --drop")
    found.notes += told_drop(reading.drop)
    return [names[at] for at in kept], [[rows[at][other] for other in kept] for at in kept], [body[at].line for at in kept]


def zero_diagonal(records):
    """Whether the distance of each item to itself is 0."""
    return all(not cells.number(record.fields[at]) for at, record in enumerate(records) if cells.number(record.fields[at]) is not None)


def distance_of(cell, where, line, names, at, other):
    """The number in a cell of a table of distances."""
    value = cells.number(cell)
    if value is None or value < 0:
        what = "no number" if value is None else "below 0"
        raise unreadable(where, f"line {line} ({names[at]}), column {names[other]}: {cell!r} is {what}, so it is no distance")
    if at == other and value:
        raise unreadable(where, f"line {line}: the distance of {names[at]} to itself is {cell}: of a table of similarities make distances first")
    return value


def digits_of(values, where, asked):
    """How many digits behind the point are kept: as many as were asked for, or all."""
    present = max((-value.normalize(EXACT).as_tuple().exponent for row in values for value in row), default=0)
    shift = max(present, 0) if asked is None else asked
    most = max((value for row in values for value in row), default=0)
    if shift > MOST_DIGITS or most.scaleb(shift, EXACT) > MOST_DISTANCE:
        raise unreadable(where, f"distances with {shift} digits behind the point don't fit into 64 bits: say --digits N, N as many as matter")
    return shift


def asymmetry(values):
    """The greatest difference of a distance from that of the other way, with where it stands."""
    found = [(ROUGH.abs(ROUGH.subtract(values[at][other], values[other][at])), at, other) for at in range(len(values)) for other in range(at)]
    return max(found, key=lambda one: one[0], default=(0, 0, 0))


def refuse_unequal(whole, names, where, lines):
    """Stops where a distance differs from that of the other way after rounding."""
    for at, row in enumerate(whole):
        for other in range(at):
            if row[other] != whole[other][at]:
                raise unreadable(where, f"line {lines[at]}: the distances of {names[at]} and {names[other]} differ both ways: mend them, or round "
                                        "by --digits N")


def graph_of_edges(text, where, reading):
    """A graph from a list of edges: two names a line; a name alone is a vertex. The first line is a header where --header says so."""
    if reading.header is None:
        raise Stop(WORDS, "a list of edges needs --header 0, or --header N where line N names the columns: a first line could be either")
    kind = reading.kind or "proper"
    lefts, rights, edges, twice = {}, {}, set(), 0
    others = lefts if kind == "proper" else rights
    for number, names in lines_of_edges(text, where, reading):
        left, right = names[0], names[1] if len(names) == 2 else None
        if others is lefts and left == right:
            raise unreadable(where, f"line {number}: an edge from {left!r} to itself")
        kept = [(side, name) for side, name in ((lefts, left), (others, right)) if name is not None and name not in reading.drop]
        ends = [side.setdefault(name, len(side) + 1) for side, name in kept]
        if len(ends) == 2:
            edge = (min(ends), max(ends)) if others is lefts else tuple(ends)
            twice += edge in edges
            edges.add(edge)
    if not lefts or not others:
        raise unreadable(where, "nothing is left after --drop" if reading.drop else "there is no edge in it")
    question = edges_question(kind, list(lefts), list(rights), edges)
    question.notes = ([f"edges that are named more than once: {twice}"] if twice else []) + told_drop(reading.drop)
    return question


def lines_of_edges(text, where, reading):
    """The lines of a list of edges that have a name, each with its number and its one or two names. What is to be dropped has to be there."""
    separator = reading.separator or next((one for one in ("\t", ";", ",") if one in text), " ")
    reader = csv.reader(io.StringIO(text, newline=""), delimiter=separator, skipinitialspace=True, strict=True)
    found, known = [], set()
    try:
        for row in reader:
            names = [part for part in (cell.strip() for cell in row) if part]
            if len(names) > 2 and reader.line_num > reading.header:
                raise unreadable(where, f"line {reader.line_num} has {len(names)} names, and an edge has two")
            if names and reader.line_num > reading.header:
                found.append((reader.line_num, names))
                known.update(names)
    except csv.Error as error:
        raise unreadable(where, f"line {reader.line_num}: {error}: see whether each quote is closed") from error
    unknown = [name for name in reading.drop if name not in known]
    if unknown:
        raise unreadable(where, f"there is no vertex {unknown[0]!r} to drop")
    return found


def edges_question(kind, lefts, rights, edges):
    """The question about these edges."""
    if kind == "proper":
        return graph_question(lefts, edges)
    if kind not in ("convex", "doubly"):
        raise Stop(WORDS, f"a list of edges can be asked about as proper, convex or doubly, not as {kind}")
    rows = [[] for _ in lefts]
    for left, right in sorted(edges):
        rows[left - 1].append(right)
    return bipartite_question(kind, rights, rows, lefts)


def plain_question(content, where, reading):
    """A file of `pq` as it is, which goes to `pq` byte for byte. Names are numbers where the kind has none."""
    if reading.kind is None:
        raise Stop(WORDS, "a file of pq as it is needs --kind")
    body = content.removeprefix(b"\xef\xbb\xbf")
    try:
        question = PLAIN[reading.kind](body.decode("utf-8", "surrogateescape"), reading.kind)
    except (ValueError, IndexError, KeyError, TypeError, RecursionError):
        # `pq` says what is wrong with the file.
        question = Question(reading.kind, content, [])
    question.content = content
    return question


def numbered(word, count):
    """Names of things that have numbers alone."""
    return [f"{word} {number}" for number in range(1, count + 1)]


def plain_lines(text):
    """The lines of a text, and the numbers of those that aren't blank."""
    lines = text.removesuffix("\n").split("\n")
    return lines, [[int(word) for word in line.split()] for line in lines if line.split()]


def plain_digits(text, kind):
    """Lines of digits."""
    rows = [line for line in ("".join(line.split()) for line in text.split("\n")) if line]
    found = [[at for at, digit in enumerate(row, 1) if digit == "1"] for row in rows]
    ask = circular_question if kind == "circular" else rows_question
    question = ask(numbered("column", len(rows[0])), found, numbered("row", len(rows)))
    question.kind = kind
    return question


def plain_rows(text, kind):
    """Rows that name their columns."""
    lines, _ = plain_lines(text)
    rows = [sorted({int(word) for word in line.split()}) for line in lines[1:]]
    return rows_question(numbered("column", int(lines[0])), rows, numbered("row", len(rows)))


def plain_table(text, kind):
    """A table with commas."""
    records = [record for record in csv.reader(io.StringIO(text, newline="")) if record]
    marks = cells.Marks()
    rows = [[at for at, cell in enumerate(record[1:], 1) if marks.judge(cell.strip(" \t")) == cells.PRESENT] for record in records[1:]]
    things = [name.strip(" \t") or f"column {at}" for at, name in enumerate(records[0][1:], 1)]
    names = [record[0].strip(" \t") or f"row {at}" for at, record in enumerate(records[1:], 1)]
    question = rows_question(things, rows, names)
    question.kind = kind
    return question


def plain_clones(text, kind):
    """Probes and clones."""
    value = json.loads(text)
    places = {name: at for at, name in enumerate(value["probes"], 1)}
    rows = [sorted({places[name] for name in clone["probes"]}) for clone in value["clones"]]
    names = [clone.get("name") if isinstance(clone.get("name"), str) else f"clone {at}" for at, clone in enumerate(value["clones"], 1)]
    return clone_question(value["probes"], rows, names)


def plain_bigraph(text, kind):
    """A bipartite graph by numbers."""
    (lefts, rights), *edges = plain_lines(text)[1]
    found = [set() for _ in range(lefts)]
    for left, right in edges:
        found[left - 1].add(right)
    return bipartite_question(kind, numbered("right", rights), [sorted(row) for row in found], numbered("left", lefts))


def plain_graph(text, kind):
    """A graph by numbers."""
    (count,), *edges = plain_lines(text)[1]
    return graph_question(numbered("vertex", count), {(min(edge), max(edge)) for edge in edges})


def plain_distances(text, kind):
    """Distances by numbers."""
    (count,), *rows = plain_lines(text)[1]
    return distance_question(numbered("item", count), rows)


PLAIN = {"matrix": plain_digits, "circular": plain_digits, "rows": plain_rows, "table": plain_table, "clones": plain_clones, "convex": plain_bigraph,
         "doubly": plain_bigraph, "proper": plain_graph, "robinson": plain_distances}
