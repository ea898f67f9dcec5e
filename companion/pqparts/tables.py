"""Wide and long tables as questions."""

import json
import re
from dataclasses import dataclass, field

from . import cells
from .question import bipartite_question, circular_question, rows_question
from .stops import WORDS, Stop, unreadable
from .texts import sheet

FIRST, NONE = "first", "none"


@dataclass
class Reading:
    """The user's words on how a file is read; each is asked for where it changes the answer."""

    kind: str = None
    order: str = None
    header: int = 1
    separator: str = None
    line_names: str = None
    drop: list = field(default_factory=list)
    marks: cells.Marks = field(default_factory=cells.Marks)
    long: list = None
    value: str = None
    digits: int = None


@dataclass
class Axis:
    """The columns, or the lines, of a table: their names, and where each stands in the file."""

    word: str
    names: list
    places: list
    where: str

    def named_twice(self):
        """Stops where a name is missing or stands twice."""
        seen = {}
        for name, place in zip(self.names, self.places):
            if not name:
                raise unreadable(self.where, f"{self.word} {place} has no name: name it, or say --header N if the header is line N")
            if name in seen:
                raise unreadable(self.where, f"{self.word}s {seen[name]} and {place} have the same name {name!r}: name one of them otherwise")
            seen[name] = place

    def without(self, dropped):
        """The places in the axis that are kept where these names are dropped."""
        return [at for at, name in enumerate(self.names) if name not in dropped]


@dataclass
class Table:
    """A wide table: its two axes, and the cells as text."""

    where: str
    lines: Axis
    columns: Axis
    cells: list
    notes: list
    warnings: list = field(default_factory=list)


def wide(text, where, reading):
    """A wide table, blank columns at its end left out and told."""
    found = sheet(text, where, reading.separator, reading.header)
    header, body = found.records[0], found.records[1:]
    if not body:
        raise unreadable(where, "there is a header and no line below it")
    last = max(at for record in found.records for at, cell in enumerate(record.fields) if cell) + 1
    if last < len(header.fields):
        found.notes.append(f"blank columns at the end, which are left out: {len(header.fields) - last}")
    blank = [at for at in range(1, last) if not any(record.fields[at] for record in found.records)]
    if blank:
        found.notes.append(f"blank columns are left out: {', '.join(str(at + 1) for at in blank)}")
    begin = 0 if has_no_line_names(body, where, reading) else 1
    kept = [at for at in range(begin, last) if at not in blank]
    if not kept:
        raise unreadable(where, "no column is left below the header but that of the names")
    names = [record.fields[0] for record in body] if begin else [f"line {record.line}" for record in body]
    return Table(where, Axis("line", names, [record.line for record in body], where),
                 Axis("column", [header.fields[at] for at in kept], [at + 1 for at in kept], where),
                 [[record.fields[at] for at in kept] for record in body], found.notes)


def has_no_line_names(body, where, reading):
    """Whether the first column is one of cells and not one of names; asked for where it could be either."""
    if reading.line_names is not None:
        return reading.line_names == NONE
    if all(reading.marks.judge(record.fields[0]) != cells.UNKNOWN for record in body):
        raise unreadable(where, "the first column has marks alone, so it may be one of cells: say --line-names none, or --line-names first if "
                                "these are names")
    return False


def dropped(table, reading):
    """The table without the columns and lines of the names that are dropped, which is told."""
    known = set(table.lines.names) | set(table.columns.names)
    for name in reading.drop:
        if name not in known:
            raise unreadable(table.where, f"there is no column and no line {name!r} to drop")
    lines, columns = table.lines.without(reading.drop), table.columns.without(reading.drop)
    table.notes += told_drop(reading.drop)
    if not lines or not columns:
        raise unreadable(table.where, "nothing is left after --drop")
    return Table(table.where, Axis("line", [table.lines.names[at] for at in lines], [table.lines.places[at] for at in lines], table.where),
                 Axis("column", [table.columns.names[at] for at in columns], [table.columns.places[at] for at in columns], table.where),
                 [[table.cells[line][column] for column in columns] for line in lines], table.notes, table.warnings)


def judged(table, marks):
    """Each cell as whether it counts. The first that is neither stops the call, with its file, line and names."""
    found = []
    for name, place, row in zip(table.lines.names, table.lines.places, table.cells):
        verdicts = [marks.judge(cell) for cell in row]
        if cells.UNKNOWN in verdicts:
            at = verdicts.index(cells.UNKNOWN)
            raise unreadable(table.where,
                             f"line {place} ({name}), column {table.columns.places[at]} ({table.columns.names[at]}): the cell {row[at]!r} is "
                             "neither a mark "
                             f"nor blank: say --marks {row[at]!r},.. if it counts, --absent {row[at]!r} if not, or --drop the column or the line")
        found.append([verdict == cells.PRESENT for verdict in verdicts])
    return found


def suspicious(axis, texts, verdicts):
    """Warnings of columns or lines that may be no finds: sums, numbers, years, or full ones."""
    for name, text, row in zip(axis.names, texts, verdicts):
        if cells.LIKE_A_SUM.fullmatch(name):
            yield f"the {axis.word} {name!r} is named like a sum, a number or a date: if it is one, say --drop {name!r}"
        elif cells.is_like_years(text):
            yield f"the {axis.word} {name!r} is full of years: if these are dates, say --drop {name!r}"
        elif len(row) > 1 and all(row):
            yield f"the {axis.word} {name!r} has a mark in every cell, and fixes nothing"


def question_of(reading, things, rows, names, default):
    """The question about these rows, by the kind that was asked for."""
    kind = reading.kind or default
    if kind == "rows":
        return rows_question(things, rows, names)
    if kind == "circular":
        return circular_question(things, rows, names)
    if kind in ("convex", "doubly"):
        return bipartite_question(kind, things, rows, names)
    if kind == "clones":
        return clone_question(things, rows, names)
    raise Stop(WORDS, f"a table can be asked about as rows, circular, convex, doubly or clones, not as {kind}")


def kept_of(things, rows, names, drop, where):
    """The things, the rows and their names that are left without those of the names that are dropped; each of these has to be there."""
    unknown = [name for name in drop if name not in set(things) | set(names)]
    if unknown:
        raise unreadable(where, f"there is no column and no row {unknown[0]!r} to drop")
    kept = [number for number, thing in enumerate(things, 1) if thing not in drop]
    if drop and not kept:
        raise unreadable(where, "nothing is left after --drop")
    place = {number: at for at, number in enumerate(kept, 1)}
    chosen = [at for at, name in enumerate(names) if name not in drop]
    left = [[place[number] for number in rows[at] if number in place] for at in chosen]
    return [things[number - 1] for number in kept], left, [names[at] for at in chosen]


def told_drop(drop):
    """The note on what was dropped."""
    return [f"left out by --drop: {', '.join(drop)}"] if drop else []


def clone_question(probes, rows, names):
    """Probes and clones as the JSON that `pq` reads."""
    question = rows_question(probes, rows, names)
    value = {"probes": probes, "clones": [{"name": name, "probes": [probes[at - 1] for at in row]} for name, row in zip(names, rows)]}
    question.kind, question.content = "clones", json.dumps(value, ensure_ascii=False).encode()
    return question


def wide_question(text, where, reading):
    """The question of a wide table. Which way round it lies changes the answer, so it has to be said."""
    if reading.order not in ("lines", "columns"):
        raise Stop(WORDS, "a wide table needs --order lines or --order columns: which of the two are to be put in order? "
                          "Other tables need --long, --distances or --graph")
    table = dropped(wide(text, where, reading), reading)
    table.lines.named_twice()
    table.columns.named_twice()
    verdicts = judged(table, reading.marks)
    table.warnings += suspicious(table.columns, list(zip(*table.cells)), list(zip(*verdicts)))
    table.warnings += suspicious(table.lines, table.cells, verdicts)
    things, others = (table.columns, table.lines) if reading.order == "columns" else (table.lines, table.columns)
    across = verdicts if reading.order == "columns" else list(zip(*verdicts))
    rows = [[at for at, is_present in enumerate(row, 1) if is_present] for row in across]
    question = question_of(reading, things.names, rows, others.names, "rows")
    question.notes, question.warnings = [*table.notes, reading.marks.said(), f"the {reading.order} are to be put in order"], table.warnings
    question.called = ("columns", "lines") if reading.order == "columns" else ("lines", "columns")
    return question


def long_question(text, where, reading):
    """The question of a long table: a line for each row and thing that belong together."""
    found = sheet(text, where, reading.separator, reading.header)
    header = found.records[0].fields
    asked = [*reading.long, *([reading.value] if reading.value else [])]
    for name in asked:
        if header.count(name) != 1:
            raise unreadable(where, f"line {found.records[0].line}: {'no column' if name not in header else 'more than one column'} {name!r} in "
                                    f"the header ({', '.join(header)})")
    row_at, thing_at, *value_at = (header.index(name) for name in asked)
    things, rows, twice = {}, {}, 0
    for record in found.records[1:]:
        row, thing = record.fields[row_at], record.fields[thing_at]
        if not row:
            raise unreadable(where, f"line {record.line}: no {reading.long[0]}")
        members = rows.setdefault(row, set())
        if not thing:
            continue
        number = things.setdefault(thing, len(things) + 1)
        verdict = reading.marks.judge(record.fields[value_at[0]]) if value_at else cells.PRESENT
        if verdict == cells.UNKNOWN:
            raise unreadable(where, f"line {record.line}: the value {record.fields[value_at[0]]!r} is neither a mark nor blank: say --marks or "
                                    "--absent")
        if verdict == cells.PRESENT:
            twice += number in members
            members.add(number)
    if not things:
        raise unreadable(where, f"no line names a {reading.long[1]}")
    kept = kept_of(list(things), [sorted(members) for members in rows.values()], list(rows), reading.drop, where)
    question = question_of(reading, *kept, "rows")
    others = [name for name in header if name not in asked]
    question.notes = [*found.notes, *([f"columns that are not read: {', '.join(others)}"] if others else []),
                      *([f"lines that say what an earlier line says: {twice}"] if twice else []), *told_drop(reading.drop)]
    return question


def words_of_marks(text):
    """The marks in a list with commas."""
    return [one for one in re.split(r",", text) if one]
