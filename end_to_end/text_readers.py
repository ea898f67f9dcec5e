"""Tables of comma-separated values and clones in JSON, read by the rules of docs/FORMATS.md.

Python's `csv` takes a quote that closes no field and a line end otherwise than that page says, so the reader of records is its own.
"""

import re

from file_readers import EMPTY, GRAMMAR, LIMIT, NO_JSON, RANGE, SHAPE, TWICE, UNEVEN, Matrix, Refused, text_of
from json_reader import NoJson, json_value

# A field: within quotes with what follows them, or plain.
FIELD = re.compile(rb'"((?:[^"]|"")*)(?:"|\Z)([^,\r\n]*)|([^,\r\n]*)')
MARK = re.compile(rb"[xX]|0*[1-9][0-9]*")
NO_MARK = re.compile(rb"0*")


def records_of(text):
    """The records of a table, each as a list of its fields."""
    records, fields, place = [], [], 0
    while place < len(text):
        if not fields and text[place] in b"\r\n":
            place += 1
            continue
        match = FIELD.match(text, place)
        fields.append(match[3] if match[1] is None else match[1].replace(b'""', b'"') + match[2])
        place = match.end() + 1
        if text[match.end():place] != b",":
            records.append(fields)
            fields = []
    if fields:
        records.append([*fields, b""])
    return records


def header_columns(header, limits):
    """The number of columns that a header names."""
    names = [field.strip(b" \t") for field in header[1:]]
    if not names:
        raise Refused(EMPTY, 1)
    if len(names) > limits.columns:
        raise Refused(LIMIT, 1)
    named = [name for name in names if name]
    if len(set(named)) < len(named):
        raise Refused(TWICE, 1)
    return len(names)


def marked_columns(fields, place):
    """The columns that the fields of a record mark."""
    row = set()
    for column, field in enumerate(fields, 1):
        cell = field.strip(b" \t")
        if MARK.fullmatch(cell):
            row.add(column)
        elif not NO_MARK.fullmatch(cell):
            raise Refused(GRAMMAR, place)
    return frozenset(row)


def read_table(content, limits):
    """A matrix as a table of comma-separated values."""
    records = records_of(text_of(content, limits))
    if len({len(record) for record in records}) > 1:
        raise Refused(UNEVEN, 0)
    if not records:
        raise Refused(EMPTY, 0)
    columns = header_columns(records[0], limits)
    rows = []
    for place, record in enumerate(records[1:], 2):
        if len(rows) == limits.rows:
            raise Refused(LIMIT, place)
        rows.append(marked_columns(record[1:], place))
    return Matrix(columns, rows)


def names_in(value, line):
    """The names in the array `probes` of an object."""
    names = value.get("probes") if isinstance(value, dict) else None
    if not isinstance(names, list) or not all(isinstance(name, str) for name in names):
        raise Refused(SHAPE, line)
    return names


def probes_and_clones(value, limits):
    """The probes, each with its column, and the clones as they stand."""
    probes = names_in(value, 0)
    clones = value.get("clones")
    if not isinstance(clones, list):
        raise Refused(SHAPE, 0)
    if not probes:
        raise Refused(EMPTY, 0)
    if len(probes) > limits.columns:
        raise Refused(LIMIT, 0)
    columns = {probe: column for column, probe in enumerate(probes, 1)}
    if len(columns) < len(probes):
        raise Refused(TWICE, 0)
    if len(clones) > limits.rows:
        raise Refused(LIMIT, 0)
    return columns, clones


def read_clones(content, limits):
    """Probes and clones: each probe is a column, and each clone a row."""
    try:
        value = json_value(text_of(content, limits))
    except NoJson as fault:
        raise Refused(NO_JSON, 0) from fault
    columns, clones = probes_and_clones(value, limits)
    rows = []
    for place, clone in enumerate(clones, 1):
        names = names_in(clone, place)
        if not all(name in columns for name in names):
            raise Refused(RANGE, place)
        rows.append(frozenset(columns[name] for name in names))
    return Matrix(len(columns), rows)
