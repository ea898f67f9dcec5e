"""The bytes of a file as text, with what was found out about them."""

import codecs
import csv
import io
import sys
from dataclasses import dataclass, field

from .stops import READ_FAULT, Stop, unreadable

# What a file begins with that is no text, with what to do.
CONTAINERS = [(b"PK\x03\x04", "a zip file, as .xlsx and .ods are: save the sheet as CSV"), (b"\x1f\x8b", "a gzip file: unpack it first"),
              (b"%PDF", "a PDF: save the table as CSV"), (b"\xd0\xcf\x11\xe0", "an old office file (.xls): save the sheet as CSV")]
SEPARATORS = {";": "semicolon", ",": "comma", "\t": "tab"}
# Fields of any length are read.
csv.field_size_limit(sys.maxsize)


def bytes_of(path):
    """The bytes of a file; of `-` those of standard input."""
    try:
        if path == "-":
            if sys.stdin is None:
                raise Stop(READ_FAULT, "standard input is closed")
            return sys.stdin.buffer.read()
        with open(path, "rb") as stream:
            return stream.read()
    except OSError as error:
        raise Stop(READ_FAULT, f"{path}: {error.strerror}") from error


def decoded(content, where, encoding=None):
    """The text of these bytes, and the name of its encoding. Bytes that are no UTF-8 are Windows-1252, which is told."""
    for start, what in CONTAINERS:
        if content.startswith(start):
            raise unreadable(where, f"this is {what}")
    if encoding:
        try:
            return content.decode(encoding).removeprefix("\ufeff"), encoding
        except (LookupError, UnicodeError) as error:
            raise unreadable(where, f"no text in {encoding}: {error}") from error
    for mark, name in [(codecs.BOM_UTF8, "utf-8-sig"), (codecs.BOM_UTF16_LE, "utf-16"), (codecs.BOM_UTF16_BE, "utf-16")]:
        if content.startswith(mark):
            return decoded(content, where, name)
    if b"\0" in content:
        raise unreadable(where, "there are zero bytes in it: no text, or UTF-16 without a mark; say --encoding utf-16-le or utf-16-be")
    try:
        return content.decode("utf-8"), "utf-8"
    except UnicodeDecodeError:
        return decoded(content, where, "cp1252")


@dataclass
class Record:
    """A record of a table: the line of the file on which it ends, and its fields without the blanks at their ends."""

    line: int
    fields: list

    def is_blank(self):
        """Whether no field has anything in it."""
        return not any(self.fields)


@dataclass
class Sheet:
    """The records of a table from its header on, blank lines left out, with what was found out."""

    where: str
    records: list
    notes: list = field(default_factory=list)


def split(text, separator, where):
    """The records of a text. A line without a field is a record without fields."""
    reader = csv.reader(io.StringIO(text, newline=""), delimiter=separator, strict=True)
    try:
        found = [Record(reader.line_num, [cell.strip() for cell in row]) for row in reader]
    except csv.Error as error:
        raise unreadable(where, f"line {reader.line_num}: {error}: see whether each quote is closed") from error
    return [record if record.fields != [""] else Record(record.line, []) for record in found]


def candidates_of(text, where, separators, header):
    """The records by each separator by which the text can be split, and the stops of the others."""
    found, stops = {}, []
    for one in separators:
        try:
            found[one] = without_titles(split(text, one, where), header)
        except Stop as stop:
            stops.append(stop)
    return found, stops


def widths(records):
    """How many fields the records have, each number once."""
    return sorted({len(record.fields) for record in records if record.fields})


def without_titles(records, header):
    """The records from the line of the header on."""
    return [record for record in records if record.line >= header]


def fits(records):
    """Whether records are those of a table: each has as many fields as the first, which are two or more."""
    found = widths(record for record in records if record.fields)
    return len(found) == 1 and found[0] > 1


def header_line(candidates):
    """The line from which on the records of some separator are those of a table, or None; a table has two records or more."""
    for records in candidates.values():
        filled = [record for record in records if record.fields]
        for at in range(1, len(filled) - 1):
            if fits(filled[at:]):
                return filled[at].line
    return None


def sheet(text, where, separator=None, header=1):
    """The table of a text. What separates fields is found where one separator alone gives a table."""
    candidates, stops = candidates_of(text, where, [separator] if separator else SEPARATORS, header)
    fitting = [one for one, records in candidates.items() if fits(records)]
    if len(fitting) > 1:
        raise unreadable(where, f"both {' and '.join(SEPARATORS[one] for one in fitting)} separate fields here: say --separator")
    if not fitting and stops and not any(len(record.fields) > 1 for records in candidates.values() for record in records):
        raise stops[0]
    if not fitting:
        raise unreadable(where, misfit(candidates, header))
    records = candidates[fitting[0]]
    blank = [record for record in records if record.is_blank()]
    notes = [f"fields are separated by {SEPARATORS.get(fitting[0], repr(fitting[0]))}"]
    if header > 1:
        notes.append(f"the header is line {header}; the lines before it are left out")
    if any(record.fields for record in blank):
        notes.append(f"blank lines, which are left out: {len(blank)}")
    return Sheet(where, [record for record in records if not record.is_blank()], notes)


def misfit(candidates, header):
    """Why no separator gives a table, and what to say."""
    line = header_line(candidates)
    if line is not None and line != header:
        return f"lines before line {line} have another number of fields than the table: if the header is line {line}, say --header {line}"
    most, records = max(candidates.items(), key=lambda one: sum(len(record.fields) for record in one[1]))
    filled = [record for record in records if record.fields]
    if not filled:
        return "there is nothing in it" if header == 1 else f"there is nothing in it from line {header} on"
    if max(len(record.fields) for record in filled) < 2:
        return "no line has two fields that are separated by a semicolon, a comma or a tab"
    wanted = len(filled[0].fields)
    record = next(record for record in filled if len(record.fields) != wanted)
    return (f"line {record.line} has {len(record.fields)} fields and line {filled[0].line} has {wanted} (separated by {SEPARATORS.get(most, most)}): "
            "mend that line, or say --header N if the header is line N")
