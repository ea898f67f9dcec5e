#!/usr/bin/env python3
"""Reads any table, asks `pq`, and writes a page with names and a picture. Each claim comes from a text that `pq` judged.

    pqpage look FILE                 what would be read, and what looks wrong; writes nothing
    pqpage report FILE OUT           OUT.html, OUT.svg, OUT.csv (the table in order), OUT.json, and the proof (OUT.in, OUT.verdict, and after a no more)
    pqpage json FILE                 the answer with names on standard output, for scripts
    pqpage convert FILE OUT.in       the exact file for pq, with OUT.names.json
    pqpage again OUT.json            judges the proof anew, and that the page, the names and the picture are those of the texts

`pqpage COMMAND -h` lists the words of each. The status is 0 for an answer, yes or no (with --status 0 for yes and 1 for no); 2 where the
words are wrong; 3 where the file can't be read as it is; 4, 5 and 6 as of `pq` for a read fault, a write fault and no memory; 7 where
the proof did not check. From a script: `pqpage.answer(path, order="columns")` gives the dictionary of `json`.
"""

import argparse
import errno
import json
import os
import signal
import sys

from pqparts import cells, report
from pqparts.finding import MOST_CORES, asked, cycle_over, judge_cycle, rows_of
from pqparts.others import clones_question, distances_question, graph_of_edges, plain_question
from pqparts.library import calls
from pqparts.program import version
from pqparts.spoken import Words, answer_lines
from pqparts.stops import NO_MEMORY, NOT_PROVED, NOT_READABLE, READ_FAULT, WORDS, WRITE_FAULT, Stop
from pqparts.tables import FIRST, NONE, Reading, long_question, wide_question, words_of_marks
from pqparts.texts import bytes_of, decoded

KINDS = ["matrix", "rows", "table", "clones", "circular", "convex", "doubly", "proper", "robinson"]
INTERRUPTED = 130
# Words on how a file is read, and for each form of a file those that say something about it.
SAYING = ["order", "header", "separator", "encoding", "line_names", "drop", "marks", "absent", "value", "digits"]
FORMS = {"plain": "a file of pq as it is", "graph": "a list of edges", "long": "a long table", "distances": "distances", "json": "clones in JSON",
         "wide": "a wide table"}
SAID = {"plain": [], "graph": ["header", "separator", "encoding", "drop"], "long": ["header", "separator", "encoding", "drop", "value"],
        "distances": ["header", "separator", "encoding", "line_names", "drop", "digits"], "json": ["encoding", "drop"],
        "wide": ["order", "header", "separator", "encoding", "line_names", "drop", "marks", "absent"]}
# The endings of the files of a report: those that a reader looks at, and the texts of the proof.
SHOWN = ["json", "csv", "svg", "html"]
CORES = ["core", *(f"core{number}" for number in range(2, MOST_CORES + 1))]
PROOF = ["in", "verdict", "rows", "agreed", *CORES]


def form_of(words):
    """How the words say that a file is read; None of a wide table or JSON."""
    asked = [form for form in ("plain", "graph", "long", "distances") if getattr(words, form)]
    if len(asked) > 1:
        raise Stop(WORDS, f"--{asked[0]} and --{asked[1]} say two things: which is the file?")
    return asked[0] if asked else None


def fitting(words, form):
    """Stops where a word can't be meant, or says nothing about a file of this form."""
    if words.header is not None and words.header < (0 if form == "graph" else 1):
        raise Stop(WORDS, f"--header {words.header}: lines count from 1")
    if words.digits is not None and words.digits < 0:
        raise Stop(WORDS, f"--digits {words.digits}: there are no fewer than 0")
    if words.separator is not None and (len(words.separator) != 1 or words.separator in '"\r\n'):
        raise Stop(WORDS, f"--separator {words.separator!r}: one character separates fields")
    if words.long and (len(words.long) != 2 or words.long[0] == words.long[1]):
        raise Stop(WORDS, "--long needs two names of the header, as in --long clone,probe")
    wrong = [mark for mark in words.marks if mark.startswith(">") and cells.number(mark[1:]) is None]
    if wrong:
        raise Stop(WORDS, f"--marks {wrong[0]!r}: a number stands behind >")
    if form == "distances" and words.kind not in (None, "robinson"):
        raise Stop(WORDS, f"distances can be asked about as robinson, not as {words.kind}")
    for name in SAYING:
        if getattr(words, name) not in (None, []) and name not in SAID[form] and not (form == "long" and words.value and name in ("marks", "absent")):
            raise Stop(WORDS, f"--{name.replace('_', '-')} says nothing about {FORMS[form]}")


def question_of(content, where, words):
    """The question that a file asks, by the user's words."""
    form = form_of(words)
    if form:
        fitting(words, form)
    reading = Reading(words.kind, words.order, words.header, words.separator, words.line_names, words.drop, cells.Marks(words.marks, words.absent),
                      words.long,
                      words.value, words.digits)
    if words.plain:
        return plain_question(content, where, reading)
    text, encoding = decoded(content, where, words.encoding)
    if not form:
        fitting(words, "json" if is_json(text) else "wide")
    if words.graph:
        question = graph_of_edges(text, where, reading)
    else:
        reading.header = 1 if reading.header is None else reading.header
        ask = long_question if words.long else distances_question if words.distances else clones_question if is_json(text) else wide_question
        question = ask(text, where, reading)
    question.notes.insert(0, f"{where}: read as {encoding}")
    return question


def is_json(text):
    """Whether a text is an object of JSON and no table."""
    return text.lstrip().startswith("{")


def read(words):
    """The question of the file that the words name, and the bytes of that file."""
    content = bytes_of(words.file)
    question = question_of(content, words.file, words)
    if words.strict and question.warnings:
        raise Stop(NOT_READABLE, f"{words.file}: {question.warnings[0]}")
    past = question.too_large()
    if past:
        raise Stop(NOT_READABLE, f"{words.file}: {past}")
    return question, content


def spoken(question, words):
    """What the things and the rows are called: the user's words, else the question's own."""
    return words.things or question.called[0], words.rows or question.called[1]


def found(words):
    """The question, what pq found, and what is told besides."""
    question, content = read(words)
    pq = calls(words.pq)
    try:
        finding = asked(pq, question, words.trust, words.rare_first, words.cores)
    except (ValueError, KeyError, TypeError, AttributeError, IndexError) as error:
        raise Stop(NOT_PROVED, f"{pq.path}: what it wrote is no text of this version of pq") from error
    told = report.Told(os.path.basename(words.file), report.sum_of(content), sum_of_program(pq.path), version(), *spoken(question, words), words.title,
                       words.date,
                       words.cores, question.notes, question.warnings)
    return question, finding, told


def sum_of_program(path):
    """The sum of the program or the library at a path: of the script `./pq` of a checkout that of what it built."""
    folder, name = os.path.split(os.path.realpath(path))
    built = os.path.join(folder, "crates", "pq", "out", "pq")
    return report.sum_of(bytes_of(built if name == "pq" and os.path.exists(built) else path))


def tell(line):
    """A line for the user."""
    print(f"pqpage: {line}", file=sys.stderr, flush=True)


def read_here(words):
    """The question of a file that is read without pq."""
    question, _ = read(words)
    if not question.sides:
        raise Stop(NOT_READABLE,
                   f"{words.file}: this is no file of the kind {words.kind}: pq solve {words.kind} {words.file} says which line is wrong")
    return question


def look(words):
    """Tells what would be read, and what looks wrong."""
    question = read_here(words)
    for note in question.notes:
        print(note)
    for number, side in enumerate(question.sides, 1):
        things, rows = Words(question.kind, *spoken(question, words)).of_side(number)
        print(f"{len(side.things)} {things} to put in order: {side.things[0]} .. {side.things[-1]}")
        print(f"{len(side.shown())} {rows}{f': {side.names[0]} .. {side.names[-1]}' if side.names else ''}")
    for warning in question.warnings:
        print(f"warning: {warning}")
    return 0


def status_of(finding, words):
    """The status of an answer."""
    return 0 if finding.verdict.is_yes or not words.status else 1


def as_json(value):
    """A dictionary as a text, the same for the same dictionary."""
    return json.dumps(value, ensure_ascii=False, indent=1) + "\n"


def write_json(words):
    """Writes the answer with names on standard output."""
    question, finding, told = found(words)
    warn(question)
    value = report.report_value(question, finding, told)
    del value["kept"]
    sys.stdout.buffer.write(as_json(value).encode("utf-8", "surrogateescape"))
    sys.stdout.flush()
    return status_of(finding, words)


def warn(question):
    """Tells the warnings."""
    for warning in question.warnings:
        tell(f"warning: {warning}")


def files_of(question, finding, told, name):
    """The files of a report, by their endings: the page and the pictures, and the texts of the proof."""
    made = {}
    found_no = finding.contradiction
    made["in"], made["verdict"] = question.content, finding.verdict_text
    if found_no:
        if question.kind != "rows":
            made["rows"] = question.sides[found_no.side - 1].as_rows()
        for number, text in enumerate(found_no.core_texts, 1):
            made["core" if number == 1 else f"core{number}"] = text
        made["agreed"] = found_no.agreed_text
    value = {**report.report_value(question, finding, told), "files": sorted([*made, *SHOWN])}
    made["json"] = as_json(value).encode("utf-8", "surrogateescape")
    made["csv"] = report.ordered_table(question, finding).encode("utf-8", "surrogateescape")
    made["svg"] = next(report.pictures_of(question, finding))[1].encode("utf-8", "replace")
    made["html"] = report.page(question, finding, told, name).encode("utf-8", "replace")
    return made


def write_report(words):
    """Writes the page, the picture, the table in order, the dictionary and the texts of the proof."""
    named_out(words)
    question, finding, told = found(words)
    warn(question)
    made = files_of(question, finding, told, os.path.basename(words.out))
    write_all({f"{words.out}.{ending}": content for ending, content in made.items()})
    # what an older report of this name has besides
    for ending in PROOF:
        if ending not in made and os.path.exists(f"{words.out}.{ending}"):
            os.remove(f"{words.out}.{ending}")
    print(f"{answer_lines(question, finding, Words(question.kind, told.things, told.rows))[0]} The page is {words.out}.html")
    return status_of(finding, words)


def write_all(contents):
    """Writes files, each whole or not at all; an older file stays where a write fails."""
    made = []
    try:
        for path, content in contents.items():
            if os.path.exists(path) and not os.path.isfile(path):
                raise Stop(WRITE_FAULT, f"{path}: there is a folder or a device of this name")
            made.append(path)
            with open(f"{path}.new", "wb") as stream:
                stream.write(content)
        for path in made:
            os.replace(f"{path}.new", path)
    except OSError as error:
        raise Stop(WRITE_FAULT, f"{made[-1]}: {error.strerror}") from error
    finally:
        for path in made:
            if os.path.exists(f"{path}.new"):
                os.remove(f"{path}.new")


def named_out(words):
    """Stops where the name of what is to be written is none."""
    if words.out == "-" or not os.path.basename(words.out):
        raise Stop(WORDS, f"{words.out!r} is no name of a file to write")


def convert(words):
    """Writes the exact file for pq, and the names."""
    named_out(words)
    question = read_here(words)
    warn(question)
    names = {"kind": question.kind, "sides": [{"things": side.things, "rows": side.names} for side in question.sides], "read": question.notes}
    stem = words.out.removesuffix(".in")
    write_all({words.out: question.content, f"{stem}.names.json": as_json(names).encode("utf-8", "surrogateescape")})
    print(f"pq solve {question.kind} {words.out}")
    return 0


def text_beside(stem, ending):
    """The bytes of a file of a report, or None where there is none."""
    path = f"{stem}.{ending}"
    return bytes_of(path) if os.path.exists(path) else None


def again(words):
    """Judges the proof of a report anew, makes the report again from its texts, and compares all its files."""
    stem = words.file.removesuffix(".json")
    try:
        value = json.loads(bytes_of(words.file).decode("utf-8", "surrogateescape"))
        content, verdict_text, agreed_text = (text_beside(stem, ending) if ending in value["files"] else None
                                              for ending in ("in", "verdict", "agreed"))
        core_texts = [text_beside(stem, ending) for ending in CORES if ending in value["files"]]
        question, finding, told = report.again_of(value, content, verdict_text, core_texts, agreed_text)
        program = calls(words.pq)
        judge_again(program, question, finding)
        made = files_of(question, finding, told, os.path.basename(stem))
    except Stop as stop:
        raise Stop(NOT_PROVED if stop.status in (WORDS, NOT_READABLE) else stop.status, str(stop)) from stop
    except (ValueError, KeyError, TypeError, AttributeError, IndexError, RecursionError) as error:
        raise Stop(NOT_PROVED, f"{words.file}: this is not a whole report of pqpage: {error}") from error
    for ending, wanted in made.items():
        if text_beside(stem, ending) != wanted:
            raise Stop(NOT_PROVED, f"{stem}.{ending} is not what its texts say")
    print("The proof is valid, and the page, the names and the picture are those of its texts.")
    return 0


def judge_again(program, question, finding):
    """Has pq judge each text of a report."""
    program.judge(["check", question.kind], question.content, finding.verdict_text)
    contradiction = finding.contradiction
    if contradiction is None:
        return
    side = question.sides[contradiction.side - 1]
    left = list(range(len(side.rows)))
    for core, text in zip(contradiction.cores, contradiction.core_texts):
        program.judge(["check-core", "rows"], side.as_rows(left), text)
        gone = set(core["rows"])
        left = [place for place in left if place not in gone]
    program.judge(["check", "rows"], side.as_rows(contradiction.agreed), contradiction.agreed_text)
    for one in contradiction.aside:
        places = rows_of(one.cycle)
        judge_cycle(program, side, places, cycle_over(one.cycle, places))


def answer(path, **given):
    """The answer about a file as a dictionary, by the words of `json` without their dashes: `order="columns"`, `long=["clone", "probe"]`.

    A file of `path` is read as by `pqpage json`. A pandas frame goes in by its own CSV: `frame.to_csv(path)`. What stops a call is a
    `pqpage.Stop` with a `status` and a line."""
    words = parser().parse_args(["json", path])
    for name, value in given.items():
        if not hasattr(words, name):
            raise TypeError(f"there is no word {name}")
        setattr(words, name, value)
    question, finding, told = found(words)
    value = report.report_value(question, finding, told)
    del value["kept"]
    return value


class Parser(argparse.ArgumentParser):
    """Wrong words end with status 2 and one line."""

    def error(self, message):
        raise Stop(WORDS, f"{message}; {self.prog} -h tells the words")


def reading_words(part):
    """The words on how a file is read."""
    part.add_argument("file", metavar="FILE", help="the table; - is standard input")
    part.add_argument("--kind", choices=KINDS, help="what is asked; else rows for tables, clones for JSON, robinson for distances, proper for graphs")
    part.add_argument("--order", choices=["lines", "columns"], help="of a wide table: what is to be put in order")
    part.add_argument("--long", type=lambda text: text.split(","), metavar="ROW,THING",
                      help="a long table: a line for each row and thing, by these two columns")
    part.add_argument("--value", metavar="COLUMN", help="of a long table: the column that says whether a line counts")
    part.add_argument("--distances", action="store_true", help="a table of distances")
    part.add_argument("--digits", type=int, metavar="N", help="of distances: round to so many digits behind the point; else all are kept")
    part.add_argument("--graph", action="store_true", help="a list of edges, two names a line")
    part.add_argument("--plain", action="store_true", help="a file of pq as it is, of the kind that --kind says")
    part.add_argument("--header", type=int, metavar="N", help="the line of the header; of a list of edges 0 where there is none")
    part.add_argument("--separator", metavar="C", type=lambda text: "\t" if text in ("tab", "\\t") else text,
                      help="what separates fields, where more than one could; tab for a tab")
    part.add_argument("--encoding", help="the encoding; else UTF-8, by its mark UTF-16, and what is neither is Windows-1252")
    part.add_argument("--line-names", choices=[FIRST, NONE], help="whether the first column has the names of the lines")
    part.add_argument("--drop", action="append", default=[], metavar="NAME", help="leave out a line or a column")
    part.add_argument("--marks", type=words_of_marks, default=[], metavar="A,B,>N", help="the cells that count; else x and whole numbers above 0")
    part.add_argument("--absent", type=words_of_marks, default=[], metavar="A,B", help="cells that don't count, besides blank ones and 0")
    part.add_argument("--strict", action="store_true", help="a warning stops the call")
    part.add_argument("--things", help="what the things that are put in order are called")
    part.add_argument("--rows", help="what the rows are called")


def asking_words(part):
    """The words on how pq is asked."""
    part.add_argument("--pq", metavar="PATH",
                      help="the program; else the one that $PQ names; else the library libpq.so that $PQ_LIBRARY names, or the one of this checkout if "
                           "it is of this version; else the pq of this checkout, or the one on the PATH")
    part.add_argument("--trust", type=words_of_marks, default=[], metavar="NAME,..", help="after a no: rows that are taken first")
    part.add_argument("--rare-first", action="store_true", help="after a no: take rows with few marks first")
    part.add_argument("--cores", type=int, choices=range(MOST_CORES + 1), default=MOST_CORES, metavar="N",
                      help=f"after a no: at most so many cores, {MOST_CORES} if left out")
    part.add_argument("--status", action="store_true", help="the status is 1 for a no")
    part.add_argument("--title", help="the title of the page")
    part.add_argument("--date", help="the date on the page; else it has none")


def parser():
    """The words of the command line."""
    top = Parser(prog="pqpage", description=__doc__, formatter_class=argparse.RawDescriptionHelpFormatter)
    top.add_argument("--version", action="version", version=version())
    parts = top.add_subparsers(dest="command", metavar="COMMAND", required=True, parser_class=Parser)
    for name, run, says in [("look", look, "what would be read"), ("json", write_json, "the answer with names"),
                            ("report", write_report, "a page with its proof"),
                            ("convert", convert, "the exact file for pq")]:
        part = parts.add_parser(name, help=says, description=says)
        reading_words(part)
        if name in ("json", "report"):
            asking_words(part)
        if name in ("report", "convert"):
            part.add_argument("out", metavar="OUT" if name == "report" else "OUT.in")
        part.set_defaults(run=run)
    part = parts.add_parser("again", help="judges a report anew", description="judges a report anew")
    part.add_argument("file", metavar="OUT.json")
    part.add_argument("--pq", metavar="PATH", help="the program; else it is found as for a report")
    part.set_defaults(run=again)
    return top


def ended(given):
    """Runs the command that the words name, up to the last byte of its output."""
    if sys.stdout is None:
        raise Stop(WRITE_FAULT, "standard output is closed")
    try:
        words = parser().parse_args(given)
    except SystemExit:
        # of -h and --version; wrong words are a Stop
        sys.stdout.flush()
        return 0
    status = words.run(words)
    sys.stdout.flush()
    return status


def main(given):
    """The status of a call. What stops it is told in one line."""
    try:
        return ended(given)
    except Stop as stop:
        tell(stop)
        return stop.status
    except MemoryError:
        tell("no memory")
        return NO_MEMORY
    except BrokenPipeError:
        os.dup2(os.open(os.devnull, os.O_WRONLY), sys.stdout.fileno())
        tell("standard output was closed")
        return WRITE_FAULT
    except OSError as error:
        tell(error)
        if error.errno != errno.ENOSPC:
            return READ_FAULT
        os.dup2(os.open(os.devnull, os.O_WRONLY), sys.stdout.fileno())
        return WRITE_FAULT
    except KeyboardInterrupt:
        tell("stopped")
        return INTERRUPTED


if __name__ == "__main__":
    signal.signal(signal.SIGTERM, signal.default_int_handler)
    sys.exit(main(sys.argv[1:]))
