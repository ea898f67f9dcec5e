#!/usr/bin/env python3
"""Files made to cost much: each ends with its status within a bound of processor time, and of memory by the bytes that it was handed.

Usage: end_to_end/hostile.py          after `rt ci` or `./pq`, which leave the program in crates/pq/out/pq

It prints a line for each file, with what the program took on it. The bound on memory is twelve times the bytes beside what the program itself
takes; docs/EVIDENCE.md allows more for files that are full of small values.

A text of a core may be as long as twelve verdicts. Those of the greatest length, and the one that is a byte longer, are hollow: zeros behind
a front, for which the disk keeps no bytes. The full ones have the length of a verdict.
"""

import functools
import itertools
import os
import random
import subprocess
import sys
import tempfile
from dataclasses import dataclass
from typing import NamedTuple

from cases import LIMIT, VERDICT_LIMIT
from core_checker import LIMIT as CORE_LIMIT
from cores import CYCLE, FOUR, ORDERS, core_text
from program import HOME, PROGRAM

COLUMNS = 2_048
MOST_ROWS = 131_072
MOST_ITEMS = 256
# The columns of the rows that are all alike: with the line's end 128 bytes, so that as many rows as there may be fill a file.
ALIKE = 127
# Bounds in seconds are for a processor on which this loop of Python takes so long; a slower one has more time.
LOOP = "for turn in range(5_000_000): pass"
LOOP_SECONDS = 0.2
MOST_SECONDS = 5
# How many times as long twice as much may take. It would take four times as long if each row were compared with each other.
MOST_GROWTH = 2.2
# How long `core` may take where it needs each row of a ring, and how much longer than `solve` it may take where it needs three rows of very many,
# beside the start of two programs.
RING_SECONDS = 2
MOST_SOLVES = 3
START_SECONDS = 0.02
# How many times as long a file of one long line may take as one of short lines. It takes about three times as long, and would take eleven times
# if each window were searched again from the start of the line.
MOST_LONG = 5
# Where two times are compared, each is the least of so many, made in turns: what else the machine does makes a run dearer, and none cheaper.
# Where that is not enough to tell, there are more turns, up to so many: on a busy machine one run takes half as long again as the next.
TRIES = 3
MOST_TRIES = 20
MOST_TIMES = 12
# The program, the C library and the room for one read, or the small program that starts it.
BASE_BYTES = 16 << 20
# What docs/EVIDENCE.md allows beside the bytes of files that are full of small values.
CROWDED_BYTES = 256 << 20
# What a run may take over a file that is read through a window and leaves next to nothing, which is less than the file; and over the balls of
# points far apart, which would have 32 MiB.
WINDOWED_BYTES = 12 << 20
COST = os.path.join(HOME, "end_to_end", "cost.py")
MATRIX = b"110\n011\n"
HEAD = b"pq-verdict 1\nkind matrix\ncolumns 3\nanswer "
NO = HEAD + b"no\nside 1\n"
YES = HEAD + b"yes\ntree "
CLONES = b'{"probes":["a"],"clones":['
# The first tree of `meet`, over all columns.
TREE = b"(" + b" ".join(b"%d" % column for column in range(1, COLUMNS + 1)) + b")"
# The text of a core of four rows, and how those begin that are none.
RIGHT_CORE = core_text("core 3", *ORDERS, *CYCLE)
CORE = b"pq-core 1\nkind matrix\ncolumns 3\ncore "
ENTRY = b"row 1\nwithout 1\n"
LINE = b"1 2 flip\n"


@dataclass(frozen=True)
class Hollow:
    """The bytes of a file at its front, and its length; the others are zeros."""

    front: bytes
    length: int

    def __len__(self):
        return self.length


def filled(start, piece, end=b"", length=LIMIT):
    """A start and an end with as many pieces between them as the length has room for."""
    return start + piece * ((length - len(start) - len(end)) // len(piece)) + end


def verdicts():
    """Verdicts of the greatest length, each with what it is made of. None is in the grammar, and each is told at another place."""
    yield "round brackets", filled(YES, b"(", length=VERDICT_LIMIT)
    yield "square brackets", filled(YES, b"[", length=VERDICT_LIMIT)
    yield "nodes of two", filled(YES, b"(1 ", length=VERDICT_LIMIT)
    yield "closing brackets", filled(YES, b")", length=VERDICT_LIMIT)
    yield "digits in a tree", filled(YES, b"9", length=VERDICT_LIMIT)
    yield "digits in an order", filled(YES + b"(1 2 3)\norder ", b"9", length=VERDICT_LIMIT)
    yield "an order without an end", filled(YES + b"(1 2 3)\norder 1", b" 1", length=VERDICT_LIMIT)
    yield "an order of many columns that is followed by nothing", filled(YES + b"(1 2 3)\norder 1", b" 1", b"\n", length=VERDICT_LIMIT)
    yield "one line", filled(b"", b"x", length=VERDICT_LIMIT)
    yield "lines", filled(b"", b"\n", length=VERDICT_LIMIT)
    yield "zeros", filled(b"", b"\0", length=VERDICT_LIMIT)
    yield "the greatest number of lines of a cycle, and as many as there is room for", filled(NO + b"cycle 4294967295\n", b"1 2 flip\n", length=VERDICT_LIMIT)
    yield "the greatest number of lines of a cycle, and one long line", filled(NO + b"cycle 4294967295\n", b"1", length=VERDICT_LIMIT)
    yield "the greatest number of lines of a cycle", NO + b"cycle 4294967295\n"
    yield "the greatest number of places", b"pq-verdict 1\nkind clones\ncolumns 1\nanswer yes\ntree 1\norder 1\nplaces 4294967295\n"
    yield "the greatest number of contigs", b"pq-verdict 1\nkind clones\ncolumns 1\nanswer yes\ntree 1\norder 1\nplaces 0\ncontigs 4294967295\n"


def long_cycle():
    """A verdict in the grammar with as many lines of a cycle as it has room for; the first pair comes twice, or the length is even."""
    lines = (VERDICT_LIMIT - len(NO) - 30) // len(b"1 2 flip\n")
    return NO + b"cycle %d\n" % lines + b"1 2 flip\n" * lines + b"end\n", lines


def hollow_cores():
    """Texts of cores of the greatest length and a byte past it, of which few bytes are no zeros, each with what it is made of and the test
    that fails."""
    yield "zeros, one past the greatest length", Hollow(b"", CORE_LIMIT + 1), b"too-long"
    yield "a right text, and zeros up to one past the greatest length", Hollow(RIGHT_CORE, CORE_LIMIT + 1), b"too-long"
    yield "zeros", Hollow(b"", CORE_LIMIT), b"text"
    yield "a right text, and zeros", Hollow(RIGHT_CORE, CORE_LIMIT), b"text"
    yield "the greatest number of rows, and zeros", Hollow(CORE + b"4294967295\n", CORE_LIMIT), b"text"
    yield "as many rows as there is room for, and zeros", Hollow(CORE + b"%d\n" % room_for(ENTRY, CORE_LIMIT), CORE_LIMIT), b"text"
    yield "the greatest number of lines of a cycle, and zeros", Hollow(CORE + b"0\ncycle 4294967295\n", CORE_LIMIT), b"text"
    yield "as many lines of a cycle as there is room for, and zeros", Hollow(CORE + b"0\ncycle %d\n" % room_for(LINE, CORE_LIMIT), CORE_LIMIT), b"text"


def full_cores():
    """Full texts of cores of the greatest length of a verdict, and short ones of great numbers, each with what it is made of. None is in the
    grammar, and each is told at another place."""
    yield "one line of digits", filled(b"", b"9", length=VERDICT_LIMIT)
    yield "digits in place of the number of rows", filled(CORE, b"9", length=VERDICT_LIMIT)
    yield "zeros before the number of rows", filled(CORE, b"0", b"1\n", length=VERDICT_LIMIT)
    yield "digits in place of a row", filled(CORE + b"1\nrow ", b"9", length=VERDICT_LIMIT)
    yield "digits in an order", filled(CORE + b"1\nrow 1\nwithout ", b"9", length=VERDICT_LIMIT)
    yield "an order without an end", filled(CORE + b"1\nrow 1\nwithout", b" 1", length=VERDICT_LIMIT)
    yield "blanks in place of an order", filled(CORE + b"1\nrow 1\nwithout", b" ", length=VERDICT_LIMIT)
    yield "rows without orders", filled(CORE + b"1000000\n", b"row 1\n", length=VERDICT_LIMIT)
    yield "orders without rows", filled(CORE + b"1000000\n", b"without 1\n", length=VERDICT_LIMIT)
    yield "rows without a cycle", filled(CORE + b"%d\n" % room_for(ENTRY, VERDICT_LIMIT), ENTRY, length=VERDICT_LIMIT)
    yield "the greatest number of rows, and as many as there is room for", filled(CORE + b"4294967295\n", ENTRY, length=VERDICT_LIMIT)
    yield "the greatest number of lines of a cycle, and as many as there is room for", filled(CORE + b"0\ncycle 4294967295\n", LINE, length=VERDICT_LIMIT)
    yield "right texts", filled(b"", RIGHT_CORE, length=VERDICT_LIMIT)
    yield "the greatest number of rows", CORE + b"4294967295\n"
    yield "no rows, and the greatest number of lines of a cycle", CORE + b"0\ncycle 4294967295\n"


def judged_cores():
    """Texts of cores in the grammar, of the greatest length of a verdict, each with what it is made of and the test that fails."""
    rows, lines = room_for(ENTRY, VERDICT_LIMIT), room_for(LINE, VERDICT_LIMIT)
    yield "one row again and again", CORE + b"%d\n" % rows + ENTRY * rows + b"cycle 0\nend\n", b"rows"
    yield "one long order", filled(CORE + b"1\nrow 1\nwithout 1", b" 1", b"\ncycle 0\nend\n", length=VERDICT_LIMIT), b"order 1"
    yield "no rows, and one line again and again", CORE + b"0\ncycle %d\n" % lines + LINE * lines + b"end\n", b"repeat 2" if lines % 2 else b"length %d" % lines


def room_for(piece, length):
    """How many such pieces a text of a core of this length has room for, with a head and an end of at most 100 bytes."""
    return (length - 100) // len(piece)


def refused_files():
    """Instances of the greatest length, each with its kind, what it is made of, and the code and the line of its refusal."""
    yield "clones", "nested arrays", filled(b"", b"["), (9, 0)
    yield "clones", "nested arrays within a clone", filled(CLONES, b"["), (9, 0)
    yield "clones", "nested objects", filled(b"", b'{"a":'), (9, 0)
    yield "clones", "one long string", filled(b'"', b"a", b'"'), (10, 0)
    yield "clones", "one long string without an end", filled(b'"', b"a"), (9, 0)
    yield "clones", "escapes", filled(b'"', b"\\u0061", b'"'), (10, 0)
    yield "clones", "short escapes", filled(b'"', b"\\n", b'"'), (10, 0)
    yield "clones", "a long name of a probe that is not there", filled(CLONES + b'{"probes":["', b"\\u0061", b'"]}]}'), (4, 1)
    yield "clones", "digits", filled(b"", b"9"), (9, 0)
    yield "clones", "arrays in an array", filled(b"[", b"[],", b"[]]"), (10, 0)
    yield "clones", "numbers", filled(b"[1", b",1", b"]"), (10, 0)
    yield "clones", "one name of a member again and again", filled(b'{"a":1', b',"a":1', b"}"), (10, 0)
    yield "table", "one column", filled(b"t\n", b"x\n"), (1, 1)
    yield "table", "quotes", filled(b"", b'"'), (1, 1)
    yield "table", "short records", filled(b"t,a,b\n", b"x\n"), (8, 0)
    yield "rows", "digits", filled(b"", b"9"), (7, 1)
    yield "rows", "lines", filled(b"1\n", b"\n"), (7, 131_074)
    yield "matrix", "ones", filled(b"", b"1"), (7, 1)
    yield "matrix", "rows of one column", filled(b"", b"1\n"), (7, 131_073)
    yield "proper", "digits", filled(b"", b"9"), (7, 1)
    yield "robinson", "digits", filled(b"1\n", b"9"), (4, 2)


def solved_files():
    """Instances of the greatest length that have a valid order, each with its kind and what it is made of."""
    record = b"r" + b"," * COLUMNS + b"\n"
    yield "table", "2,048 empty columns", filled(b"t" + b"," * COLUMNS + b"\n", record)
    yield "table", "2,048 empty columns and short names", filled(b"t" + b"," * COLUMNS + b"\n", b"," * COLUMNS + b"\n")
    yield "table", "a long cell", filled(b"t,a\nx,", b"0", b"1\n")
    yield "clones", "a long string that is passed over", filled(b'{"probes":["a"],"clones":[],"more":"', b"\\u0061", b'"}')
    yield "clones", "a probe of escapes", filled(b'{"probes":["', b"\\u0061", b'"],"clones":[]}')
    yield "rows", "leading zeros", filled(b"", b"0", b"1\n1\n")
    yield "rows", "one column again and again", filled(b"2\n1", b" 1", b"\n")
    yield "matrix", "blanks", filled(b"1\n", b" ")
    yield "proper", "one edge again and again", filled(b"2\n", b"1 2\n")
    yield "convex", "one edge again and again", filled(b"2 2\n", b"1 2\n")
    yield "doubly", "one edge again and again", filled(b"2 2\n", b"1 2\n")


def crowded_files():
    """Files of the greatest length that are full of small values, each with its kind, what it is made of, and the code and the line of its
    refusal."""
    yield "table", "commas", filled(b"", b","), (7, 1)
    yield "clones", "clones without probes", filled(CLONES + b"{}", b",{}", b"]}"), (7, 0)
    yield "clones", "zeros in place of clones", filled(CLONES + b"0", b",0", b"]}"), (7, 0)


def tree_files():
    """Files of the greatest length that are no trees over 2,048 columns, each with what it is made of."""
    yield "round brackets", filled(b"", b"(")
    yield "square brackets", filled(b"", b"[")
    yield "nodes of two", filled(b"", b"(1 ")
    yield "nodes of three", filled(b"", b"[1 2 ")
    yield "closing brackets", filled(TREE, b")")
    yield "digits", filled(b"(", b"9")
    yield "zeros before a number", filled(b"(", b"0", b"1 2)")
    yield "columns", filled(b"(1", b" 1")
    yield "blanks before a tree", filled(b"", b" ", TREE)
    yield "line feeds behind a tree", filled(TREE, b"\n")
    yield "trees", filled(b"", TREE)


def nest(columns):
    """A tree of nested nodes of two over the columns."""
    return b"(" * (columns - 1) + b"1 2)" + b"".join(b" %d)" % column for column in range(3, columns + 1))


def nested_arrays():
    """A clone file with a member that is passed over, of nested arrays."""
    return b'{"probes":["a"],"clones":[],"more":' + filled(b"[", b"[[[[[]]]]],", b"1]}", LIMIT - 40)


class Cost(NamedTuple):
    """What a run took: seconds of the processor, and bytes of memory at the peak."""

    seconds: float
    peak: int

    def problem(self, length, beside):
        """What is wrong with the cost of a run over so many bytes, or None."""
        if self.seconds > MOST_SECONDS * pace():
            return f"{self.seconds:.1f} seconds of the processor"
        return None if self.peak <= beside + MOST_TIMES * length else f"{self.peak} bytes at the peak for {length}"


def write_whole(file, content):
    """Writes the bytes into a file, or the front of a hollow one, whose zeros take no room."""
    with open(file, "wb") as stream:
        stream.write(content.front if isinstance(content, Hollow) else content)
        stream.truncate(len(content))


def run_measured(command, given=b""):
    """A run of a command: its status, its output, its errors, and its cost."""
    with tempfile.TemporaryDirectory() as folder:
        cost = os.path.join(folder, "cost")
        done = subprocess.run([sys.executable, "-IS", COST, cost, str(12 * MOST_SECONDS), *command], input=given, capture_output=True, check=False)
        with open(cost, encoding="utf-8") as stream:
            status, seconds, peak = stream.read().split()
    return (int(status), done.stdout, done.stderr), Cost(float(seconds), int(peak))


@functools.cache
def pace():
    """How many times as long as on the processor that the bounds are for a loop takes here; at least 1."""
    seconds = min(run_measured([sys.executable, "-IS", "-c", LOOP])[1].seconds for _ in range(TRIES))
    return max(1.0, seconds / LOOP_SECONDS)


def measured(words, content, given=None):
    """A run of the program over a file as its last word. Of `meet` the first tree stands on standard input, of other commands a matrix."""
    given = given or {"meet": TREE, "check-core": FOUR}.get(words[0], MATRIX)
    with tempfile.TemporaryDirectory() as folder:
        file = os.path.join(folder, "file")
        write_whole(file, content)
        return run_measured([PROGRAM, *words, file], given)


def averaged(rounds, *run):
    """A run that is made so many times in a row, with the seconds that it took in the mean."""
    made = [measured(*run) for _ in range(rounds)]
    given, cost = made[0]
    return given, cost._replace(seconds=sum(one.seconds for _, one in made) / rounds)


def turns(*runs):
    """Of each of these runs, which are made in turns, each so many times in a row, the turn that took the least time so far: after as many turns
    as there are at the least, and after each further one."""
    least = [averaged(*run) for run in runs]
    for turn in range(2, MOST_TRIES + 1):
        least = [min(one, averaged(*run), key=lambda given: given[1].seconds) for one, run in zip(least, runs)]
        if turn >= TRIES:
            yield least


def least_measured(*runs):
    """Of each of these runs, which are made in turns, the try that took the least time."""
    return next(turns(*((1, *run) for run in runs)))


def rows_alike(count):
    """A matrix of so many rows that are all alike, and a text of a core that names all of them. Each order is valid for all rows; the cycle is
    none, since the rows join no two of its pairs."""
    row = b"1" * (ALIKE - 1) + b"0\n"
    order = b" ".join(b"%d" % column for column in range(1, ALIKE + 1))
    entries = b"".join(b"row %d\nwithout %s\n" % (number, order) for number in range(1, count + 1))
    text = b"pq-core 1\nkind matrix\ncolumns %d\ncore %d\n%scycle 3\n1 2 row 1\n2 3 row 1\n3 1 row 1\nend\n" % (ALIKE, count, entries)
    return row * count, text


def many_orders_problem():
    """What is wrong with how long the orders of a core are judged, or None: those of as many rows as a file has room for within the bound, and
    twice as many in about twice the time. Half as many are judged twice in a row, so that what else the machine does slows both alike."""
    counts = [MOST_ROWS // 2, MOST_ROWS]
    files = [rows_alike(count) for count in counts]
    for runs in turns(*((MOST_ROWS // count, ["check-core", "matrix", "-"], text, matrix) for count, (matrix, text) in zip(counts, files))):
        half, whole = (cost.seconds for _, cost in runs)
        if whole <= MOST_GROWTH * half:
            break
    for count, (matrix, text), (given, cost) in zip(counts, files, runs):
        print(f"a core of {count} rows that are all alike: {cost.seconds:.2f} seconds, {cost.peak} bytes at the peak for {len(matrix)} and {len(text)}", flush=True)
        problem = difference(given, (1, b"invalid join 1\n", b"")) or cost.problem(len(matrix) + len(text), BASE_BYTES)
        if problem:
            return problem
    return None if whole <= MOST_GROWTH * half else f"{whole:.2f} seconds after {half:.2f}"


def rows_file(rows):
    """A file of kind `rows` over the most columns."""
    return b"%d\n" % COLUMNS + b"".join(b" ".join(b"%d" % column for column in row) + b"\n" for row in rows)


def ring():
    """As many rows of two columns as there are columns, of which each other is needed for a contradiction."""
    return rows_file([(column, column + 1) for column in range(1, COLUMNS)] + [(1, COLUMNS)])


def late_contradictions():
    """As many rows as there may be, each with what they are; the last three contradict one another, and no other row is needed for it."""
    rng = random.Random(20261129)
    starts = [rng.randint(1, COLUMNS - 20) for _ in range(MOST_ROWS - 3)]
    yield "sparse rows", rows_file([range(start, start + rng.randint(2, 20)) for start in starts] + [(1, 2), (2, 3), (1, 3)])
    nest = [range(1, 2 + number % 30) for number in range(MOST_ROWS - 3)]
    yield "nested rows", rows_file(nest + [(COLUMNS - 1, COLUMNS), (COLUMNS - 2, COLUMNS), (COLUMNS - 2, COLUMNS - 1)])


def core_count(given):
    """How many rows the text of a core names, or None where there is none."""
    lines = given[1].split(b"\n", 4)
    return int(lines[3].split()[1]) if given[0] == 0 and lines[3].startswith(b"core ") else None


def ring_problem():
    """What is wrong with the core of a ring, or with how long it takes, or None."""
    [(given, cost)] = least_measured((["core", "rows"], ring()))
    print(f"core of a ring of {COLUMNS} columns: {cost.seconds:.2f} seconds, {cost.peak} bytes at the peak", flush=True)
    if core_count(given) != COLUMNS:
        return f"{given[0]}, {given[1][:100]}"
    return None if cost.seconds <= RING_SECONDS * pace() else f"{cost.seconds:.2f} seconds, and the processor takes {pace():.1f} times as long as a quick one"


def late_problem(what, content):
    """What is wrong with the core of rows of which the last three contradict one another, or with how long it takes, or None."""
    (given, cost), (_, solved) = least_measured((["core", "rows"], content), (["solve", "rows"], content))
    print(f"core of {what}: {cost.seconds:.2f} seconds, and {solved.seconds:.2f} to solve them, {cost.peak} bytes at the peak for {len(content)}", flush=True)
    if core_count(given) != 3:
        return f"{given[0]}, {given[1][:100]}"
    if cost.seconds > MOST_SOLVES * solved.seconds + START_SECONDS:
        return f"{cost.seconds:.2f} seconds, and {solved.seconds:.2f} to solve them"
    return cost.problem(len(content), BASE_BYTES)


def difference(given, wanted):
    """How the status, the output and the errors differ from those that are wanted, or None. The wanted output is left out where it is free."""
    given = [one[:200] if isinstance(one, bytes) else one for one in given]
    return None if all(want is None or want == one for want, one in zip(wanted, given)) else f"{given}, wanted {wanted}"


def windowed_files():
    """Each kind whose file is read through a window, with one near the limit of which little is kept."""
    zeros = (b"0" * COLUMNS + b"\n") * ((LIMIT - 1) // (COLUMNS + 1))
    yield "matrix", zeros
    yield "circular", zeros
    yield "rows", b"%d\n" % COLUMNS + (b" " * 120 + b"\n") * (MOST_ROWS - 1)
    for kind, head in [("convex", b"3 3\n"), ("doubly", b"3 3\n"), ("proper", b"3\n")]:
        yield kind, head + b"1 2\n" + b"\n" * (LIMIT - 16)


def far_points():
    """A table of distances of points farther and farther apart. Each has about as many balls as there are points: eight million ones, of which
    none is kept."""
    points = [place * place for place in range(MOST_ITEMS)]
    return b"%d\n" % MOST_ITEMS + b"".join(b" ".join(b"%d" % abs(one - other) for other in points) + b"\n" for one in points)


def long_lines():
    """Each kind whose file is read through a window, with two files near the limit: one long line with blanks at its end, and the same with line
    feeds among them."""
    for kind, head in [("matrix", b"1"), ("circular", b"1"), ("rows", b"1\n1"), ("convex", b"1 1\n1 1"), ("doubly", b"1 1\n1 1"), ("proper", b"2\n1 2")]:
        yield kind, filled(head, b" ", b"\n"), filled(head + b"\n", b" " * 159 + b"\n")


def long_line_problem(kind, line, lines):
    """What is wrong with how long a line is read, or None: it takes no more than some times what as many bytes in short lines take."""
    (given, cost), (wanted, short) = least_measured((["solve", kind], line), (["solve", kind], lines))
    print(f"{kind} of one long line: {cost.seconds:.3f} seconds, and {short.seconds:.3f} in short lines, {cost.peak} bytes at the peak for {len(line)}", flush=True)
    problem = difference(given, (0, None, b"")) or difference(wanted, (0, None, b"")) or cost.problem(len(line), BASE_BYTES)
    if problem is None and cost.seconds > MOST_LONG * short.seconds + START_SECONDS:
        return f"{cost.seconds:.3f} seconds, and {short.seconds:.3f} in short lines"
    return problem


def window_problem(kind, content):
    """What is wrong with what a run keeps of such a file, or None."""
    given, cost = measured(["solve", kind], content)
    print(f"{kind}, of which little is kept: {cost.peak} bytes at the peak for {len(content)}", flush=True)
    return difference(given, (0, None, b"")) or (None if cost.peak <= WINDOWED_BYTES else f"{cost.peak} bytes at the peak")


def hostile_cores():
    """Each hostile text of a core, as the files of `hostile`."""
    unread = ((what, text, b"text") for what, text in full_cores())
    for what, text, test in itertools.chain(hollow_cores(), unread, judged_cores()):
        yield f"a core of {what}", ["check-core", "matrix", "-"], text, (1, b"invalid %s\n" % test, b""), BASE_BYTES


def hostile():
    """Each hostile file with its name, the words that it is run on, the status, output and errors that are wanted, and the bytes of memory that
    it may take beside its own."""
    for what, verdict in verdicts():
        yield f"a verdict of {what}", ["check", "matrix", "-"], verdict, (1, b"invalid text\n", b""), BASE_BYTES
    verdict, lines = long_cycle()
    line = b"invalid repeat 2\n" if lines % 2 else b"invalid length %d\n" % lines
    yield "a verdict with a cycle of the greatest length", ["check", "matrix", "-"], verdict, (1, line, b""), BASE_BYTES
    yield from hostile_cores()
    for kind, what, content, (code, line) in refused_files():
        yield f"{kind} of {what}", ["solve", kind], content, (3, b"", b"pq: refused 1 code %d line %d\n" % (code, line)), BASE_BYTES
    for kind, what, content in solved_files():
        yield f"{kind} of {what}", ["solve", kind], content, (0, None, b""), BASE_BYTES
    for kind, what, content, (code, line) in crowded_files():
        yield f"{kind} of {what}", ["solve", kind], content, (3, b"", b"pq: refused 1 code %d line %d\n" % (code, line)), CROWDED_BYTES
    # A search among all pairs of columns would take 28 bytes for each.
    yield "rows of a ring", ["solve", "rows"], ring(), (1, None, b""), BASE_BYTES
    yield "clones of a member of nested arrays", ["solve", "clones"], nested_arrays(), (0, None, b""), BASE_BYTES
    for what, content in tree_files():
        yield f"a tree of {what}", ["meet", str(COLUMNS), "-"], content, (3, b"", b"pq: refused 2 code 12 line 0\n"), BASE_BYTES
    yield "a tree nested 2,047 deep", ["meet", str(COLUMNS), "-"], nest(COLUMNS), (0, None, b""), CROWDED_BYTES


def hostile_problems():
    """Each hostile file with what is wrong, or None. They are run one after another, so that they do not slow each other; what each cost is
    printed."""
    for name, words, content, wanted, beside in hostile():
        given, cost = measured(words, content)
        times = f", {cost.peak / len(content):.2f} times" if len(content) > LIMIT // 2 else ""
        print(f"{name}: status {given[0]}, {cost.seconds:.2f} seconds, {cost.peak} bytes at the peak for {len(content)}{times}", flush=True)
        yield f"hostile: {name}", difference(given, wanted) or cost.problem(len(content), beside)
    for kind, content in windowed_files():
        yield f"hostile: {kind} through a window", window_problem(kind, content)
    yield "hostile: robinson of points far apart", window_problem("robinson", far_points())
    for kind, line, lines in long_lines():
        yield f"hostile: {kind} of one long line", long_line_problem(kind, line, lines)
    yield "hostile: the orders of a core of the most rows", many_orders_problem()
    yield "hostile: the core of a ring", ring_problem()
    for what, content in late_contradictions():
        yield f"hostile: the core of {what}", late_problem(what, content)


def main():
    failed = [f"FAILED {name}: {problem}" for name, problem in hostile_problems() if problem is not None]
    print(*failed, f"{len(failed)} failed", sep="\n")
    return 1 if failed else 0


if __name__ == "__main__":
    sys.exit(main())
