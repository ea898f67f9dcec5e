#!/usr/bin/env python3
"""Draws runs of every command and kind, and compares what the program writes with plain programs of the same rules.

Usage: end_to_end/fuzz.py [--library FILE] SEED COUNT [PART ..]     after `rt ci` or `./pq`, which leave the program in crates/pq/out/pq

It draws COUNT runs for each PART. A PART is a command and a kind, such as `solve-matrix` or `list-table`, or a command that takes no kind:
`unit`, `check-unit`, `gen` and `meet`. Without a PART it draws all. The same words draw the same runs, so a further SEED draws others.
With `--library` the library that scripts/library.py built answers in the place of the program, without a process for each run.

About one file in six is spoilt. Every file is small, but for the parts `long-KIND`: these draw files that `solve` reads through several
windows, of few rows whose lines are long, or of few edges that come often. What the program refuses, the plain readers refuse with the same
code and line. An answer of `solve` is judged by the plain checker, which asks for every order; what `extend`, `core`, `list`, `unit` and
`meet` answer is compared with all orders tried. `check`, `check-core` and `check-unit` get a text that is right and such a text with one or
two changes, and have to say what the plain checkers say.
It prints how many runs of each part were drawn. The last line is `N passed, N failed`; the status is 0 where nothing failed.
"""

import argparse
import collections
import concurrent.futures
import itertools
import os
import random
import re
import sys
import tempfile

import all_kinds
import cores
import drawn_runs
import forgeries
import meetings
import units
from checker import read_instance
from core_checker import judged as core_judged
from definitions import valid_orders
from file_readers import Limits, Refused
from listing import listed
from program import HOME, Answering, run
from sessions import gen_problem, session_problem
from trees import parsed

sys.path.insert(0, os.path.join(HOME, "companion"))

from pqparts.library import Library  # noqa: E402

PIECE = 250
# The plain programs try all orders of at most so many columns.
COLUMNS = 5
CHANGES = 4
BYTES = b"0123456789 \n\r\t,()[]xeflnop-"
PLAIN = ("matrix", "rows", "table")
KINDS = ("matrix", "rows", "table", "clones", "circular", "convex", "doubly", "proper", "robinson")
# The kinds of files that are read through a window, and the bytes of a window.
WINDOWED = ("matrix", "circular", "rows", "convex", "doubly", "proper")
WINDOW = 128 * 1024


def changed(draw, text):
    """The text with one or two changes: a byte, a number, or a line."""
    for _ in range(draw.choice([1, 1, 2])):
        text = draw.choice([with_other_byte, with_other_number, with_other_line])(draw, text)
    return text


def with_other_byte(draw, text):
    """The text with a byte made another, dropped or added."""
    place = draw.randint(0, len(text))
    added = bytes([draw.choice(BYTES)]) * draw.randint(0, 1)
    return text[:place] + added + text[place + draw.randint(0, 1):]


def with_other_number(draw, text):
    """The text with another number in the place of one."""
    numbers = list(re.finditer(rb"[0-9]+", text))
    if not numbers:
        return text
    number = draw.choice(numbers)
    other = draw.choice([int(number[0]) + 1, max(int(number[0]) - 1, 0), int(draw.choice(numbers)[0]), 2**32])
    return text[:number.start()] + str(other).encode() + text[number.end():]


def with_other_line(draw, text):
    """The text with a line dropped, doubled or exchanged with the next."""
    given = text.splitlines(keepends=True)
    place = draw.randrange(len(given) + 1)
    middle = draw.choice([[], given[place:place + 1] * 2, given[place:place + 2][::-1]])
    return b"".join(given[:place] + middle + given[place + len(set(middle)):])


def drawn_rows(draw, most):
    """A number of columns, and at least one row and at most so many."""
    columns = draw.randint(1, COLUMNS)
    return columns, [{column for column in range(1, columns + 1) if draw.random() < 0.5} for _ in range(draw.randint(1, most))]


def file_of(kind, columns, rows):
    """The file of a matrix in one of the kinds that have the same rows."""
    content = all_kinds.dense(columns, rows)
    return next(made for its_kind, made in forgeries.in_kinds("matrix", content) if its_kind == kind)


def as_kind(kind, answered):
    """The bytes of an answer for another kind as they would be for `matrix`."""
    return answered.replace(b"kind %s\n" % kind.encode(), b"kind matrix\n", 1)


def same_as_solve(folder, kind, done):
    """What is wrong with an answer on a file without a valid order, which has to be that of `solve`, or None."""
    solved = run(["solve", kind, folder.names[0]])
    given, wanted = [(one.returncode, one.stdout, one.stderr) for one in (done, solved)]
    return None if given == wanted and given[0] == 1 else f"{given}, and `solve` writes {wanted}"


def solve(draw, folder, kind):
    """One answer of `solve`."""
    content = drawn_runs.spoilt(draw, drawn_runs.file_of(draw, kind).encode())
    yield content, forgeries.answer_problem(folder, kind, content, Limits())


def with_blanks(draw, line, most):
    """A line of digits that are words of one byte each, with at most so many blanks among them."""
    cuts = sorted(draw.randint(0, most) for _ in line)
    blanks = [draw.choice([b" ", b"\t"]) * (end - begin) for begin, end in zip([0, *cuts], cuts)]
    return b"".join(blank + bytes([digit]) for blank, digit in zip(blanks, line))


def many(draw, items, count):
    """So many of the items, each by a drawn byte, from 256 that are drawn of them."""
    return list(map(draw.choices(items, k=256).__getitem__, draw.randbytes(count)))


def with_copies(draw, line, most):
    """A line of columns in which some come again, of about so many bytes, or a blank line where it names none."""
    words = line.split()
    return b" ".join(words + many(draw, words, most // 2)) if words else b" " * most


def lengthened(draw, kind, content):
    """A file of the same instance, mostly with about as many bytes as one window to three have."""
    wanted = draw.randint(WINDOW, 3 * WINDOW)
    head, *others = content.splitlines() or [b""]
    if kind in ("matrix", "circular"):
        found = [with_blanks(draw, line, 2 * wanted // (len(others) + 1)) for line in (head, *others)]
    elif kind == "rows":
        found = [head] + [with_copies(draw, line, draw.randint(1, 2 * wanted // len(others))) for line in others]
    else:
        ends = [b"", b"", b"", b" " * 40]
        found = [head] + many(draw, [line + end for line in [*others, b""] for end in ends], wanted // 14)
    end = draw.choice([b"\n", b"\r\n"])
    return draw.choice([b"", b"\xef\xbb\xbf"]) + end.join(found) + draw.choice([b"", end])


def solve_long(draw, folder, kind):
    """One answer of `solve` on a file that is read through several windows."""
    content = drawn_runs.spoilt(draw, lengthened(draw, kind, drawn_runs.file_of(draw, kind).encode()))
    yield (len(content), content[:200]), forgeries.answer_problem(folder, kind, content, Limits())


def check(draw, folder, kind):
    """A right verdict, and some that differ from it."""
    content = drawn_runs.file_of(draw, kind).encode()
    folder.write(0, content)
    try:
        instance = read_instance(kind, content, Limits())
    except Refused as refused:
        yield content, None if folder.run("solve", kind, 1) == (3, f"pq: refused 1 {refused}\n".encode()) else f"the readers refuse {refused}"
        return
    verdict = folder.run("solve", kind, 1)[1]
    for text in [verdict, *(changed(draw, verdict) for _ in range(CHANGES))]:
        line, problem = forgeries.judged(folder, kind, instance, text, Limits())
        yield (content, text), problem or (None if text != verdict or line == "valid" else line)


def extend(draw, folder, kind):
    """A session of `extend`."""
    columns, rows = drawn_rows(draw, 9)
    base, further = rows[:draw.randint(1, 3)], rows[3:]
    folder.write(0, file_of(kind, columns, base))
    folder.write(1, "".join(" ".join(map(str, row)) + "\n" for row in further).encode())
    done = run(["extend", kind, *folder.names])
    name = (columns, base, further)
    if not valid_orders(columns, base):
        yield name, same_as_solve(folder, kind, done)
    else:
        yield name, session_problem(columns, base, further, done.returncode, as_kind(kind, done.stdout))


def drawn_core(draw, folder, kind):
    """A matrix in a file, and what `core` answers."""
    columns, rows = drawn_rows(draw, 9)
    folder.write(0, file_of(kind, columns, rows))
    return columns, rows, run(["core", kind, folder.names[0]])


def core(draw, folder, kind):
    """One answer of `core`."""
    columns, rows, done = drawn_core(draw, folder, kind)
    if valid_orders(columns, rows):
        # `solve` answers yes here, and `core` writes the same with status 1
        solved = run(["solve", kind, folder.names[0]])
        fits = (done.returncode, done.stdout, solved.returncode) == (1, solved.stdout, 0)
        yield (columns, rows), None if fits else f"{done}, and `solve` writes {solved}"
        return
    found = parsed_core(done)
    is_core = found and cores.minimal(columns, rows, [row for row, _ in found[2]]) and core_judged(kind, columns, rows, done.stdout) == "valid"
    yield (columns, rows), None if is_core else f"{done}"


def parsed_core(done):
    """What `core` found, or None where it wrote something else."""
    return None if done.returncode else cores.parsed(done.stdout)


def check_core(draw, folder, kind):
    """A core, and some texts that differ from it."""
    columns, rows, done = drawn_core(draw, folder, kind)
    for text in [done.stdout, *(changed(draw, done.stdout) for _ in range(CHANGES))]:
        folder.write(1, text)
        line = core_judged(kind, columns, rows, text)
        given, wanted = folder.run("check-core", kind, 2), (0 if line == "valid" else 1, f"{line}\n".encode())
        yield (columns, rows, text), None if given == wanted else f"{given}, wanted {wanted}"


def listing(draw, folder, kind):
    """One answer of `list`."""
    columns, rows = drawn_rows(draw, 4)
    folder.write(0, file_of(kind, columns, rows))
    found = sorted(valid_orders(columns, rows))
    count = draw.choice([1, 2, draw.randint(1, 130), max(len(found), 1), len(found) + 1])
    done = run(["list", kind, folder.names[0], str(count)])
    if not found:
        yield (columns, rows, count), same_as_solve(folder, kind, done)
        return
    wanted = listed(kind, columns, found[:count], "yes" if count < len(found) else "no")
    yield (columns, rows, count), None if (done.returncode, done.stdout, done.stderr) == (0, wanted, b"") else f"{done}, wanted {wanted}"


def drawn_graph(draw):
    """A graph, with its edges in rising order."""
    count = draw.randint(1, COLUMNS)
    return count, tuple(pair for pair in itertools.combinations(range(1, count + 1), 2) if draw.random() < 0.5)


def unit(draw, _folder, _kind):
    """One answer of `unit`."""
    graph = drawn_graph(draw)
    yield graph, units.graph_problem(*graph)


def check_unit(draw, folder, _kind):
    """A unit model, and some texts that differ from it."""
    count, edges = drawn_graph(draw)
    if not units.is_proper(count, edges):
        edges = ()
    folder.write(0, units.content_of(count, edges))
    right = run(["unit", folder.names[0]]).stdout
    for text in [right, *(changed(draw, right) for _ in range(CHANGES))]:
        folder.write(1, text)
        line, done = units.finding(count, edges, text), run(["check-unit", *folder.names])
        fits = (done.returncode, done.stdout) == (0 if line == "valid" else 1, f"{line}\n".encode())
        yield (count, edges, text), None if fits and (text != right or line == "valid") else f"{done}, wanted {line}"


def gen(draw, _folder, _kind):
    """One answer of `gen`."""
    words = draw.randrange(2**64), draw.randint(1, 30), draw.randint(0, 30)
    yield words, gen_problem(*words)


def meet(draw, folder, _kind):
    """Two trees met, or files of which one at least is no tree."""
    columns = draw.randint(1, COLUMNS)
    files = [drawn_runs.spoilt(draw, (drawn_runs.tree(draw, drawn_runs.shuffled(draw, columns)) + "\n").encode()) for _ in range(2)]
    for number, content in enumerate(files):
        folder.write(number, content)
    given = folder.run("meet", str(columns), 2)
    trees = [meetings.read_tree(columns, content) for content in files]
    name = (columns, *files)
    if None in trees:
        wanted = (3, f"pq: refused {1 + trees.index(None)} code 12 line 0\n".encode())
        yield name, None if given == wanted else f"{given}, wanted {wanted}"
    else:
        yield name, meetings.meeting_problem(columns, *trees, given)


WITH_KINDS = {"solve": (solve, KINDS), "long": (solve_long, WINDOWED), "check": (check, KINDS), "extend": (extend, PLAIN), "core": (core, PLAIN),
              "check-core": (check_core, PLAIN), "list": (listing, PLAIN)}
PARTS = {f"{command}-{kind}": (draws, kind) for command, (draws, kinds) in WITH_KINDS.items() for kind in kinds}
PARTS |= {"unit": (unit, None), "check-unit": (check_unit, None), "gen": (gen, None), "meet": (meet, None)}


def piece(part, seed, number, count):
    """So many runs of a part, each with what is wrong with it, or None."""
    draw = random.Random(f"{seed} {part} {number}")
    draws, kind = PARTS[part]
    found = []
    with tempfile.TemporaryDirectory() as place:
        folder = forgeries.Folder(place)
        while len(found) < count:
            found += [(f"{part} {name!r}", problem) for name, problem in draws(draw, folder, kind)]
    return found[:count]


def pieces(seed, count, parts):
    """The pieces of all parts."""
    for part in parts:
        for number, begin in enumerate(range(0, count, PIECE)):
            yield part, seed, number, min(PIECE, count - begin)


def problems(seed, count, parts=tuple(PARTS)):
    """Each run with what is wrong with it, or None."""
    with concurrent.futures.ProcessPoolExecutor(os.cpu_count()) as pool:
        for found in pool.map(piece, *zip(*pieces(seed, count, parts))):
            yield from found


def words_of(given):
    """What is asked for."""
    parser = argparse.ArgumentParser(prog="fuzz.py", description=f"The parts are {', '.join(PARTS)}.")
    parser.add_argument("--library", metavar="FILE", help="the library that answers in the place of the program")
    parser.add_argument("seed", type=int)
    parser.add_argument("count", type=int)
    parser.add_argument("parts", nargs="*", metavar="PART")
    asked = parser.parse_args(given)
    if asked.count < 1 or not set(asked.parts) <= set(PARTS):
        parser.error(f"COUNT is 1 or more, and the parts are {', '.join(PARTS)}")
    return asked


def main(given):
    asked = words_of(given)
    if asked.library:
        Answering.library = Library(os.path.abspath(asked.library))
    drawn, failed = collections.Counter(), 0
    for name, problem in problems(asked.seed, asked.count, asked.parts or list(PARTS)):
        drawn[name.split(" ", 1)[0]] += 1
        if problem is not None:
            failed += 1
            print(f"FAILED {name}: {problem}")
    print(", ".join(f"{part} {count}" for part, count in drawn.items()))
    print(f"{drawn.total() - failed} passed, {failed} failed")
    return 1 if failed else 0


if __name__ == "__main__":
    sys.exit(main(sys.argv[1:]))
