#!/usr/bin/env python3
"""Measures how the instructions of each command grow with the bytes that it reads and writes, and prints an exponent for each series.

Usage: bench/growth.py [--small] [NAME ..]     after `./pq` has built the program; needs valgrind

NAMEs pick the series whose names begin so; default all. `--small` takes smaller inputs, which is sooner done.

The size of what is measured doubles from one call of a series to the next. The exponent is the slope of the logarithm of the instructions,
less those of a start without words, over that of the bytes of all files and of what is written: 1 is in proportion. The exponent of the last
step is beside it. For `gen`, which reads no file and writes a summary, the size is what `gen` draws: columns, rows and ones.
A line says where an exponent is above 1.1, and whether that is known; the last line counts these. `check` judges what `solve` wrote,
`check-core` what `core` wrote, `check-unit` what `unit` wrote, also with a last left end that is wrong; `extend` takes half of the rows
as further ones. Files are made from a fixed seed in a temporary folder.
"""

import argparse
import concurrent.futures
import math
import os
import random
import re
import shutil
import subprocess
import sys
import tempfile

import growing
from growing import named
from run import PROGRAM, SEED, write

MOST = 1.1
# Series that are above it as what they ask for is written: the balls of n items have about n^3 ones, over n^2 distances; the rows of
# a nest of c columns have about c^2 / 2 ones, over a text of c numbers.
KNOWN = ("robinson, points", "meet, nests")
# What the greatest sizes are divided by.
STEPS = (8, 4, 2, 1)
SMALL_STEPS = (16, 4)
COUNTER = ["valgrind", "--tool=cachegrind", "--cache-sim=no", "--cachegrind-out-file=/dev/null"]


def told(words, status):
    """What a command writes; bytes among its words stand for a file. It ends with the status that is wanted."""
    with tempfile.TemporaryDirectory() as folder:
        done = subprocess.run([PROGRAM, *in_files(folder, words)], stdout=subprocess.PIPE, check=False)
    if done.returncode != status:
        sys.exit(f"{words[:2]} ended with {done.returncode}, wanted {status}")
    return done.stdout


def in_files(folder, words):
    """The words with a file for each content."""
    return [write(folder, str(place), word) if isinstance(word, bytes) else word for place, word in enumerate(words)]


def instructions(words):
    """The instructions of a command."""
    with tempfile.TemporaryDirectory() as folder:
        done = subprocess.run([*COUNTER, PROGRAM, *in_files(folder, words)], stdout=subprocess.DEVNULL, stderr=subprocess.PIPE, text=True, check=False)
    return int(re.search(r"I +refs: +([0-9,]+)", done.stderr).group(1).replace(",", ""))


def solving(kind, content, status):
    """`solve` on a file, and `check` of what it writes."""
    words = ["solve", kind, content]
    return [(words, status), (["check", kind, content, told(words, status)], 0)]


def blaming(columns, rows):
    """The same on rows that have no order; besides, `core`, and `check-core` of what it writes."""
    content = named(columns, rows)
    words = ["core", "rows", content]
    return [*solving("rows", content, 1), (words, 0), (["check-core", "rows", content, told(words, 0)], 0)]


def extending(columns, rows):
    """`extend` of the first half of the rows by the others."""
    half = len(rows) // 2
    return [(["extend", "rows", named(columns, rows[:half]), growing.lines(rows[half:])], 0)]


def on_rows(columns, rows):
    """All that is asked of rows that have an order."""
    content = named(columns, rows)
    return [*solving("rows", content, 0), *extending(columns, rows), (["core", "rows", content], 1)]


def listing(columns, rows, count):
    """The first orders of rows."""
    return [(["list", "rows", named(columns, rows), str(count)], 0)]


def drawing_intervals(content):
    """`unit` on a graph, and `check-unit` of what it writes, and of the same with another last left end."""
    text = told(["unit", content], 0)
    changed = re.sub(rb"([0-9]+)\nend\n$", lambda found: b"%d\nend\n" % (int(found.group(1)) + 10**9), text)
    return [(["unit", content], 0), (["check-unit", content, text], 0), (["check-unit", content, changed], 1)]


def meeting(columns, first, second, status):
    """What two trees share."""
    return [(["meet", str(columns), first.encode(), second.encode()], status)]


def matrix_series(rng):
    """The series on matrices, whatever their kind: each its name, and its calls for a number by which the greatest size is divided."""
    yield "rows, runs of 2 to 40 columns, rows grow", lambda by: on_rows(2048, growing.runs(2048, 32_768 // by, 40, rng))
    yield "rows, runs of 2 to 40 columns, columns and rows grow", lambda by: on_rows(2048 // by, growing.runs(2048 // by, 16_384 // by, 40, rng))
    yield "rows, nested", lambda by: on_rows(1024 // by, growing.nested(1024 // by, rng))
    yield "rows, a chain", lambda by: on_rows(2048 // by, growing.chain(2048 // by, rng))
    yield "rows, a chain again and again", lambda by: on_rows(2048, growing.chain(2048, rng) * (32 // by))
    yield "rows, blocks", lambda by: on_rows(2048 // by, growing.blocks(2048 // by, rng) * 16)
    yield "rows, no, a ring", lambda by: blaming(2048 // by, growing.ring(2048 // by, rng))
    yield "rows, no, a claw behind runs", lambda by: blaming(2048, growing.claw(growing.runs(2048, 32_768 // by, 40, rng)))
    yield "rows, no, a claw behind a nest", lambda by: blaming(1024 // by, growing.claw(growing.nested(1024 // by, rng)))
    yield "rows, every other further row refused", lambda by: extending(2048 // by, growing.refused_half(2048 // by, rng))
    for kind, file in [("matrix", growing.digits), ("table", growing.table)]:
        yield f"{kind}, runs", lambda by, kind=kind, file=file: solving(kind, file(1024 // by, growing.runs(1024 // by, 1024 // by, 1024 // by, rng)), 0)
        yield f"{kind}, no", lambda by, kind=kind, file=file: solving(
            kind, file(1024 // by, growing.claw(growing.runs(1024 // by, 1024 // by, 1024 // by, rng))), 1)
    yield "clones, runs", lambda by: solving("clones", growing.clones(2048, growing.runs(2048, 32_768 // by, 20, rng)), 0)
    yield "clones, no", lambda by: solving("clones", growing.clones(2048 // by, growing.ring(2048 // by, rng)), 1)


def graph_series(rng):
    """The series on the other kinds."""
    yield "circular, runs", lambda by: solving("circular", growing.digits(1024 // by, growing.runs(1024 // by, 1024 // by, 1024 // by, rng)), 0)
    yield "circular, no", lambda by: solving("circular", growing.digits(1024 // by, growing.claw(growing.runs(1024 // by, 1024 // by, 1024 // by, rng))), 1)
    yield "convex, runs", lambda by: solving("convex", growing.bigraph(2048, growing.runs(2048, 16_384 // by, 20, rng)), 0)
    yield "convex, no", lambda by: solving("convex", growing.bigraph(2048 // by, growing.ring(2048 // by, rng)), 1)
    yield "doubly, bands", lambda by: solving("doubly", growing.bigraph(2048 // by, growing.band(2048 // by, 16, rng)), 0)
    yield "doubly, no", lambda by: solving("doubly", growing.bigraph(2048 // by, growing.ring(2048 // by, rng)), 1)
    yield "proper, bands", lambda by: solving("proper", growing.near(2048 // by, 16, rng), 0)
    yield "proper, no", lambda by: solving("proper", growing.round_graph(2048 // by, rng), 1)
    yield "robinson, points of a line", lambda by: solving("robinson", growing.distances(growing.hidden(256 // by, rng)), 0)
    yield "robinson, points farther and farther apart", lambda by: solving(
        "robinson", growing.distances([place * place for place in growing.hidden(256 // by, rng)]), 0)
    yield "robinson, no", lambda by: solving("robinson", growing.drawn_distances(256 // by, rng), 1)


def other_series(rng):
    """The series of the other commands."""
    yield "unit, bands", lambda by: drawing_intervals(growing.near(2048 // by, 16, rng))
    yield "unit, a path", lambda by: drawing_intervals(growing.near(2048 // by, 1, rng))
    yield "unit, pairs", lambda by: drawing_intervals(growing.pairs(2048 // by, rng))
    yield "list, all orders", lambda by: listing(2048 // by, [], 10)
    yield "list, a nest", lambda by: listing(1024 // by, growing.nested(1024 // by, rng), 10)
    yield "list, a chain", lambda by: listing(2048 // by, growing.chain(2048 // by, rng), 10)
    yield "list, runs, orders grow", lambda by: listing(256, growing.runs(256, 64, 40, rng), 4096 // by)
    yield "meet, chains", lambda by: meeting(2048 // by, *[growing.line(growing.hidden(2048 // by, rng))] * 2, 0)
    yield "meet, nests", lambda by: meeting(2048 // by, *[growing.nest(range(1, 2048 // by + 1))] * 2, 0)
    yield "meet, a chain and blocks", lambda by: meeting(2048 // by, growing.line(range(1, 2048 // by + 1)), growing.blocks_tree(2048 // by), 0)
    yield "meet, no, a chain and a turned one", lambda by: meeting(
        2048 // by, growing.line(range(1, 2048 // by + 1)), growing.line(growing.turned(range(1, 2048 // by + 1), 4)), 1)
    yield "gen, columns and rows grow", lambda by: [(["gen", "7", str(512 // by), str(8192 // by)], 0)]
    yield "gen, rows grow", lambda by: [(["gen", "7", "512", str(8192 // by)], 0)]


def size_of(words, status):
    """The bytes that a command reads and writes; of `gen` what it draws."""
    written = told(words, status)
    if words[0] == "gen":
        return sum(map(int, words[2:])) + int(re.search(rb"ones ([0-9]+)", written).group(1))
    return sum(len(word) for word in words if isinstance(word, bytes)) + len(written)


def label(name, words, place, calls):
    """What is measured: the series and the command, with a number where the series has it again."""
    same = [number for number, (others, _) in enumerate(calls) if others[0] == words[0]]
    return f"{name}: {words[0]}" + (f" {same.index(place) + 1}" if len(same) > 1 else "")


def exponent(points):
    """The slope of the logarithm of the instructions over that of the size."""
    points = [(math.log(size), math.log(count)) for size, count in points]
    middle = [sum(values) / len(points) for values in zip(*points)]
    return sum((x - middle[0]) * (y - middle[1]) for x, y in points) / sum((x - middle[0]) ** 2 for x, _ in points)


def remark(name, found):
    """What a line says of an exponent that is too great."""
    if found <= MOST:
        return ""
    return f", above {MOST}" + (" as is known" if name.startswith(KNOWN) else "")


def measured(pool, make, steps):
    """The points of each command of a series, each its size and the instructions of its call, which may still be under way."""
    made = [make(by) for by in steps]
    return [[(size_of(*calls[place]), pool.submit(instructions, calls[place][0])) for calls in made] for place in range(len(made[0]))], made[0]


def main():
    """Measures the series of the command line."""
    parser = argparse.ArgumentParser(description="Measures how the instructions of each command grow with the bytes.")
    parser.add_argument("--small", action="store_true", help="smaller inputs")
    parser.add_argument("names", nargs="*", metavar="NAME", help="the first words of a series")
    given = parser.parse_args()
    if not os.access(PROGRAM, os.X_OK):
        sys.exit(f"{PROGRAM} is missing: run `./pq` first")
    if shutil.which(COUNTER[0]) is None:
        sys.exit(f"{COUNTER[0]} is missing")
    rng, start, above, many = random.Random(SEED), instructions([]), 0, 0
    with concurrent.futures.ThreadPoolExecutor(os.cpu_count()) as pool:
        for name, make in [*matrix_series(rng), *graph_series(rng), *other_series(rng)]:
            if given.names and not any(name.startswith(first) for first in given.names):
                continue
            commands, calls = measured(pool, make, SMALL_STEPS if given.small else STEPS)
            for place, counts in enumerate(commands):
                points = [(size, counted.result() - start) for size, counted in counts]
                found, last = exponent(points), exponent(points[-2:])
                print(f"{label(name, calls[place][0], place, calls)}: exponent {found:.2f}, last {last:.2f}, "
                      f"{points[-1][1] / 1e6:.1f} M at {points[-1][0]}{remark(name, found)}", flush=True)
                above, many = above + (found > MOST), many + 1
    print(f"{many} measured, {above} above {MOST}")


if __name__ == "__main__":
    main()
