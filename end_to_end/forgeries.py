#!/usr/bin/env python3
"""Compares `pq check` and the readers of `pq` with checker.py, on forged verdicts and on changed files.

Usage: end_to_end/forgeries.py [COLUMNS ROWS VERDICT_BYTES]     after `rt ci` or `./pq`, which leave the program in crates/pq/out/pq

The three numbers are the limits of a program that has other ones. From each right verdict of the small instances of every kind, and from some
of larger ones, it makes every forgery of forger.py, and of some of them with the header of version 1 too; and from a small file of each kind
every single change of a byte. Each forgery gets the same line from both, down to the test and its numbers, and each changed file the same
refusal, or a verdict that both find valid.
It prints how many forgeries of each kind failed which test. The last line is `N passed, N failed`; the status is 0 where nothing failed.
"""

import collections
import concurrent.futures
import itertools
import json
import os
import re
import resource
import sys
import tempfile
import time

import all_kinds
from checker import judgement, read_instance
from file_readers import Limits, Refused, read_further
from forger import NUMBER, forgeries_of, replaced
from hostile import pace
from odd_files import ENTRIES, odd_files, odd_further
from program import run

# What the forgeries have to be at the least, of so many kinds, and how many seconds they may take of each processor, where these are quick.
LEAST_FORGERIES = 20_000
KINDS = 9
MOST_SECONDS = 120
# An instance is small where it has at most so many columns; of `doubly` and `clones` where the columns of both sides, or the columns and the
# clones, are so many together.
SMALL_COLUMNS = 3
SMALL_TOGETHER = 4
# Of the larger instances, so many forms of verdicts of each kind and answer.
SAMPLE = 3
# So many right verdicts of each kind are forged with the header of version 1 too.
OLD = 4
# So many right verdicts of other files of the kind are tried on a file too.
OTHERS = 10
# Files that are solved in one piece.
PIECE = 500
NAMES = "abcdefgh"
# Larger files: trees with nodes below nodes of both sorts, rows without a column, and cycles over more columns.
LARGER = [("matrix", b"11000000\n01100000\n00110000\n00001100\n11111100\n00000000\n00000010\n"),
          ("matrix", b"110000\n011000\n001100\n000110\n100010\n"),
          ("circular", b"110000\n011000\n001100\n000110\n000011\n100001\n111000\n111111\n"),
          ("circular", b"110000\n011000\n001100\n000110\n100010\n"),
          ("convex", b"4 6\n1 1\n1 2\n2 2\n2 3\n3 4\n3 5\n"),
          ("doubly", b"4 5\n1 1\n1 2\n2 2\n2 3\n3 3\n3 4\n"),
          ("doubly", b"4 3\n1 1\n2 2\n3 3\n4 1\n4 2\n4 3\n"),
          ("doubly", b"3 4\n1 1\n2 2\n3 3\n1 4\n2 4\n3 4\n"),
          ("proper", b"7\n1 2\n2 3\n1 4\n2 4\n5 6\n"),
          ("proper", b"6\n1 2\n1 3\n1 4\n5 6\n"),
          ("robinson", b"5\n0 1 3 4 9\n1 0 2 3 8\n3 2 0 1 6\n4 3 1 0 5\n9 8 6 5 0\n")]
# The bytes that a changed file has in the place of one, or before one.
BYTES = [bytes([byte]) for byte in b"013 \t\n\r,\"x-[}\\\0\xef"]


def changed_files(content):
    """Every single change of a byte of a file, each once: made another, dropped, or with another before it."""
    found = [content]
    for place in range(len(content) + 1):
        found += [replaced(content, place, place + width, byte) for byte in BYTES for width in (0, 1)]
        found.append(replaced(content, place, place + 1, b""))
    return dict.fromkeys(found)


def matrix_files(content):
    """The matrix of lines of digits as a file of each of the other kinds of matrices."""
    lines = content.decode().split()
    rows = [[column for column, digit in enumerate(line, 1) if digit == "1"] for line in lines]
    names = NAMES[:len(lines[0])]
    yield "rows", "".join(f"{line}\n" for line in [len(names), *(" ".join(map(str, row)) for row in rows)]).encode()
    records = ["," + ",".join(names), *("," + ",".join("x" if digit == "1" else "" for digit in line) for line in lines)]
    yield "table", "".join(f"{record}\n" for record in records).encode()
    clones = [{"probes": [names[column - 1] for column in row]} for row in rows]
    yield "clones", json.dumps({"probes": list(names), "clones": clones}, separators=(",", ":")).encode()


def in_kinds(kind, content):
    """A file with its kind, and one of a matrix in the other kinds of matrices too."""
    yield kind, content
    if kind == "matrix":
        yield from matrix_files(content)


def instance_files():
    """The file of each instance of all_kinds.py with its kind, that of a matrix in the other kinds of matrices too."""
    for instance in all_kinds.instances(all_kinds.MOST_COLUMNS):
        yield from in_kinds(instance.kind, instance.content)


def larger_files():
    """The larger files, each with its kind."""
    return itertools.chain.from_iterable(itertools.starmap(in_kinds, LARGER))


def solved(files):
    """Each file with its kind and its verdict."""
    return [(kind, content, run(["solve", kind, "-"], content).stdout) for kind, content in files]


def is_small(verdict):
    """Whether a verdict is one of a small instance."""
    counts = [int(count) for line in re.findall(rb"(?:columns|places) (.*)", verdict) for count in line.split()]
    return max(counts) <= SMALL_COLUMNS and (len(counts) == 1 or sum(counts) <= SMALL_TOGETHER)


def spread(items, count):
    """So many of the items, or all of fewer, evenly spread over them, the last one among them."""
    count = min(count, len(items))
    return [items[(len(items) - 1) * number // count] for number in range(1, count + 1)]


def right_verdicts(answers):
    """The verdicts that are forged, each with its kind and a file that it is right of: each one of a small instance, and of the others the first
    of some forms. Verdicts that differ in their numbers alone have one form."""
    forms = {}
    for (kind, verdict), content in {(kind, verdict): content for kind, content, verdict in answers}.items():
        if is_small(verdict):
            yield kind, content, verdict
        else:
            forms.setdefault((kind, b"answer yes" in verdict), {}).setdefault(NUMBER.sub(b"#", verdict), (kind, content, verdict))
    for found in forms.values():
        yield from spread(list(found.values()), SAMPLE)


def with_old_header(verdict):
    """The verdict with the header of version 1."""
    return b"pq-verdict 1\n" + verdict.split(b"\n", 1)[1]


class Folder:
    """A folder with a file of an instance, and one of a verdict or of further rows."""

    def __init__(self, folder):
        self.names = [os.path.join(folder, name) for name in ("file", "second")]

    def write(self, number, content):
        """Makes one of the two files anew. A file that is written over goes to the disk at once, which takes long."""
        if os.path.exists(self.names[number]):
            os.remove(self.names[number])
        with open(self.names[number], "wb") as stream:
            stream.write(content)

    def run(self, command, kind, count):
        """A call of the program on so many of the files: its status, and its text or its line of error."""
        done = run([command, kind, *self.names[:count]])
        return done.returncode, done.stdout or done.stderr


def judged(folder, kind, instance, verdict, limits):
    """The line of the checker on a verdict on the file of an instance, and how the program differs from it, or None."""
    folder.write(1, verdict)
    given = folder.run("check", kind, 2)
    line = judgement(kind, instance, verdict, limits)
    wanted = (0 if line == "valid" else 1, f"{line}\n".encode())
    return line, None if given == wanted else f"{given}, the page says {wanted}"


class Forged:
    """What came of the forgeries of a verdict: how many failed each test, what is wrong, and the seconds of the processor."""

    def __init__(self, kind):
        self.kind = kind
        self.tests = collections.Counter()
        self.problems = []
        self.seconds = 0.0

    def take(self, line, name, problem):
        """Counts a forgery by its line."""
        self.tests[line.split()[1] if line.startswith("invalid") else line] += 1
        self.problems.append((name, problem))


def processor_seconds():
    """The seconds of the processor that this process and its children took."""
    used = [resource.getrusage(who) for who in (resource.RUSAGE_SELF, resource.RUSAGE_CHILDREN)]
    return sum(usage.ru_utime + usage.ru_stime for usage in used)


def forged_problems(kind, content, verdict, others, limits):
    """The forgeries of a verdict on a file, and other verdicts, each with how the program and the checker differ on it, or None."""
    begin = processor_seconds()
    instance = read_instance(kind, content, limits)
    forged = Forged(kind)
    with tempfile.TemporaryDirectory() as place:
        folder = Folder(place)
        folder.write(0, content)
        line, problem = judged(folder, kind, instance, verdict, limits)
        forged.problems.append((f"check {kind} {content!r} {verdict!r}", problem or (None if line == "valid" else f"the page says {line}")))
        for forgery in [*forgeries_of(verdict), *others]:
            line, problem = judged(folder, kind, instance, forgery, limits)
            forged.take(line, f"check {kind} {content!r} {forgery!r}", problem)
    forged.seconds = processor_seconds() - begin
    return forged


def length_problems(limits):
    """The greatest verdict, and one that has a byte more, with how the program and the checker differ on it, or None."""
    content = ENTRIES["matrix"]
    instance = read_instance("matrix", content, limits)
    with tempfile.TemporaryDirectory() as place:
        folder = Folder(place)
        folder.write(0, content)
        verdict = folder.run("solve", "matrix", 1)[1]
        lengths = (limits.verdict_bytes, limits.verdict_bytes + 1)
        return [(f"check of {length} bytes", judged(folder, "matrix", instance, verdict.ljust(length), limits)[1]) for length in lengths]


def flattened(verdict):
    """The verdict with one P-node for each tree, which stands for all orders, so that the rows tell whether it is kept."""
    return re.sub(rb"tree [\[(].*", lambda match: b"tree (" + b" ".join(NUMBER.findall(match[0])) + b")", verdict)


def answer_problem(folder, kind, content, limits):
    """How the program and the readers differ on a file, or None. Where neither refuses it, they agree on its verdict and on a flat tree."""
    folder.write(0, content)
    given = folder.run("solve", kind, 1)
    try:
        instance = read_instance(kind, content, limits)
    except Refused as refused:
        wanted = 3, f"pq: refused 1 {refused}\n".encode()
        return None if given == wanted else f"{given}, the page says {wanted}"
    line, problem = judged(folder, kind, instance, given[1], limits)
    if given[0] not in (0, 1) or line != "valid":
        return f"{given}, which the page finds {line}"
    return problem or judged(folder, kind, instance, flattened(given[1]), limits)[1]


def file_problems(kind, contents, limits):
    """Each file of a kind with how the program and the readers differ on it, or None."""
    with tempfile.TemporaryDirectory() as place:
        folder = Folder(place)
        return [(f"solve {kind} {content[:300]!r}", answer_problem(folder, kind, content, limits)) for content in contents]


def further_problems(contents, limits):
    """Each file of further rows over four columns with how the program and the readers differ on it, or None."""
    found = []
    with tempfile.TemporaryDirectory() as place:
        folder = Folder(place)
        folder.write(0, b"4\n1 2\n")
        for content in contents:
            folder.write(1, content)
            given = folder.run("extend", "rows", 2)
            try:
                read_further(content, 4, limits)
                fits = given[0] == 0
            except Refused as refused:
                fits = given == (3, f"pq: refused 2 {refused}\n".encode())
            found.append((f"extend {content[:300]!r}", None if fits else f"{given}"))
    return found


def told(forged, seconds):
    """Prints how many forgeries failed which test, kind by kind, and gives what is wrong with their number and their time, or None."""
    number = sum(one.tests.total() for one in forged)
    share = sum(one.seconds for one in forged) / os.cpu_count()
    kinds = dict.fromkeys(one.kind for one in forged)
    for kind in kinds:
        tests = sum((one.tests for one in forged if one.kind == kind), collections.Counter())
        verdicts = sum(one.kind == kind for one in forged)
        print(f"{kind}: {tests.total()} forgeries of {verdicts} verdicts; " + ", ".join(f"{test} {count}" for test, count in tests.most_common()))
    print(f"{number} forgeries of {len(forged)} right verdicts of {len(kinds)} kinds in {seconds:.0f} seconds, "
          f"{share:.0f} of each of {os.cpu_count()} processors", flush=True)
    if number < LEAST_FORGERIES or len(kinds) < KINDS:
        return f"{number} forgeries of {len(kinds)} kinds"
    return None if share <= MOST_SECONDS * pace() else f"{share:.0f} seconds of each processor"


def compared_forgeries(pool, limits):
    """Each forgery with what is wrong with it, or None, and as the last their number and their time."""
    begin = time.monotonic()
    files = list(instance_files())
    pieces = [*(files[start:start + PIECE] for start in range(0, len(files), PIECE)), list(larger_files())]
    *small, larger = pool.map(solved, pieces)
    verdicts = [*right_verdicts(itertools.chain.from_iterable(small)), *larger]
    of_kind = {kind: [given for given in verdicts if given[0] == kind] for kind, _, _ in verdicts}
    verdicts += [(kind, content, with_old_header(verdict)) for some in of_kind.values() for kind, content, verdict in spread(some, OLD)]
    others = {kind: [verdict for _, _, verdict in spread(some, OTHERS)] for kind, some in of_kind.items()}
    running = [pool.submit(forged_problems, kind, content, verdict, others[kind], limits) for kind, content, verdict in verdicts]
    forged = [one.result() for one in running]
    yield from itertools.chain.from_iterable(one.problems for one in forged)
    yield "forgeries, how many and how long", told(forged, time.monotonic() - begin)


def compared_files(pool, limits):
    """Each changed file with what is wrong with it, or None."""
    tasks = [(length_problems, (limits,)),
             *((file_problems, (kind, changed_files(content), limits)) for kind, content in ENTRIES.items()),
             *((file_problems, (kind, odd_files(kind, limits), limits)) for kind in ENTRIES),
             (further_problems, ([*changed_files(b"1 2\n\n3 4 1\n"), *odd_further(limits)], limits))]
    for running in [pool.submit(task, *given) for task, given in tasks]:
        yield from running.result()


def compared(limits):
    """Each forgery and each changed file with what is wrong with it, or None."""
    with concurrent.futures.ProcessPoolExecutor(os.cpu_count()) as pool:
        yield from compared_forgeries(pool, limits)
        yield from compared_files(pool, limits)


def main():
    limits = Limits()
    if len(sys.argv) > 1:
        columns, rows, verdict_bytes = map(int, sys.argv[1:])
        limits = limits._replace(columns=columns, rows=rows, verdict_bytes=verdict_bytes)
    passed = failed = 0
    for name, problem in compared(limits):
        if problem is None:
            passed += 1
        else:
            failed += 1
            print(f"FAILED {name}: {problem}")
    print(f"{passed} passed, {failed} failed")
    return 1 if failed else 0


if __name__ == "__main__":
    sys.exit(main())
