#!/usr/bin/env python3
"""Runs the built program over real files, streams and devices, and compares bytes and status; has it check what it solved, also at the
limits; runs the commands of the pages; compares the answer on every small instance with a plain program that tries all orders, and has
the verdict checked; compares the judgement on forged verdicts and the refusals of changed files with a second checker, and that on right
verdicts with other trees with a plain program that lists all orders; compares generated matrices and sessions with plain programs of their
rules, lists of orders and what two trees share with ones that list all orders; finds the unit model of every small graph, and compares
what is said of changed ones with a plain checker; bounds what hostile files cost, and how the instructions of each command grow; and tries the first call of `./pq`,
`scripts/try.py`, the companion, the library, the page, and how a release is compared.

Usage: end_to_end/check.py [PART ..]   after `rt ci` or `./pq`, which leave the program in crates/pq/out/pq

PARTs pick some of the checks: `cases` (files and streams), `pages`, `answers` (of small instances, at the limits, of `gen`, of sessions, of lists, of
unit models, of cores and of drawn cycles), `forgeries`, `trees`, `meetings`, `hostile`, `first_call`, `try`, `companion`, `companion_kinds`,
`library`, `page`, `release`, `fuzz` (a few drawn runs of each command and kind), `growth` (where valgrind is there); default all.
The last line is `N passed, N failed`; the status is 0 where nothing failed.
"""

import concurrent.futures
import contextlib
import multiprocessing
import os
import shutil
import subprocess
import sys
import tempfile

import all_kinds
import companion
import companion_kinds
import first_call
import forgeries
import fuzz
import growth
import library
import meetings
import other_trees
import page
import releases
import short_cycles
import tries
import units
from cases import CASES, REFUTED
from file_readers import Limits
from forged import FORGED_CASES
from graph_kinds import GRAPH_CASES, GRAPH_SOLVED
from hostile import hostile_problems
from kinds import KIND_CASES, SOLVED
from limits import AT_LIMITS
from listing import LIST_CASES, REFUTED as UNLISTED, list_problem, refused_problem, small_trees
from pages import blank_problems, loose_commands, page_problems, pages
from program import HOME, PROGRAM, SECONDS, run, run_over
from rows import ROW_CASES, row_checks
from cores import CORE_CASES, core_problems
from sessions import SESSION_CASES, drawn, extend_problem, gen_problem, sessions
from streams import difference, streams
from trees import written

NOBODY = 65534
# So few that no processor is left with many of the long ones.
CHECKS_AT_A_TIME = 4


class Report:
    """What passed and what failed so far."""

    def __init__(self):
        self.passed = 0
        self.failed = 0

    def tell(self, name, problem):
        """Counts one check, which failed where there is a problem."""
        if problem is None:
            self.passed += 1
        else:
            self.failed += 1
            print(f"FAILED {name}: {problem}")


def run_case(case, folder, program):
    """Runs one case in a folder of its own, and says what is wrong with it, or None."""
    for name, content in case.get("files", {}).items():
        with open(os.path.join(folder, name), "wb") as file:
            file.write(content)
    for name in case.get("folders", []):
        os.mkdir(os.path.join(folder, name))
    for name in case.get("unreadable", []):
        os.chmod(os.path.join(folder, name), 0)
    # The superuser may read every file, so a file without leave is tried as another user.
    user = NOBODY if case.get("unreadable") and os.geteuid() == 0 else None
    done = subprocess.run([program] + case["words"], input=case.get("input", b""), capture_output=True,
                          cwd=folder, timeout=SECONDS, user=user, check=False)
    return (difference("status", case["status"], done.returncode)
            or difference("output", case.get("out", b""), done.stdout)
            or difference("errors", case.get("err", b""), done.stderr))


def not_believed(kind, content):
    """Whether `check` finds what `solve` wrote on a file other than valid, and how; None where it is valid."""
    solved = run(["solve", kind, "-"], content)
    done = run_over(["check", kind], content, solved.stdout)
    return (difference("status of solve", True, solved.returncode in (0, 1))
            or difference("status", 0, done.returncode) or difference("output", b"valid\n", done.stdout))


# The files of examples/ with their kinds.
EXAMPLES = [("nested.txt", "matrix"), ("chain.txt", "rows"), ("graves.csv", "table"), ("map.json", "clones"), ("ring.txt", "circular"),
            ("jobs.txt", "convex"), ("path.txt", "doubly"), ("overlaps.txt", "proper"), ("distances.txt", "robinson")]


@contextlib.contextmanager
def copied_program():
    """A folder for the time being, and in it a copy of the program, both of which every user may read."""
    with tempfile.TemporaryDirectory() as top:
        os.chmod(top, 0o755)
        program = shutil.copy(PROGRAM, os.path.join(top, "pq"))
        os.chmod(program, 0o755)
        yield top, program


def example(name):
    """The bytes of an example."""
    with open(os.path.join(HOME, "examples", name), "rb") as file:
        return file.read()


def in_folders():
    """The cases and the streams, each in a folder of its own."""
    tried = [(case["name"], run_case, case) for case in CASES + KIND_CASES + GRAPH_CASES + SESSION_CASES + LIST_CASES + FORGED_CASES]
    tried += [(case["name"], run_case, case) for case in meetings.MEET_CASES + units.UNIT_CASES + CORE_CASES + ROW_CASES]
    tried += [(name, lambda _, *given, stream=stream: stream(*given), None) for name, stream in streams()]
    with copied_program() as (top, program):
        for number, (name, check, case) in enumerate(tried):
            folder = os.path.join(top, str(number))
            os.mkdir(folder)
            try:
                problem = check(case, folder, program)
            except subprocess.TimeoutExpired:
                problem = f"no end within {SECONDS} seconds"
            yield name, problem
            shutil.rmtree(folder)


def on_pages():
    """The commands of the pages, each page in a folder of its own."""
    with copied_program() as (top, program):
        for page_of_docs in pages():
            folder = os.path.join(top, page_of_docs.replace(os.sep, "_"))
            os.mkdir(folder)
            for command, problem in page_problems(page_of_docs, folder, program):
                yield f"{page_of_docs}: {command}", problem
            yield f"{page_of_docs}: commands that are not run", difference("lines", [], loose_commands(page_of_docs))
        folder = os.path.join(top, "blanks")
        os.mkdir(folder)
        for command, problem in blank_problems(folder, program):
            yield f"recipes on a table with blanks: {command}", problem


class Inherited:
    """The checks that a process which is forked finds in its memory: what some are handed can't be sent to it."""

    checks = []

    @classmethod
    def take(cls, checks):
        """Takes them over, in a process that begins."""
        cls.checks = checks

    @classmethod
    def problem(cls, number):
        """What is wrong by the check of a number, or None."""
        _, check, given = cls.checks[number]
        return check(*given)


def side_by_side():
    """The checks that need no folder of their own, on all processors."""
    checks = list(without_folders())
    forking = multiprocessing.get_context("fork")
    with concurrent.futures.ProcessPoolExecutor(os.cpu_count(), forking, Inherited.take, (checks,)) as pool:
        yield from zip((name for name, *_ in checks), pool.map(Inherited.problem, range(len(checks)), chunksize=CHECKS_AT_A_TIME))


def without_folders():
    """What is checked without a folder of its own: for each its name, its function and what that is handed."""
    for name, kind, content in SOLVED + GRAPH_SOLVED + AT_LIMITS + [(name, kind, example(name)) for name, kind in EXAMPLES]:
        yield f"check of {kind}: {name}", not_believed, (kind, content)
    for name, columns, rows in REFUTED:
        yield name, all_kinds.problem, (all_kinds.matrix_instance(columns, rows),)
    for instance in all_kinds.instances(all_kinds.MOST_COLUMNS):
        yield f"{instance.kind} {instance.content!r}", all_kinds.problem, (instance,)
    for words in drawn():
        yield f"gen {words}", gen_problem, words
    for session in sessions():
        yield f"extend {session}", extend_problem, session
    for tree in small_trees():
        yield f"list {written(tree)}", list_problem, (tree,)
    for content in UNLISTED:
        yield f"list {content}", refused_problem, (content,)
    yield from units.checks()
    yield from core_problems()
    yield from row_checks()
    yield from short_cycles.checks()


# The seed of the drawn runs, and how many there are of each command and kind.
DRAWN = (1, 60)
# The checks that tell each name with its problem, by the words that pick them. The first use a processor each, so they run side by side, the
# longest first. The others use all processors, or build in this checkout, and the bounds of the last are of time, so they run in turn.
SINGLE = {"companion": companion.problems, "companion_kinds": companion_kinds.problems, "try": tries.problems, "first_call": first_call.problems,
          "cases": in_folders, "pages": on_pages, "release": releases.problems}
WIDE = {"answers": side_by_side, "forgeries": lambda: forgeries.compared(Limits()), "trees": other_trees.compared, "meetings": meetings.compared,
        "fuzz": lambda: fuzz.problems(*DRAWN), "library": library.problems, "page": page.problems, "growth": growth.problems,
        "hostile": hostile_problems}
PARTS = [*SINGLE, *WIDE]


def found_in(part):
    """The checks of a part that uses one processor, each with its problem."""
    return list(SINGLE[part]())


def check_parts(report, parts):
    """Runs these parts of the checks."""
    with concurrent.futures.ProcessPoolExecutor(os.cpu_count()) as pool:
        running = [pool.submit(found_in, part) for part in SINGLE if part in parts]
        for found in running:
            for name, problem in found.result():
                report.tell(name, problem)
    for part in WIDE:
        for name, problem in WIDE[part]() if part in parts else []:
            report.tell(name, problem)


def main(words):
    if not set(words) <= set(PARTS):
        print(f"the parts are {', '.join(PARTS)}")
        return 1
    if not os.access(PROGRAM, os.X_OK):
        print(f"{PROGRAM} is missing: run `rt ci` or `./pq` first")
        return 1
    report = Report()
    check_parts(report, words or PARTS)
    print(f"{report.passed} passed, {report.failed} failed")
    return 1 if report.failed else 0


if __name__ == "__main__":
    sys.exit(main(sys.argv[1:]))
