#!/usr/bin/env python3
"""Compares `pq check` with a plain program that tries all orders, on right verdicts whose tree is made another, with either version's header.

Usage: end_to_end/other_trees.py          after `rt ci` or `./pq`, which leave the program in crates/pq/out/pq

On each small instance with at most three columns on each side that has an order, each tree of its verdict is made every other tree over its
columns. On larger ones, one for each list of trees that the program finds, it is made each tree that leaves out as few orders as a tree can,
one and its mirror image where that can be, each that has as few more as a tree can, and each in which a node has the other brackets. The plain
program knows the derived rows alone: it lists the frontiers of the tree and all valid orders. With version 2's header a tree that lacks an
order is `invalid complete S`, with that of version 1 it is valid; one that has an order too many is `invalid tree S K` with either.
It prints how many trees had which answer. The last line is `N passed, N failed`; the status is 0 where nothing failed.
"""

import collections
import concurrent.futures
import functools
import itertools
import os
import re
import sys
import tempfile
from typing import NamedTuple

import all_kinds
import trees
from definitions import keeps, valid_orders
from forgeries import Folder, in_kinds, solved
from forger import replaced

SMALL_COLUMNS = 3
# Instances that are handed over in one piece.
PIECE = 100
VERSIONS = (1, 2)


class Job(NamedTuple):
    """A file of a kind, the columns and the derived rows of each side, and its right verdict."""

    kind: str
    content: bytes
    sides: list
    verdict: bytes = b""

    def places(self):
        """Where its trees stand, from their first bytes to behind their last."""
        return [match.span(1) for match in re.finditer(rb"^tree (.*)$", self.verdict, re.MULTILINE)]

    def frontiers(self):
        """The frontiers of each tree."""
        return [frozenset(trees.frontiers(trees.parsed(self.verdict[slice(*place)].decode()))) for place in self.places()]

    def is_small(self):
        """Whether no side has more than three columns."""
        return all(columns <= SMALL_COLUMNS for columns, _ in self.sides)


def parts(items):
    """Every way to part items into two blocks or more, each block with its first items first."""
    def all_parts(rest):
        if not rest:
            yield []
            return
        first, *others = rest
        for size in range(len(others) + 1):
            for block in itertools.combinations(others, size):
                for more in all_parts([one for one in others if one not in block]):
                    yield [[first, *block], *more]
    return (blocks for blocks in all_parts(items) if len(blocks) > 1)


def trees_over(columns):
    """Every tree over these columns, each once: of those that differ by permuted children of P-nodes or turned Q-nodes one."""
    if len(columns) == 1:
        yield columns[0]
        return
    for blocks in parts(columns):
        for children in itertools.product(*map(list, map(trees_over, blocks))):
            yield "(", list(children)
            if len(children) > 2:
                yield from (("[", list(some)) for some in itertools.permutations(children) if children.index(some[0]) < children.index(some[-1]))


@functools.cache
def every_tree(columns):
    """Every tree over so many columns by its frontiers."""
    return {frozenset(trees.frontiers(tree)): tree for tree in trees_over(list(range(1, columns + 1)))}


def next_trees(frontiers):
    """The trees that have as few orders less than these as a tree can, and those that have as few more."""
    others = every_tree(len(min(frontiers)))
    fewer = [found for found in others if found < frontiers]
    more = [found for found in others if found > frontiers]
    most = [found for found in fewer if not any(found < other for other in fewer)]
    least = [found for found in more if not any(found > other for other in more)]
    return [others[found] for found in most + least]


def with_other_brackets(tree):
    """The tree with one node made a node of the other sort. A P-node of two children stays."""
    if isinstance(tree, int):
        return
    bracket, children = tree
    if len(children) > 2:
        yield "[" if bracket == "(" else "(", children
    for place, child in enumerate(children):
        yield from ((bracket, [*children[:place], other, *children[place + 1:]]) for other in with_other_brackets(child))


@functools.cache
def other_trees(frontiers, is_small):
    """The trees that the tree with these frontiers is made, by their frontiers, itself the first."""
    every = every_tree(len(min(frontiers)))
    tree = every[frontiers]
    some = every.values() if is_small else [*next_trees(frontiers), *with_other_brackets(tree)]
    return {frozenset(trees.frontiers(other)): other for other in [tree, *some]}


@functools.cache
def orders_of(columns, rows):
    """All valid orders of rows."""
    return frozenset(valid_orders(columns, rows))


def wanted(sides, side_frontiers, version):
    """What a check says of trees with these frontiers, by the derived rows of each side."""
    for number, ((columns, rows), frontiers) in enumerate(zip(sides, side_frontiers), 1):
        for place, row in enumerate(rows, 1):
            if not all(keeps(order, row) for order in frontiers):
                return f"invalid tree {number} {place}"
        if version == 2 and frontiers != orders_of(columns, tuple(rows)):
            return f"invalid complete {number}"
    return "valid"


def lacks_one(frontiers, other):
    """Whether a tree lacks one order and its mirror image."""
    return other < frontiers and len(frontiers) - len(other) == 2


class Tried:
    """What came of some verdicts: each with what is wrong or None, and how many of each kind and header had which answer."""

    def __init__(self):
        self.problems = []
        self.answers = collections.Counter()

    def judge(self, folder, job, verdict, frontiers):
        """Has a verdict with these frontiers of each side judged with either header. The one that lacks an order is counted besides."""
        for version in VERSIONS:
            text = b"pq-verdict %d\n" % version + verdict.split(b"\n", 1)[1]
            line = wanted(job.sides, frontiers, version)
            folder.write(1, text)
            given = folder.run("check", job.kind, 2)
            want = (0 if line == "valid" else 1, f"{line}\n".encode())
            self.problems.append((f"check {job.kind} {job.content!r} {text!r}", None if given == want else f"{given}, all orders say {want}"))
            self.answers[job.kind, version, line.removeprefix("invalid ").split()[0]] += 1


def tried(jobs):
    """The verdicts of jobs, with each other tree on each side."""
    found = Tried()
    with tempfile.TemporaryDirectory() as place:
        folder = Folder(place)
        for job in jobs:
            folder.write(0, job.content)
            right = job.frontiers()
            for side, place in enumerate(job.places()):
                for frontiers, other in other_trees(right[side], job.is_small()).items():
                    verdict = replaced(job.verdict, *place, trees.written(other).encode())
                    found.judge(folder, job, verdict, [*right[:side], frontiers, *right[side + 1:]])
                    found.answers[job.kind, "lack one"] += lacks_one(right[side], frontiers)
    return found


def instance_jobs():
    """A job for every small instance of each kind, and for larger ones, without their verdicts."""
    for instance in all_kinds.instances(all_kinds.MOST_COLUMNS):
        sides = [(side.columns, tuple(side.rows)) for side in instance.sides]
        yield from (Job(kind, content, sides) for kind, content in in_kinds(instance.kind, instance.content))


def solved_jobs(jobs):
    """The jobs with their verdicts, those that have an order."""
    verdicts = solved((job.kind, job.content) for job in jobs)
    return [job._replace(verdict=verdict) for job, (_, _, verdict) in zip(jobs, verdicts) if b"\nanswer yes\n" in verdict]


def chosen(jobs):
    """Each small job, and of the larger ones one of each kind for each list of trees."""
    found = {}
    for number, job in enumerate(jobs):
        trees_of_job = tuple(job.verdict[slice(*place)] for place in job.places())
        found.setdefault(number if job.is_small() else (job.kind, trees_of_job), job)
    return list(found.values())


def in_pieces(items):
    """The items, so many at a time."""
    return [items[start:start + PIECE] for start in range(0, len(items), PIECE)]


def told(answers):
    """Prints what was answered, and gives what is wrong where a kind had no tree that lacks an order, or None."""
    for kind in dict.fromkeys(kind for kind, *_ in answers):
        counts = [f"version {version}: " + ", ".join(f"{line} {answers[kind, version, line]}" for line in ("valid", "tree", "complete"))
                  for version in VERSIONS]
        print(f"{kind} with other trees: " + "; ".join(counts) + f"; {answers[kind, 'lack one']} lack one order and its mirror image", flush=True)
    without = [kind for kind in dict.fromkeys(kind for kind, *_ in answers) if not answers[kind, 2, "complete"] or not answers[kind, "lack one"]]
    return f"no tree lacks an order of {without}" if without else None


def compared():
    """Each right verdict with another tree, with what is wrong with the program's word on it, or None."""
    answers = collections.Counter()
    with concurrent.futures.ProcessPoolExecutor(os.cpu_count()) as pool:
        jobs = chosen(itertools.chain.from_iterable(pool.map(solved_jobs, in_pieces(list(instance_jobs())))))
        for found in pool.map(tried, in_pieces(jobs)):
            answers += found.answers
            yield from found.problems
    yield "other trees of each kind", told(answers)


def main():
    passed = failed = 0
    for name, problem in compared():
        if problem is None:
            passed += 1
        else:
            failed += 1
            print(f"FAILED {name}: {problem}")
    print(f"{passed} passed, {failed} failed")
    return 1 if failed else 0


if __name__ == "__main__":
    sys.exit(main())
