"""What was found, in the words of the reader."""

import math

from .program import verdict_of
from .trees import in_words, inner_nodes, tree_of

COUNTED = 10**15


class Words:
    """What the reader calls the things that are put in order and the rows."""

    def __init__(self, kind, things=None, rows=None):
        own = {"clones": ("probes", "clones"), "proper": ("vertices", "neighbourhoods"), "robinson": ("items", "balls"),
               "convex": ("right side", "left side"),
               "doubly": ("right side", "left side")}.get(kind, ("columns", "rows"))
        self.kind, self.things, self.rows = kind, things or own[0], rows or own[1]

    def of_side(self, side):
        """The words for one side, which change places on the second side of `doubly`."""
        return (self.things, self.rows) if side == 1 else (self.rows, self.things)

    def question(self):
        """What was asked."""
        things, rows = self.things, self.rows
        return {
            "circular": f"Is there an order of the {things} round a circle in which the marks of each of the {rows} stand together?",
            "convex": f"Is there an order of the {things} in which the neighbours of each of the {rows} stand together?",
            "doubly": f"Are there orders of the {things} and of the {rows} in which the neighbours of each of the others stand together?",
            "proper": f"Is there an order of the {things} in which an edge between two implies edges from both to all between them?",
            "robinson": f"Is there an order of the {things} in which, of any three, the outer two are at least as far apart as the middle one is "
                        "from either?",
        }.get(self.kind, f"Is there an order of the {things} in which those of each of the {rows} stand together?")


def orders_of(tree, is_circle=False):
    """How many orders a tree stands for, or None where these are more than can be said. Round a circle those that begin with thing 1 are counted,
    which is a leaf right below the root, so that each order counts once however it is rotated."""
    found = 1
    for node, depth in inner_nodes(tree):
        count = len(node.children) - (is_circle and depth == 0)
        found *= 2 if node.is_turning else math.factorial(count) if count < 20 else COUNTED
        if found >= COUNTED:
            return None
    return found


def trees_of(question, finding, words):
    """Each tree of an answer with its side and what its things are called: of a no that of the rows that agree."""
    verdict = finding.verdict
    if verdict.is_yes:
        return [(side, tree_of(tree), words.of_side(number)[0]) for number, (side, tree) in enumerate(zip(question.sides, verdict.trees), 1)]
    agreed = verdict_of(finding.contradiction.agreed_text)
    return [(question.sides[verdict.side - 1], tree_of(agreed.trees[0]), words.of_side(verdict.side)[0])]


def answer_lines(question, finding, words):
    """The answer as sentences: yes or no, of a no how many agree, and how many orders there are."""
    verdict, of_which = finding.verdict, ""
    if verdict.is_yes and len(question.sides) == 2:
        found = [f"Yes: there are such orders of the {words.things} and of the {words.rows}."]
    elif verdict.is_yes:
        found = [f"Yes: there is such an order of the {words.things}."]
    else:
        things, rows = words.of_side(verdict.side)
        kept, aside = len(finding.contradiction.agreed), len(finding.contradiction.aside)
        found = [f"No: there is no such order of the {things}.",
                 f"Taken in turn, {kept} of the {rows} agree, and {aside} {'was' if aside == 1 else 'were'} set aside, each since it contradicts "
                 "some that were taken before it."]
        of_which = f" in which the {kept} agree"
    for side, tree, things in trees_of(question, finding, words):
        count = orders_of(tree, side.is_circle)
        said = "There is 1 order" if count == 1 else f"There are {'a thousand million million or more' if count is None else count} orders"
        found.append(f"{said} of the {things}{of_which}{', rotations not counted' if side.is_circle else ''}.")
    return found


def fixed_lines(question, finding, words):
    """What the trees fix, as sentences."""
    found = []
    for side, tree, things in trees_of(question, finding, words):
        found += [f"Each order below may be begun at any other of the {things}, round the circle."] if side.is_circle else []
        found += in_words(tree, side.things, things)
    return found


def steps(cycle, things, rows):
    """A cycle read aloud: each step from the order of two things to that of the next two, by a row that has two things and lacks a third."""
    for number, (one, other, row) in enumerate(cycle):
        then_one, then_other, _ = cycle[(number + 1) % len(cycle)]
        now = said_pair(things, one, other, number % 2 == 0)
        then = said_pair(things, then_one, then_other, number % 2 == 1)
        if row is None:
            yield f"{now}; turned round: {then}."
            continue
        has, lacks = ((one, then_other), other) if then_one == other else ((then_one, other), one)
        yield f"{now}; {rows[row]} has {things[has[0] - 1]} and {things[has[1] - 1]} and lacks {things[lacks - 1]}, so {then}."


def said_pair(things, one, other, is_before):
    """That one thing stands before another, or after it."""
    return f"{things[one - 1]} stands {'before' if is_before else 'after'} {things[other - 1]}"


def lacking(cycle):
    """Where the steps of a cycle stand in a picture: for each step with a row that row, and the thing that it lacks."""
    for number, (one, other, row) in enumerate(cycle):
        if row is not None:
            yield number + 1, row, other if cycle[(number + 1) % len(cycle)][0] == other else one
