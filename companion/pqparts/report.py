"""A report: the answer as a dictionary, the ordered table, and the page. All of it is made from the names, the exact file and the texts of
`pq` alone, so that it can be made again and compared."""

import csv
import hashlib
import io
from dataclasses import dataclass, field

from .finding import Contradiction, Finding, SetAside, placed_core, rows_of
from .others import MOST_DIGITS, plain_question
from .pictures import pictures_of, safe, seated
from .program import core_of, verdict_of
from .question import with_point
from .spoken import Words, answer_lines, fixed_lines, steps
from .tables import Reading
from .trees import blocks, free_leaves, nested, tree_of

FORM = "pqpage 2"


@dataclass
class Told:
    """What a report tells besides the answer: what was read, the reader's words, and what made it."""

    source: str
    source_sum: str
    program_sum: str
    version: str
    things: str = None
    rows: str = None
    title: str = None
    date: str = None
    most_cores: int = 0
    notes: list = field(default_factory=list)
    warnings: list = field(default_factory=list)


def sum_of(content):
    """The SHA-256 of these bytes."""
    return hashlib.sha256(content).hexdigest()


def named(side, rows):
    """The names of rows, by their places."""
    return [side.names[row] for row in rows]


def cycle_value(side, cycle):
    """A cycle with names: each step with its two things and the row of its reason."""
    return [{"things": [side.things[one - 1], side.things[other - 1]], "row": None if row is None else side.names[row]} for one, other, row in cycle]


def side_value(side, tree, order):
    """The answer for one side of a yes."""
    root = tree_of(tree)
    return {"order": [side.things[number - 1] for number in order], "tree": nested(root, side.things), "tree in numbers": tree,
            "blocks": blocks(root, side.things),
            "free": [side.things[leaf - 1] for leaf in free_leaves(root, side.is_circle)]}


def answer_value(question, finding):
    """The answer as a dictionary, with names throughout."""
    verdict = finding.verdict
    if not verdict.is_yes:
        return {"answer": "no", **({"side": verdict.side} if question.kind == "doubly" else {}), **contradiction_value(question, finding)}
    sides = [side_value(*one) for one in zip(question.sides, verdict.trees, verdict.orders)]
    value = {"answer": "yes", **sides[0]}
    if question.kind == "doubly":
        value["other side"] = sides[1]
    first = question.sides[0]
    if question.kind == "clones":
        order = value["order"]
        value["places"] = {name: None if place is None else list(place) for name, place in zip(first.names, verdict.places)}
        value["contigs"] = [order[begin - 1:end] for begin, end in verdict.contigs]
    if question.kind == "proper":
        value["intervals"] = {name: list(ends) for name, ends in zip(first.things, verdict.intervals)}
    return value


def contradiction_value(question, finding):
    """What contradicts what, with names."""
    found = finding.contradiction
    side = question.sides[found.side - 1]
    agreed = verdict_of(found.agreed_text)
    turned = named(side, side.complements())
    return {**({"complements": turned} if turned else {}),
            "cores": [{"rows": named(side, core["rows"]), "cycle": cycle_value(side, core["cycle"])} for core in found.cores],
            "agree": {"rows": named(side, found.agreed), **side_value(side, agreed.trees[0], agreed.orders[0])},
            "set aside": [{"row": side.names[one.row], "contradicts": named(side, one.others), "cycle": cycle_value(side, one.cycle)}
                          for one in found.aside]}


def kept_value(question, finding, told):
    """What is kept of a report so that it can be made again: all that is no text of `pq`."""
    sides = [{"things": side.things, "rows": side.names} for side in question.sides]
    found = finding.contradiction
    aside = [] if found is None else [{"row": one.row, "cycle": [list(step) for step in one.cycle]} for one in found.aside]
    return {"form": FORM, "kind": question.kind, "names": sides, "digits": question.digits, "agreed": found.agreed if found else [], "aside": aside,
            "told": told.__dict__}


def report_value(question, finding, told):
    """The whole dictionary of a report."""
    return {"question": Words(question.kind, told.things, told.rows).question(), **answer_value(question, finding), "warnings": told.warnings,
            "read": told.notes,
            "sums": {"source": told.source_sum, "in": sum_of(question.content), "verdict": sum_of(finding.verdict_text), "pq": told.program_sum},
            "kept": kept_value(question, finding, told)}


def again_of(value, content, verdict_text, core_texts, agreed_text):
    """The question, the finding and what is told, from a report's dictionary and the texts beside it. The rows are those of the exact file."""
    kept = value["kept"]
    if kept["form"] != FORM:
        raise ValueError(f"it was made in the form {kept['form']!r}, and this pqpage reads {FORM!r}: use the version that made it")
    question = plain_question(content, "the file for pq", Reading(kept["kind"]))
    if [(len(side.things), len(side.rows)) for side in question.sides] != [(len(one["things"]), len(one["rows"])) for one in kept["names"]]:
        raise ValueError("there are not as many names as things and rows")
    for side, names in zip(question.sides, kept["names"]):
        side.things, side.names = names["things"], names["rows"]
    if kept["digits"] not in range(MOST_DIGITS + 1):
        raise ValueError("there are no so many digits behind a point")
    question.digits = kept["digits"]
    finding = Finding(verdict_text)
    if not finding.verdict.is_yes:
        finding.contradiction = contradiction_again(question, finding.verdict.side, kept, core_texts, agreed_text)
    return question, finding, Told(**kept["told"])


def contradiction_again(question, number, kept, core_texts, agreed_text):
    """What a report says after a no, from its texts: each row agrees or was set aside, by rows that agree."""
    side = question.sides[number - 1]
    if not verdict_of(agreed_text).is_yes:
        raise ValueError("the rows that agree have no order")
    found = Contradiction(number, placed_cores(side, core_texts), core_texts, kept["agreed"], agreed_text)
    for one in kept["aside"]:
        cycle = [tuple(step) for step in one["cycle"]]
        others = [row for row in rows_of(cycle) if row != one["row"]]
        if not set(others) <= set(found.agreed):
            raise ValueError("a row was set aside by rows that don't agree")
        found.aside.append(SetAside(one["row"], others, cycle))
    if sorted([*found.agreed, *(one.row for one in found.aside)]) != list(range(len(side.rows))) or found.agreed != sorted(found.agreed):
        raise ValueError("a row neither agrees nor was set aside, or both")
    return found


def placed_cores(side, core_texts):
    """The cores of texts one after another, each over the rows that the ones before left."""
    left, found = list(range(len(side.rows))), []
    for text in core_texts:
        found.append(placed_core(core_of(text), left))
        gone = set(found[-1]["rows"])
        left = [place for place in left if place not in gone]
    return found


def ordered_table(question, finding):
    """The table in order as CSV: of a no that of the rows that agree, and below it those that were set aside."""
    verdict, found = finding.verdict, finding.contradiction
    out = io.StringIO()
    writer = csv.writer(out, lineterminator="\n")
    side = question.sides[0] if verdict.is_yes else question.sides[found.side - 1].cut()
    order = verdict.orders[0] if verdict.is_yes else verdict_of(found.agreed_text).orders[0]
    names = [side.things[number - 1] for number in order]
    if question.kind == "robinson" and verdict.is_yes:
        writer.writerow(["", *names])
        writer.writerows([side.things[one - 1], *(with_point(question.distances[one - 1][other - 1], question.digits) for other in order)]
                         for one in order)
        return out.getvalue()
    aside = [] if found is None else [one.row for one in found.aside]
    writer.writerow(["", *names, *(["set aside"] if found else [])])
    shown = seated(side, order, None if verdict.is_yes else found.agreed)
    for row in [at for _, at in shown] + aside:
        members = set(side.shown()[row])
        writer.writerow([side.names[row], *("1" if number in members else "" for number in order),
                         *(["yes" if row in aside else ""] if found else [])])
    return out.getvalue()


STYLE = """body{font-family:sans-serif;max-width:60rem;margin:2rem auto;padding:0 1rem;line-height:1.45}
h1{font-size:1.5rem}h2{font-size:1.15rem;margin-top:2rem}figure{margin:1rem 0;overflow-x:auto}figcaption{color:#555}
.answer{font-size:1.1rem}.warning{color:#a04000}.small{color:#555;font-size:.85rem;overflow-wrap:anywhere}
code{background:#f3f3f3;padding:0 .2rem}
@media print{body{margin:0;max-width:none}figure{overflow:visible;break-inside:avoid}svg{max-width:100%;height:auto}}"""


def listed_items(items, kind="ul"):
    """Items as a list of HTML."""
    return f"<{kind}>" + "".join(f"<li>{safe(item)}</li>" for item in items) + f"</{kind}>" if items else ""


def section(title, *parts):
    """A part of the page, or nothing where it is empty."""
    body = "\n".join(part for part in parts if part)
    return f"<h2>{safe(title)}</h2>\n{body}\n" if body else ""


def page(question, finding, told, name):
    """The page: what was read, the answer, the picture, what contradicts what, words for a paper, and how to check."""
    words = Words(question.kind, told.things, told.rows)
    title = told.title or f"{told.source}: {words.question()}"
    drawn = "".join(f"<figure>\n{picture}<figcaption>{safe(caption)}</figcaption>\n</figure>\n"
                    for caption, picture in pictures_of(question, finding))
    answer = answer_lines(question, finding, words)
    parts = [f"<h1>{safe(title)}</h1>", f'<p class="small">{safe(told.date)}</p>' if told.date else "",
             section("The answer", f"<p>{safe(words.question())}</p>" if told.title else "", f'<p class="answer">{safe(answer[0])}</p>',
                     *(f"<p>{safe(line)}</p>" for line in answer[1:]),
                     free_text(finding, question.sides[0])),
             section("The picture", drawn),
             section("What is fixed" if finding.verdict.is_yes else "What is fixed by those that agree",
                     listed_items(fixed_lines(question, finding, words))),
             contradiction_part(question, finding, told, words),
             section("What was read", listed_items([*counted(question, words), *told.notes]), warned(told.warnings)),
             section("For a paper", *(f"<p>{safe(text)}</p>" for text in paper(question, finding, told, words))),
             section("How to check it", checks(question, finding, name), sums(question, finding, told))]
    return (f'<!DOCTYPE html>\n<html lang="en"><head><meta charset="utf-8"/><title>{safe(title)}</title><style>{STYLE}</style></head><body>\n'
            + "\n".join(part for part in parts if part) + "\n</body></html>\n")


def counted(question, words):
    """How much was read, and its first and last names."""
    side = question.sides[0]
    yield f"{len(side.things)} {words.things}, from {side.things[0]} to {side.things[-1]}"
    yield f"{len(side.names)} {words.rows}" + (f", from {side.names[0]} to {side.names[-1]}" if side.names else "")


def warned(warnings):
    """Warnings as a list that shows."""
    return f'<div class="warning">{listed_items(warnings)}</div>' if warnings else ""


def free_text(finding, side):
    """The things that stand free, on a line of their own."""
    verdict = finding.verdict
    if not verdict.is_yes:
        return ""
    free = free_leaves(tree_of(verdict.trees[0]), side.is_circle)
    if not free or len(free) == len(side.things):
        return ""
    return f"<p>Tied to none of the others (grey in the picture): {safe(', '.join(side.things[leaf - 1] for leaf in free))}.</p>"


def contradiction_part(question, finding, told, words):
    """After a no: the cores by name, the first cycle read aloud, and what was set aside with its reason."""
    found = finding.contradiction
    if found is None:
        return ""
    side = question.sides[found.side - 1].cut()
    rows = words.of_side(found.side)[1]
    reasons = [f"{side.names[one.row]}: contradicts {', '.join(named(side, one.others))}" for one in found.aside]
    turned = ("<p>Round a circle the marks of a row stand together exactly where those that it lacks do. So each row with a mark at "
              f"{safe(side.things[0])} is replaced here by its complement.</p>") if question.sides[found.side - 1].complements() else ""
    return (section("What contradicts what", turned, *cores_part(side, found, told, rows))
            + section(f"{rows.capitalize()} set aside, in the order in which they came", listed_items(reasons))
            + section(f"{rows.capitalize()} that agree", f"<p>{safe(', '.join(named(side, found.agreed)))}</p>" if found.agreed else ""))


def cores_part(side, found, told, rows):
    """The cores by name, the cycle of the first read aloud."""
    if not found.cores:
        return
    yield (f"<p>Each core is a set of {safe(rows)} that have no order together, while without any one of them the others have one. "
           "So at least one of each core has to go, or be looked at again.</p>")
    for number, core in enumerate(found.cores, 1):
        yield f"<p>Core {number}: {safe(', '.join(named(side, core['rows'])))}.</p>"
        if number == 1:
            yield "<p>Why these have no order, step by step. Suppose that they had one, and turn it so that the first step begins rightly.</p>"
            yield listed_items(list(steps(core["cycle"], side.things, side.names)), "ol")
            yield "<p>So the last step ends with the opposite of what the first begins with: there is no order.</p>"
    if len(found.cores) == told.most_cores:
        yield f"<p>No more than {told.most_cores} cores were looked for, so there may be others.</p>"


def paper(question, finding, told, words):
    """Two paragraphs for a paper."""
    yes = finding.verdict.is_yes
    things, rows = words.things, words.rows
    result = ("Such an order exists; the PQ-tree of the answer stands for exactly all such orders."
              if yes else "No such order exists; an odd cycle of the incompatibility graph shows it.")
    version = told.version
    side = question.sides[0]
    return [f"We asked: {words.question()} {result} The answer was computed with Sulgyabet (pq, version {version}), whose solver is formally "
            "verified: what it answers is proved to be right for the exact file that it reads. The page, its names and its picture are made by "
            "a companion program that is not proved.",
            "The verdict was judged by a second call of pq, which makes no search, and found valid. The file of "
            f"{len(side.things)} {things} and {len(side.rows)} {rows}, the verdict and the sums given below allow anyone to judge it again."]


def checks(question, finding, name):
    """The commands by which anyone checks."""
    lines = [f"pq check {question.kind} {name}.in {name}.verdict", f"companion/pqpage again {name}.json"]
    found = finding.contradiction
    if found and found.cores:
        lines.insert(1, f"pq check-core rows {name}.{'in' if question.kind == 'rows' else 'rows'} {name}.core")
    return "<ul>" + "".join(f"<li><code>{safe(line)}</code></li>" for line in lines) + "</ul>"


def sums(question, finding, told):
    """The sums of the files."""
    rows = [("the file that was read", told.source_sum), ("the exact file for pq (.in)", sum_of(question.content)),
            ("the verdict", sum_of(finding.verdict_text)), ("pq", told.program_sum)]
    return "".join(f'<p class="small">SHA-256 of {safe(what)}: {safe(told_sum)}</p>' for what, told_sum in rows)
