"""Asking `pq`, and what was found: each claim comes from a text that `pq` judged."""

from dataclasses import dataclass, field

from .program import Cycle, core_of, session_of, verdict_of
from .stops import NOT_PROVED, NOT_READABLE, Stop

MOST_CORES = 20


@dataclass
class SetAside:
    """A row that contradicts rows before it in the order of trust: its place, and the cycle with the rows that it names, as places."""

    row: int
    others: list
    cycle: list


@dataclass
class Contradiction:
    """What was found after a no, all over the rows of one side: the cores, the rows that agree, and those that were set aside."""

    side: int
    cores: list = field(default_factory=list)
    core_texts: list = field(default_factory=list)
    agreed: list = field(default_factory=list)
    agreed_text: bytes = b""
    aside: list = field(default_factory=list)


@dataclass
class Finding:
    """An answer: the text of the verdict, and of a no what contradicts what."""

    verdict_text: bytes
    contradiction: Contradiction = None

    @property
    def verdict(self):
        """The verdict."""
        return verdict_of(self.verdict_text)


def trusted_order(count, names, trust, is_rare_first, rows):
    """The order in which rows are tried: those of trusted names first, then as in the file, or the rare ones first."""
    first = list(dict.fromkeys(names.index(name) for name in trust if name in names))
    trusted = set(first)
    rest = [place for place in range(count) if place not in trusted]
    return first + (sorted(rest, key=lambda place: len(rows[place])) if is_rare_first else rest)


def asked(program, question, trust=(), is_rare_first=False, most_cores=MOST_CORES):
    """The answer of `pq` to a question, judged; after a no with cores, the rows that agree, and those set aside."""
    past = question.too_large()
    if past:
        raise Stop(NOT_READABLE, past)
    unknown = [name for name in trust if not any(name in side.names for side in question.sides)]
    if unknown:
        raise Stop(NOT_READABLE, f"--trust: there is no row {unknown[0]!r}")
    finding = Finding(program.solve(question.kind, question.content))
    verdict = finding.verdict
    if not question.sides:
        raise Stop(NOT_READABLE, "pq reads this file, and pqpage can't name what is in it")
    if not verdict.is_yes:
        side = question.sides[verdict.side - 1]
        found = Contradiction(verdict.side)
        find_cores(program, side, found, most_cores)
        order = trusted_order(len(side.rows), side.names, trust, is_rare_first, side.rows)
        set_aside(program, side, order, found)
        finding.contradiction = found
    return finding


def find_cores(program, side, found, most):
    """Cores that share no row, one after another, each judged."""
    left = list(range(len(side.rows)))
    while len(found.cores) < most:
        content = side.as_rows(left)
        status, text = program.call(["core", "rows"], content)
        if status != 0:
            return
        program.judge(["check-core", "rows"], content, text)
        core = core_of(text)
        found.cores.append(placed_core(core, left))
        found.core_texts.append(text)
        named = {left[row - 1] for row in core.rows}
        left = [place for place in left if place not in named]


def placed_core(core, left):
    """A core by the places of its rows in the side; its cycle too."""
    return {"rows": [left[row - 1] for row in core.rows], "cycle": placed(core.cycle, left)}


def placed(cycle, places):
    """The lines of a cycle with the place of each row in the side, or None for a flip."""
    return [(one, other, None if row is None else places[row - 1]) for one, other, row in cycle.lines]


def set_aside(program, side, order, found):
    """Takes the rows in turn, each that agrees with those taken before; the others are set aside, each with the cycle that shows why."""
    waiting, agreed = list(order), []
    while waiting:
        text = program.call(["extend", "rows"], side.as_rows(agreed), further(side, waiting))[1]
        session = session_of(text)
        done = last_told(session)
        for number, place in enumerate(waiting[:done], 1):
            if session.taken[number - 1]:
                agreed.append(place)
            else:
                found.aside.append(refused(program, side, agreed, place, session.cycles[number]))
        waiting = waiting[done:]
    found.agreed = sorted(agreed)
    found.agreed_text = program.solve("rows", side.as_rows(found.agreed))
    if not verdict_of(found.agreed_text).is_yes:
        raise Stop(NOT_PROVED, "the rows that pq took one after another have no order")


def further(side, places):
    """These rows as a file of further rows."""
    return "".join(" ".join(map(str, side.rows[place])) + "\n" for place in places).encode()


def last_told(session):
    """How many of the rows of a session are told with their reasons: up to the first refused one that has no cycle."""
    for number, is_taken in enumerate(session.taken, 1):
        if not is_taken and number not in session.cycles:
            return number - 1
    return len(session.taken)


def refused(program, side, agreed, place, cycle):
    """A row that is set aside, after `pq` judged its cycle over the rows that it names."""
    lines = placed(cycle, [*agreed, place])
    named = rows_of(lines)
    judge_cycle(program, side, named, cycle_over(lines, named))
    return SetAside(place, [row for row in named if row != place], lines)


def rows_of(lines):
    """The places of the rows that the lines of a cycle name, ascending."""
    return sorted({row for _, _, row in lines if row is not None})


def judge_cycle(program, side, places, cycle):
    """Stops where `pq` doesn't judge a cycle over these rows to be valid."""
    text = f"pq-verdict 2\nkind rows\ncolumns {len(side.things)}\nanswer no\nside 1\ncycle {len(cycle.lines)}\n{cycle.text()}end\n"
    program.judge(["check", "rows"], side.as_rows(places), text.encode())


def cycle_over(lines, places):
    """A cycle by the numbers of its rows among these places."""
    number = {place: at for at, place in enumerate(places, 1)}
    return Cycle([(one, other, None if row is None else number[row]) for one, other, row in lines])
