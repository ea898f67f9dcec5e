"""What is asked of `pq`: the exact file that it gets, the names, and the rows that its answer speaks of."""

from dataclasses import dataclass, field

# Limits of pq, said before a run.
MOST_COLUMNS, MOST_ROWS, MOST_ITEMS, MOST_BYTES = 2048, 131072, 256, 16777216


@dataclass
class Side:
    """Things to be ordered, and the rows that are to stand together: each row as the numbers of its things, from 1, ascending."""

    things: list
    rows: list
    names: list
    # of `circular`: the rows as they were read, without those that were turned into their complements
    whole: list = None
    is_circle: bool = False

    def shown(self):
        """The rows as a reader knows them."""
        return self.whole if self.whole is not None else self.rows

    def complements(self):
        """The places of the rows that were turned into their complements."""
        return [] if self.whole is None else [place for place, row in enumerate(self.rows) if row != self.whole[place]]

    def cut(self):
        """The same side as an answer no speaks of it: with the rows that were asked about, complements named as such."""
        turned = set(self.complements())
        names = [f"the complement of {name}" if place in turned else name for place, name in enumerate(self.names)]
        return Side(self.things, self.rows, names, is_circle=self.is_circle)

    def as_rows(self, chosen=None):
        """The bytes of a file of the kind `rows` with these rows, or with all."""
        picked = self.rows if chosen is None else [self.rows[place] for place in chosen]
        return "".join([f"{len(self.things)}\n", *(" ".join(map(str, row)) + "\n" for row in picked)]).encode()


@dataclass
class Question:
    """A kind, the exact file, and the sides, of which all kinds but `doubly` have one."""

    kind: str
    content: bytes
    sides: list
    notes: list = field(default_factory=list)
    warnings: list = field(default_factory=list)
    # of `robinson`: the distances as whole numbers, for the picture, and how many of their digits stand behind the point
    distances: list = None
    digits: int = 0
    # what the things and the rows are called where the user has no other words, or None
    called: tuple = (None, None)

    def too_large(self):
        """What is past a limit of pq, or None. Of a file that only pq can judge nothing is known here."""
        if not self.sides:
            return None
        most = MOST_ITEMS if self.kind == "robinson" else MOST_COLUMNS
        for side in self.sides:
            if len(side.things) > most:
                return f"{len(side.things)} things to order, and {self.kind} takes {most} at most"
        rows = 0 if self.kind in ("robinson", "proper", "doubly") else len(self.sides[0].rows)
        if rows > MOST_ROWS:
            return f"{rows} rows, and {self.kind} takes {MOST_ROWS} at most"
        if len(self.content) > MOST_BYTES:
            return f"the file for pq has {len(self.content)} bytes, and it takes {MOST_BYTES} at most"
        return None


def rows_question(things, rows, names):
    """An order of the things in which those of each row stand together."""
    side = Side(things, rows, names)
    return Question("rows", side.as_rows(), [side])


def circular_question(things, rows, names):
    """The same round a circle. A row that has thing 1 is replaced by the things that it lacks, as `pq` does."""
    count = len(things)
    cut = [sorted(set(range(1, count + 1)) - set(row)) if 1 in row else row for row in rows]
    lines = ("".join("1" if column in kept else "0" for column in range(1, count + 1)) + "\n" for kept in map(set, rows))
    return Question("circular", "".join(lines).encode(), [Side(things, cut, names, rows, True)])


def transposed(count, rows):
    """The rows by column: for each of so many columns the numbers of the rows that have it."""
    found = [[] for _ in range(count)]
    for number, row in enumerate(rows, 1):
        for column in row:
            found[column - 1].append(number)
    return found


def bipartite_question(kind, things, rows, names):
    """An order of one side of a bipartite graph (`convex`), or of both (`doubly`): the rows are the left side, the things the right one."""
    edges = "".join(f"{number} {column}\n" for number, row in enumerate(rows, 1) for column in row)
    sides = [Side(things, rows, names)]
    if kind == "doubly":
        sides.append(Side(names, transposed(len(things), rows), things))
    return Question(kind, f"{len(rows)} {len(things)}\n{edges}".encode(), sides)


def graph_question(names, edges):
    """An umbrella order of a graph: each vertex with its neighbours is a row."""
    near = [{number} for number in range(1, len(names) + 1)]
    for left, right in edges:
        near[left - 1].add(right)
        near[right - 1].add(left)
    text = "".join(f"{left} {right}\n" for left, right in sorted(edges))
    side = Side(names, [sorted(row) for row in near], [f"{name} and its neighbours" for name in names])
    return Question("proper", f"{len(names)}\n{text}".encode(), [side])


def balls(distances):
    """For each item and each distance that it has, the items that are at most so far away."""
    for item, row in enumerate(distances):
        for reach in sorted(set(row)):
            yield item, reach, [other for other, distance in enumerate(row, 1) if distance <= reach]


def with_point(value, digits):
    """A whole number as a decimal with so many digits behind the point."""
    return f"{value // 10**digits}.{value % 10**digits:0{digits}}" if digits else str(value)


def distance_question(names, distances, digits=0):
    """A Robinson order of a table of distances: the balls are the rows."""
    found = list(balls(distances))
    text = "".join(" ".join(map(str, row)) + "\n" for row in distances)
    side = Side(names, [ball for _, _, ball in found], [f"{names[item]} and all within {with_point(reach, digits)}" for item, reach, _ in found])
    return Question("robinson", f"{len(names)}\n{text}".encode(), [side], distances=distances, digits=digits)
