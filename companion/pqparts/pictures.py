"""Pictures of ordered tables, as SVG without scripts: rows by first, then last place, bars for blocks, and the tree below."""

from html import escape

from .program import verdict_of
from .question import with_point
from .spoken import lacking
from .trees import free_leaves, inner_nodes, tree_of

MOST_ROWS, MOST_LEVELS, MOST_LETTERS = 2000, 40, 28
INK, FIXED, FREE, PALE = "#1f4e79", "#333333", "#b06000", "#888888"


def clean(text):
    """A text in which every character may stand in XML."""
    return "".join(one if one in "\t\n\r" or 0x20 <= ord(one) <= 0xD7FF or 0xE000 <= ord(one) <= 0xFFFD or ord(one) > 0xFFFF else "\ufffd"
                   for one in text)


def safe(text):
    """A text as it may stand in HTML and SVG."""
    return escape(clean(text), quote=True)


def short(name):
    """A name that is not too long to draw."""
    return name if len(name) <= MOST_LETTERS else name[: MOST_LETTERS - 1] + "…"


def runs(places):
    """Ascending places as stretches, each with its first and its last place."""
    found = []
    for place in places:
        if found and found[-1][1] == place - 1:
            found[-1][1] = place
        else:
            found.append([place, place])
    return found


def room_for(names, letter):
    """How much room the longest of these names takes, at so much for a letter."""
    return int(letter * max((len(short(name)) for name in names), default=0))


class Drawing:
    """An SVG picture that grows downwards."""

    def __init__(self, columns, rows, heads=(), sides=()):
        self.cell = 16 if columns <= 60 else 8 if columns <= 250 else 4
        self.line = 16 if rows <= 300 else 4
        self.left = 20 + room_for(sides, 6.5) if self.line == 16 else 10
        self.top = 20 + room_for(heads, 6.5 if self.cell == 16 else 4.5) if self.cell > 4 else 20
        self.columns, self.y, self.parts = columns, self.top, []

    def x(self, place):
        """Where a place begins; places count from 0."""
        return self.left + place * self.cell

    def rect(self, begin, end, title, fill=INK, height=None, extra=""):
        """A bar over these places, both counted, on the present line."""
        tall = height or self.line - 2
        self.parts.append(f'<rect x="{self.x(begin)}" y="{self.y}" width="{(end - begin + 1) * self.cell - 1}" height="{tall}" fill="{fill}"{extra}>'
                          f"<title>{safe(title)}</title></rect>")

    def text(self, x, y, text, anchor="start", fill="#000", turned=False, title=None):
        """A text."""
        turn = f' transform="rotate(-90 {x} {y})"' if turned else ""
        more = f"<title>{safe(title)}</title>" if title else ""
        self.parts.append(f'<text x="{x}" y="{y}" text-anchor="{anchor}" fill="{fill}"{turn}>{safe(text)}{more}</text>')

    def heads(self, names, free=()):
        """The names over their columns, those that stand free in grey."""
        if self.cell > 4:
            for place, name in enumerate(names):
                self.text(self.x(place) + self.cell * 3 // 4, self.top - 6, short(name), fill=PALE if place in free else "#000", turned=True,
                          title=name)

    def row_name(self, name):
        """The name of the present line."""
        if self.line == 16:
            self.text(self.left - 6, self.y + 12, short(name), anchor="end", title=name)

    def whole(self, title):
        """The picture as a text."""
        width, height = self.x(self.columns) + 20, self.y + 12
        size = 11 if self.cell == 16 else 7
        return (f'<svg xmlns="http://www.w3.org/2000/svg" width="{width}" height="{height}" viewBox="0 0 {width} {height}" role="img" '
                f'font-family="sans-serif" font-size="{size}"><title>{safe(title)}</title>\n' + "\n".join(self.parts) + "\n</svg>\n")


def seated(side, order, chosen=None):
    """The rows as a reader knows them, by their places in the order, sorted by first, then last place; empty ones come last."""
    place = {number: at for at, number in enumerate(order)}
    rows = side.shown()
    found = [(sorted(place[number] for number in rows[at]), at) for at in (range(len(rows)) if chosen is None else chosen)]
    return sorted(found, key=lambda one: (not one[0], one[0][:1], one[0][-1:], one[1]))


def table_picture(side, order, title, tree=None, chosen=None, marks=None, contigs=()):
    """A picture of a table with its columns in this order. Marks are numbers to write into cells, by row and column."""
    rows = seated(side, order, chosen)
    shown = rows[:MOST_ROWS]
    names = [side.things[number - 1] for number in order]
    drawing = Drawing(len(order), len(shown), names, [side.names[row] for _, row in shown])
    free = {order.index(leaf) for leaf in free_leaves(tree, side.is_circle)} if tree else ()
    drawing.heads(names, free)
    place = {number: at for at, number in enumerate(order)}
    for places, row in shown:
        drawing.row_name(side.names[row])
        for first, last in runs(places):
            drawing.rect(first, last, f"{side.names[row]}: {names[first]}" + (f" to {names[last]}" if last > first else ""))
        for number, column in (marks or {}).get(row, ()):
            drawing.text(drawing.x(place[column]) + 2, drawing.y + 12, str(number), fill="#a00000")
        drawing.y += drawing.line
    if len(rows) > len(shown):
        drawing.text(drawing.left, drawing.y + 12, f"and {len(rows) - len(shown)} more")
        drawing.y += 16
    if contigs:
        drawing.y += 4
        for first, last in contigs:
            drawing.rect(first - 1, last - 1, f"contig: {names[first - 1]} to {names[last - 1]}", fill="#2e7d32", height=6)
        drawing.y += 8
    if tree:
        draw_tree(drawing, tree, order, names)
    return drawing.whole(title)


def draw_tree(drawing, tree, order, names):
    """The tree as bars: one for each inner node over its leaves, the smaller ones above."""
    place = {number: at for at, number in enumerate(order)}
    nodes = inner_nodes(tree)
    deepest = max((depth for _, depth in nodes), default=0)
    drawing.y += 10
    for level in range(min(deepest, MOST_LEVELS), -1, -1):
        for node, depth in nodes:
            if depth == level:
                places = [place[leaf] for leaf in node.leaves()]
                what = "fixed up to turning it round" if node.is_turning else "parts that may change places"
                dashes = "" if node.is_turning else ' stroke="#b06000" stroke-dasharray="3 2" fill-opacity="0.15"'
                title = f"{names[min(places)]} to {names[max(places)]}: {what}"
                drawing.rect(min(places), max(places), title, fill=FIXED if node.is_turning else FREE, height=7, extra=dashes)
        drawing.y += 11


def interval_picture(side, order, intervals, title):
    """The intervals of a proper interval graph, a line each in the order of the vertices."""
    drawing = Drawing(len(order), len(order), (), side.things)
    greatest = max(right for _, right in intervals) + 1
    scale = max(len(order) * drawing.cell, 400) / greatest
    drawing.columns = max(len(order), 400 // drawing.cell)
    for number in order[:MOST_ROWS]:
        left, right = intervals[number - 1]
        name = side.things[number - 1]
        drawing.row_name(name)
        drawing.parts.append(f'<rect x="{drawing.left + left * scale:.2f}" y="{drawing.y}" width="{max((right - left) * scale, 1):.2f}" '
                             f'height="{drawing.line - 2}" '
                             f'fill="{INK}"><title>{safe(f"{name}: {left} to {right}")}</title></rect>')
        drawing.y += drawing.line
    return drawing.whole(title)


def distance_picture(side, order, question, title):
    """The ordered table of distances in shades, near ones dark."""
    distances = question.distances
    ranks = {value: at for at, value in enumerate(sorted({value for row in distances for value in row}))}
    names = [side.things[number - 1] for number in order]
    drawing = Drawing(len(order), len(order), names, names)
    drawing.line = drawing.cell
    drawing.heads(names)
    for number in order:
        if drawing.cell == 16:
            drawing.row_name(side.things[number - 1])
        for place, other in enumerate(order):
            value = distances[number - 1][other - 1]
            shade = 40 + 215 * ranks[value] // max(len(ranks) - 1, 1)
            title_here = f"{side.things[number - 1]} and {side.things[other - 1]}: {with_point(value, question.digits)}"
            drawing.rect(place, place, title_here, fill=f"rgb({shade},{shade},{min(shade + 30, 255)})", height=drawing.cell - 1)
        drawing.y += drawing.cell
    return drawing.whole(title)


# What the bars below a picture and the grey names mean.
TREE = ("Below: dark bars are blocks whose parts keep their order, up to turning the block round; dashed bars are blocks whose parts may change "
        "places. "
        "A grey name is tied to none of the others.")


def pictures_of(question, finding):
    """The pictures of an answer, each with its caption."""
    verdict = finding.verdict
    if not verdict.is_yes:
        yield from pictures_of_a_no(question, finding.contradiction)
        return
    for number, (side, tree, order) in enumerate(zip(question.sides, verdict.trees, verdict.orders), 1):
        if question.kind == "robinson":
            yield ("The table in order: the darker a cell, the nearer its two items.",
                   distance_picture(side, order, question, "the table in order"))
        elif question.kind == "proper":
            yield ("An interval for each vertex: two vertices have an edge exactly where their intervals overlap.",
                   interval_picture(side, order, verdict.intervals, "the intervals"))
        else:
            contigs = verdict.contigs if question.kind == "clones" else ()
            more = " Green: the contigs, each a stretch that clones tie together, or a single probe." if contigs else ""
            yield (f"The table in order{', the other side' if number == 2 else ''}. {TREE}{more}",
                   table_picture(side, order, "the table in order", tree_of(tree), contigs=contigs))


def pictures_of_a_no(question, found):
    """The rows that agree, in their order, and the first core with the steps of its cycle."""
    side = question.sides[found.side - 1].cut()
    agreed = verdict_of(found.agreed_text)
    order = agreed.orders[0]
    yield f"What agrees, in order. {TREE}", table_picture(side, order, "what agrees, in order", tree_of(agreed.trees[0]), found.agreed)
    if found.cores:
        core, marks = found.cores[0], {}
        for number, row, column in lacking(core["cycle"]):
            marks.setdefault(row, []).append((number, column))
        named = {number for one, other, _ in core["cycle"] for number in (one, other)}.union(*(side.rows[row] for row in core["rows"]))
        caption = "The first core. A number in red stands where its step below says that something is lacking."
        if len(named) < len(order):
            caption += " What has no mark here and stands in no step is left out."
        yield caption, table_picture(side, [number for number in order if number in named], "the first core", None, core["rows"], marks)
