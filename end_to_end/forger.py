"""A forger: every single change of a verdict, and verdicts with other trees, orders, intervals and cycles.

It knows the form of verdicts, and nothing of what is true.
"""

import itertools
import random
import re

import trees

# Trees and orders drawn for each side of a verdict.
DRAWN = 30
NUMBER = re.compile(rb"[0-9]+")
BRACKETS = [b"(", b")", b"[", b"]"]
WORDS = [b"matrix", b"rows", b"doubly", b"yes", b"no", b"1", b""]
BLANKS = [b"  ", b"\t", b"\r\n", b"\n"]
# A byte that is added at each place.
ADDED = b"1"


def replaced(text, start, end, piece):
    """The text with a piece in the place of what stands from start to end."""
    return text[:start] + piece + text[end:]


def changed_numbers(text):
    """Each number made another."""
    for match in NUMBER.finditer(text):
        number = int(match[0])
        others = [number + 1, max(number - 1, 0), 0, 1, 2, 3, 2 ** 32 - 1, 2 ** 32, 2 ** 64 - 1, 2 ** 64]
        for other in [*dict.fromkeys(others), f"0{number}", f"-{number}", f"{number} {number}", f"({number})", "", "none"]:
            yield replaced(text, *match.span(), str(other).encode())


def changed_brackets(text):
    """Each bracket made another or none, and each tree with its brackets all of one sort."""
    for match in re.finditer(rb"[][()]", text):
        for other in [*BRACKETS, b""]:
            yield replaced(text, *match.span(), other)
    yield text.translate(bytes.maketrans(b"()", b"[]"))
    yield text.translate(bytes.maketrans(b"[]", b"()"))


def changed_words(text):
    """Each word that is no number made another, each exchanged with the next one, and other white space after each."""
    for match in re.finditer(rb"[^ \n0-9]+", text):
        for other in WORDS:
            yield replaced(text, *match.span(), other)
    for match in re.finditer(rb"(?=\b([0-9a-z]+)([] )([]*)([0-9a-z]+))", text):
        yield replaced(text, match.start(1), match.end(3), match[3] + match[2] + match[1])
    for match in re.finditer(rb"[ \n]", text):
        for other in BLANKS:
            yield replaced(text, *match.span(), other)


def changed_lines(text):
    """Each line dropped, doubled, cut to some of its words, and exchanged with each later one."""
    lines = text.splitlines(keepends=True)
    for place, line in enumerate(lines):
        words = line.split(b" ")
        cut = [b" ".join(words[:count]).strip() + b"\n" for count in range(1, len(words))]
        for other in [b"", line + line, *cut]:
            yield b"".join([*lines[:place], other, *lines[place + 1:]])
        for other in range(place + 1, len(lines)):
            yield b"".join([*lines[:place], lines[other], *lines[place + 1:other], line, *lines[other + 1:]])


def changed_bytes(text):
    """The text cut off at each place, without each byte, with one more at each place and at its ends, and with other ends of lines."""
    for place in range(len(text)):
        yield text[:place]
        yield replaced(text, place, place + 1, b"")
        yield replaced(text, place, place, ADDED)
    yield from (text + more for more in [b"\n", b" ", b"\0", b"end\n", b"x", text])
    yield from (more + text for more in [b"\xef\xbb\xbf", b"\n", b" ", b"#\n"])
    yield text.replace(b"\n", b"\r\n")
    yield text.replace(b"\n", b"\r")
    yield text.upper()


def drawn_tree(draw, columns):
    """A tree over these columns that is drawn at random."""
    trees = [str(column) for column in draw.sample(columns, len(columns))]
    while len(trees) > 1:
        count = draw.randint(2, len(trees))
        first = draw.randrange(len(trees) - count + 1)
        inner = " ".join(trees[first:first + count])
        trees[first:first + count] = [f"({inner})" if count == 2 or draw.random() < 0.4 else f"[{inner}]"]
    return trees[0].encode()


def changed_sides(text):
    """Each tree made others over its columns, and each order others."""
    draw = random.Random(text)
    for match in re.finditer(rb"tree (.+)\norder (.+)\n", text):
        columns = [int(column) for column in match[2].split(b" ")]
        for _ in range(DRAWN):
            yield replaced(text, *match.span(1), drawn_tree(draw, columns))
            order = b" ".join(b"%d" % column for column in draw.sample(columns, len(columns)))
            yield replaced(text, *match.span(2), order)
        turns = [columns[turn:] + columns[:turn] for turn in range(len(columns))]
        for order in turns + [turn[::-1] for turn in turns]:
            yield replaced(text, *match.span(2), b" ".join(b"%d" % column for column in order))


def changed_nodes(tree):
    """The tree with one node of the other sort, with the children of one node in its place, in a node of either sort, and with two neighbours
    in a node of their own."""
    if isinstance(tree, int):
        return
    bracket, children = tree
    yield "[" if bracket == "(" else "(", children
    for place, child in enumerate(children):
        before, behind = children[:place], children[place + 1:]
        if not isinstance(child, int):
            yield from ((sort, [*before, *child[1], *behind]) for sort in "([")
        if behind and len(children) > 2:
            yield bracket, [*before, ("(", [child, behind[0]]), *behind[1:]]
        yield from ((bracket, [*before, other, *behind]) for other in changed_nodes(child))


def changed_trees(text):
    """Each tree with one node changed."""
    for match in re.finditer(rb"^tree (.+)$", text, re.MULTILINE):
        for tree in changed_nodes(trees.parsed(match[1].decode())):
            yield replaced(text, *match.span(1), trees.written(tree).encode())


def changed_intervals(text):
    """Each interval made that of another vertex."""
    found = list(re.finditer(rb"interval [0-9]+ ([0-9]+ [0-9]+)", text))
    for one, other in itertools.permutations(found, 2):
        yield replaced(text, *one.span(1), other[1])


def changed_cycles(text):
    """The lines of a cycle from another of them on, backwards, fewer and more of them, and each with other pairs and reasons."""
    found = re.search(rb"cycle [0-9]+\n((?:[0-9]+ [0-9]+ [a-z0-9 ]+\n)+)", text)
    if not found:
        return
    lines = found[1].splitlines()
    pieces = [lines[place:] + lines[:place] for place in range(1, len(lines))]
    pieces += [lines[:length] for length in range(len(lines))] + [lines + lines[:length] for length in (1, 2, len(lines))]
    for place, line in enumerate(lines):
        a, b, reason = line.split(b" ", 2)
        others = [b"%d %d %s" % (x, y, reason) for x in range(1, 5) for y in range(1, 5)]
        others += [b" ".join([a, b, other]) for other in [b"flip", *(b"row %d" % row for row in range(6))]]
        pieces += [[*lines[:place], other, *lines[place + 1:]] for other in others]
    for piece in [*pieces, lines[::-1]]:
        yield replaced(text, *found.span(), b"".join(line + b"\n" for line in [b"cycle %d" % len(piece), *piece]))


def forgeries_of(text):
    """Every change of a verdict, each once, without the verdict itself."""
    ways = [changed_numbers, changed_brackets, changed_words, changed_lines, changed_bytes, changed_sides, changed_trees, changed_intervals, changed_cycles]
    found = dict.fromkeys(itertools.chain.from_iterable(way(text) for way in ways))
    found.pop(text, None)
    return list(found)
