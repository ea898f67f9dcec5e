"""The companion: what it reads, what its pages show, what it refuses, and that a report with a changed byte is found out.

A plain reader of its pages, written from what the page says of them, takes the picture apart again, and plain programs try all orders. With
Rscript the functions for R are tried, and with chromium the picture is looked at on a screen; a line says which of the two is missing.
"""

import contextlib
import csv
import io
import itertools
import json
import os
import random
import re
import shutil
import signal
import struct
import subprocess
import sys
import tempfile
import time
import xml.etree.ElementTree as ElementTree
import zlib

from program import HOME, PROGRAM

FOLDER = os.path.join(HOME, "companion")
SCRIPT = os.path.join(FOLDER, "pqpage")
sys.path.insert(0, FOLDER)
import pqpage  # noqa: E402

SECONDS = 120
SEED, DIALECTS = 44, 500
SVG = "{http://www.w3.org/2000/svg}"
# Names that would be markup, or break lines, quotes or the direction of a text, if a page took them as they are.
HOSTILE = ["<script>alert(1)</script>", "a&b;&amp;", "\"quoted\" 'single'", "\u202eright to left\u202c", "x" * 10000, "comma, semicolon; tab",
           "ends with \\", "<!--", "]]>",
           "\u0001control", "=1+1", "Grave\u00a07"]


def called(words, content=None):
    """The status, the output and the errors of a call within this process."""
    out, errors = io.StringIO(), io.StringIO()
    out.buffer = io.BytesIO()
    kept = sys.stdin
    if content is not None:
        sys.stdin = io.TextIOWrapper(io.BytesIO(content))
    try:
        with contextlib.redirect_stdout(out), contextlib.redirect_stderr(errors):
            status = pqpage.main(words)
    finally:
        sys.stdin = kept
    return status, out.getvalue() + out.buffer.getvalue().decode("utf-8", "surrogateescape"), errors.getvalue()


def run(words, **how):
    """A call of its own process."""
    how = {"capture_output": True, "timeout": SECONDS, "check": False, "env": {**os.environ, "PQ": PROGRAM}, **how}
    return subprocess.run([SCRIPT, *words], **how)


# --- what is read ---

def drawn_matrix(draw):
    """A matrix with names: the columns, the rows, and its cells."""
    width, height = draw.randint(2, 7), draw.randint(1, 7)
    letters = "abcdefghijklmnopqrstuvwxyzäöüé€– "
    names = set()
    while len(names) < width + height:
        names.add("N" + "".join(draw.choice(letters) for _ in range(draw.randint(1, 8))).strip())
    names = draw.sample(sorted(names), width + height)
    cells = [[draw.random() < 0.5 for _ in range(width)] for _ in range(height)]
    for row in cells:
        row[draw.randrange(width)] = True
    for column in range(width):
        cells[draw.randrange(height)][column] = True
    return names[:width], names[width:], cells


def wanted_file(columns, cells):
    """The bytes of the exact file: rows that name their columns."""
    rows = (" ".join(str(at) for at, is_there in enumerate(row, 1) if is_there) for row in cells)
    return "".join(f"{line}\n" for line in [columns, *rows]).encode()


def in_wide_dialect(draw, things, names, cells):
    """The matrix as a wide table in some dialect: the bytes, and the words that say how to read it."""
    mark = draw.choice(["1", "x", "X", "3", "yes"])
    blank = draw.choice(["", "0", "-"])
    order = draw.choice(["columns", "lines"])
    extra = draw.randrange(2)
    table = [["", *things]] + [[name, *(mark if is_there else blank for is_there in row)] for name, row in zip(names, cells)]
    if extra:
        table = [[*row, "Sum" if at == 0 else "7"] for at, row in enumerate(table)]
    if order == "lines":
        table = [list(row) for row in zip(*table)]
    words = ["--order", order] + ["--drop", "Sum"] * extra
    words += ["--marks", "yes,7"] if mark == "yes" else []
    words += ["--absent=-"] if blank == "-" else []
    titles = draw.randrange(3)
    if draw.randrange(3) == 0:
        table = [[*row, "", ""] for row in table]
    text, separator = as_text(draw, table)
    if separator == "|":
        words += ["--separator", "|"]
    end = "\r\n" if "\r\n" in text else "\n"
    text = "".join(f"A title {at}{end}" for at in range(titles)) + text
    words += ["--header", str(titles + 1)] if titles else []
    if draw.randrange(3) == 0:
        text += draw.choice([end, "  " + end, separator * (len(table[0]) - 1) + end])
    return encoded(draw, text), words


def as_text(draw, table):
    """A table as a text, with what separates its fields."""
    separator = draw.choice([",", ";", "\t", "|"])
    out = io.StringIO()
    csv.writer(out, delimiter=separator, lineterminator=draw.choice(["\n", "\r\n"]),
               quoting=draw.choice([csv.QUOTE_MINIMAL, csv.QUOTE_ALL])).writerows(table)
    return out.getvalue(), separator


def encoded(draw, text):
    """A text in some encoding."""
    return text.encode(draw.choice(["utf-8", "utf-8-sig", "utf-16", "cp1252"]))


def in_long_dialect(draw, things, names, cells):
    """The matrix as a long table."""
    pairs = [(name, thing) for name, row in zip(names, cells) for thing, is_there in zip(things, row) if is_there]
    first = [(names[0], thing) for thing in things if (names[0], thing) in pairs]
    table = [["row", "note", "thing"]] + [[name, "n", thing] for name, thing in pairs + first]
    text, separator = as_text(draw, table)
    return encoded(draw, text), ["--long", "row,thing"] + (["--separator", "|"] if separator == "|" else [])


def in_json(draw, things, names, cells):
    """The matrix as probes and clones."""
    clones = [{"name": name, "probes": [thing for thing, is_there in zip(things, row) if is_there]} for name, row in zip(names, cells)]
    return json.dumps({"probes": things, "clones": clones}, ensure_ascii=bool(draw.randrange(2))).encode(), ["--kind", "rows"]


def dialect_problem(draw, folder):
    """What is wrong with how a drawn matrix in a drawn dialect is read, or None: the exact file is the matrix, byte for byte."""
    things, names, cells = drawn_matrix(draw)
    form = draw.choice([in_wide_dialect, in_wide_dialect, in_long_dialect, in_json])
    content, words = form(draw, things, names, cells)
    path, to = os.path.join(folder, "table"), os.path.join(folder, "out.in")
    with open(path, "wb") as stream:
        stream.write(content)
    status, _, errors = called(["convert", path, to, *words])
    if status:
        return f"{form.__name__} {words} {content!r}: status {status} {errors}"
    with open(to, "rb") as stream:
        made = stream.read()
    with open(os.path.join(folder, "out.names.json"), encoding="utf-8") as stream:
        side = json.load(stream)["sides"][0]
    if form is in_long_dialect:
        order = list(dict.fromkeys(thing for name, row in zip(names, cells) for thing, is_there in zip(things, row) if is_there))
        cells = [[row[things.index(thing)] for thing in order] for row in cells]
        things = order
    if form is in_wide_dialect and side["things"] != things:
        return f"{words} {content!r}: {side}"
    fits = made == wanted_file(len(things), cells) and (side["things"], side["rows"]) == (things, names)
    return None if fits else f"{form.__name__} {words} {content!r}: {made!r} {side}"


def dialects():
    """Drawn matrices in drawn dialects."""
    draw = random.Random(SEED)
    with tempfile.TemporaryDirectory() as folder:
        found = (dialect_problem(draw, folder) for _ in range(DIALECTS))
        return next((problem for problem in found if problem), None)


# --- what is refused ---

def spoilt():
    """Files that can't be read as they are: the bytes, the words, and what the line names."""
    wide = ["--order", "columns"]
    table = b"Type,G 1,G 2\nBowl,1,\nJar,,1\n"
    yield from ((table.replace(b"Bowl,1,", cells), wide, "line 2")
                for cells in (b"Bowl,yes,", b"Bowl,NA,", b"Bowl,1.0,", b"Bowl,?,", b"Bowl,-1,", b"Bowl,1e3,", b"Bowl,TRUE,"))
    yield from ((table.replace(b"Bowl,1,", cells), wide, "line 2 ") for cells in (b"Bowl,1", b"Bowl,1,,", b"Bowl"))
    yield from [(b"", wide, "nothing"), (b"\n\n", wide, "nothing"), (b"Type,G 1\n", wide, "no line"), (b"abc\ndef\n", wide, "two fields"),
                (b"PK\x03\x04rest", wide, "zip"),
                (b"\x1f\x8bzzz", wide, "gzip"), (b"%PDF-1.5", wide, "PDF"), (b"\xd0\xcf\x11\xe0", wide, "xls"), (b"T\0y\0", wide, "zero bytes")]
    yield from [(table.replace(b"Jar", b"Bowl"), wide, "lines 2 and 3"), (table.replace(b"G 2", b"G 1"), wide, "columns 2 and 3"),
                (table.replace(b"G 2", b""), wide, "column 3"),
                (table.replace(b"Jar", b""), wide, "line 3"), (b"A title\n" + table, wide, "--header 2"),
                (b"A title;\n\n" + table, wide, "--header 3"),
                (b"a,b\n1,0\n0,1\n", wide, "--line-names"), (table, [*wide, "--drop", "none"], "'none'"),
                (table, [*wide, "--drop", "Bowl", "--drop", "Jar"], "nothing is left"),
                (b"T,\"G 1\nBowl,1\n", wide, "quote"), (b"Type;a,b;c\nx;1,0;1\n", wide, "--separator"),
                (table, [*wide, "--encoding", "nowhere"], "nowhere"),
                (table.replace(b"Bowl", b"B\xfcwl"), [*wide, "--encoding", "utf-8"], "utf-8"),
                (table.replace(b"G 2", b"Total"), [*wide, "--strict"], "'Total'"),
                (table.replace(b"Jar,,1", b"Jar,1,1"), [*wide, "--strict"], "'G 1'"), (b"T,G,Y\nB,,1987\nJ,1,2004\n", [*wide, "--strict"], "'Y'")]
    long = ["--long", "row,thing"]
    yield from [(b"row,other\na,b\n", long, "'thing'"), (b"row,row\na,b\n", long, "'row'"), (b"row,thing\n,b\n", long, "line 2"),
                (b"row,thing\na,\n", long, "thing"),
                (b"row,thing,n\na,b,maybe\n", [*long, "--value", "n"], "line 2"), (b"row,thing\na,b\n", [*long, "--value", "n"], "'n'")]
    yield from [(b"{", [], "JSON"), (b"{}", [], "probes"), (b'{"probes": ["a", "a"], "clones": []}', [], "'a'"),
                (b'{"probes": ["a"], "clones": [{"probes": ["b"]}]}', [], "clone 1"),
                (b'{"probes": ["a"], "clones": [{"name": "k"}]}', [], "clone 1"), (b'{"probes": [1], "clones": []}', [], "probes"),
                (b'{"probes": [], "clones": [7]}', [], "clone 1"),
                (b'{"probes": ["a"], "clones": [{"name": "k", "probes": []}, {"name": "k", "probes": []}]}', [], "'k'")]
    far = ["--distances"]
    yield from [(b"0,1\n1,nan\n", far, "line 2"), (b"0,-1\n-1,0\n", far, "line 1"), (b",a,b\na,1,0.5\nb,0.5,1\n", far, "similarities"),
                (b",a,b\na,0,1\nb,2,0\n", far, "line 3"),
                (b",a,b\na,0,1\nc,1,0\n", far, "names"), (b",a,a\na,0,1\na,1,0\n", far, "'a'"), (b"0,1,2\n1,0,1\n", far, "square"),
                (b",a,b\na,0,\nb,1,0\n", far, "line 2"),
                (b",a,b\na,0,0.1234567890123456789\nb,0.1234567890123456789,0\n", far, "--digits"),
                (b"," + b",".join(b"i%d" % at for at in range(257)) + b"\n" + b"".join(b"i%d" % at + b",0" * 257 + b"\n" for at in range(257)), far,
                 "256")]
    edges = ["--graph", "--header", "0"]
    yield from [(b"a,b,c\n", edges, "line 1"), (b"a,a\n", edges, "line 1"), (b"\n", edges, "no edge")]
    yield from [(b"012\n", ["--plain", "--kind", "matrix"], "line 1"), (b"2\n1 3\n", ["--plain", "--kind", "rows"], "line 2"),
                (b"{", ["--plain", "--kind", "clones"], "JSON")]


def refusals():
    """Each spoilt file ends with status 3 and a line that names the culprit, and nothing is written."""
    with tempfile.TemporaryDirectory() as folder:
        path = os.path.join(folder, "spoilt")
        for content, words, culprit in spoilt():
            with open(path, "wb") as stream:
                stream.write(content)
            status, out, errors = called(["report", path, os.path.join(folder, "out"), "--pq", PROGRAM, *words])
            if status != 3 or culprit not in errors or errors.count("\n") != 1 or out or os.listdir(folder) != ["spoilt"]:
                return f"{words} {content[:60]!r}: {status} {errors!r} {out!r} {os.listdir(folder)}"
    return None


def wrong_words():
    """Wrong words end with status 2, one line, and nothing written."""
    table = os.path.join(HOME, "examples", "graves.csv")
    for words in ([], ["report"], ["look", table], ["look", table, "--order", "rows"], ["look", table, "--graph"], ["look", table, "--plain"],
                  ["json", table, "--kind", "robinson", "--order", "lines"],
                  ["solve", table], ["look", table, "--none"]):
        status, out, errors = called(words)
        if status != 2 or errors.count("\n") != 1 or out:
            return f"{words}: {status} {errors!r} {out!r}"
    return None


def warnings():
    """Sums, years and full columns are warned of, and blank columns, blank lines and title lines are told."""
    text = b"A title;;;;\nType;G 1;Sum;Y;\nBowl;1;1;1987;\n;;;;\nJar;1;1;2004;\n"
    with tempfile.TemporaryDirectory() as folder:
        path = os.path.join(folder, "table")
        with open(path, "wb") as stream:
            stream.write(text)
        status, out, _ = called(["look", path, "--order", "columns", "--header", "2"])
    wanted = ["'Sum' is named like", "'Y' is full of years", "'G 1' has a mark in every cell", "blank columns at the end, which are left out: 1",
              "blank lines, which are left out: 1", "line 2; the lines before it", "semicolon"]
    lacks = [one for one in wanted if one not in out]
    return None if status == 0 and not lacks else f"{status} {out!r} lacks {lacks}"


# --- what a page shows ---

def pictures_on(page):
    """The pictures of a page, as elements."""
    return [ElementTree.fromstring(text) for text in re.findall(r"<svg.*?</svg>", page, re.S)]


def seen(picture):
    """What a picture of a table shows: the names over its columns from left to right, and for each named row its columns, by where things lie."""
    heads, rows = {}, {}
    for text in picture.iter(f"{SVG}text"):
        if text.get("transform"):
            heads[float(text.get("x"))] = text.find(f"{SVG}title").text
        elif text.get("text-anchor") == "end":
            rows[float(text.get("y"))] = text.find(f"{SVG}title").text
    order = [heads[x] for x in sorted(heads)]
    left = min(heads) - 12
    found = {name: [] for name in rows.values()}
    for rect in picture.iter(f"{SVG}rect"):
        name = rows.get(float(rect.get("y")) + 12)
        if rect.get("fill") == "#1f4e79" and name is not None:
            begin = round((float(rect.get("x")) - left) / 16)
            end = round((float(rect.get("x")) + float(rect.get("width")) + 1 - left) / 16)
            found[name].append(list(range(begin, end)))
    return order, found


def picture_problem(value, picture, members, names):
    """What is wrong with the picture of an order, or None: its columns are the order, each row's marks stand together, and are those of the table."""
    order, rows = seen(picture)
    if order != value["order"] or sorted(rows) != sorted(names):
        return f"{order} {sorted(rows)}, wanted {value['order']}"
    seats = [(not members[name], *(sorted(order.index(one) for one in members[name])[at] for at in (0, -1) if members[name])) for name in rows]
    if seats != sorted(seats):
        return f"the rows are not by first, then last place: {list(rows)}"
    for name, parts in rows.items():
        if len(parts) > 1 or {order[at] for part in parts for at in part} != members[name]:
            return f"{name}: {parts}, wanted {members[name]}"
    return None


def orders_of(width, rows):
    """All orders in which each row stands together, by trying all."""
    for order in itertools.permutations(range(width)):
        places = [[at for at, column in enumerate(order) if column in row] for row in rows]
        if all(not one or one[-1] - one[0] + 1 == len(one) for one in places):
            yield order


def steps_of(page):
    """The steps that a page reads aloud, each as two statements and the row between them."""
    text = re.search(r"<ol>(.*?)</ol>", page, re.S)
    for item in re.findall(r"<li>(.*?)</li>", text[1] if text else "", re.S):
        yield re.fullmatch(r"(\w+) stands (before|after) (\w+); (?:(\w+) has (\w+) and (\w+) and lacks (\w+), so|turned round:) (\w+) stands "
                           r"(before|after) (\w+)\.", item).groups()


def steps_problem(page, members):
    """What is wrong with the steps that are read aloud, or None: each follows from its row, and they close with a contradiction."""
    steps = list(steps_of(page))
    if len(steps) % 2 == 0:
        return f"{len(steps)} steps"
    for number, (one, side, other, row, has, also, lacks, then, then_side, then_other) in enumerate(steps):
        following = steps[(number + 1) % len(steps)]
        now = (one, other) if side == "before" else (other, one)
        next_ = (then, then_other) if then_side == "before" else (then_other, then)
        after = (following[0], following[2]) if following[1] == "before" else (following[2], following[0])
        if number + 1 < len(steps) and next_ != after or number + 1 == len(steps) and next_ != after[::-1]:
            return f"step {number + 1} doesn't lead to the next: {steps}"
        if row is None:
            fits = now == next_
        else:
            # the row holds two things and not the third, so the two lie on one side of it
            fits = {has, also} <= members[row] and lacks not in members[row] and {*now, *next_} == {has, also, lacks}
            fits = fits and lacks in now and lacks in next_ and now.index(lacks) == next_.index(lacks)
        if not fits:
            return f"step {number + 1} doesn't follow: {steps[number]}"
    return None


def report_problem(columns, rows, folder):
    """What is wrong with the report on a matrix, or None."""
    things, names = [f"C{at}" for at in range(columns)], [f"R{at}" for at in range(len(rows))]
    members = {name: {things[at] for at in row} for name, row in zip(names, rows)}
    path, out = os.path.join(folder, "t.csv"), os.path.join(folder, "out")
    with open(path, "w", encoding="utf-8") as stream:
        stream.write(",".join(["", *things]) + "\n" + "".join(",".join([name, *("1" if at in row else "0" for at in range(columns))]) + "\n"
                                                              for name, row in zip(names, rows)))
    status, _, errors = called(["report", path, out, "--order", "columns", "--pq", PROGRAM])
    if status:
        return f"status {status} {errors}"
    with open(f"{out}.json", encoding="utf-8") as stream:
        value = json.load(stream)
    with open(f"{out}.html", encoding="utf-8") as stream:
        page = stream.read()
    has_order = next(orders_of(columns, rows), None) is not None
    if (value["answer"] == "yes") != has_order:
        return f"the answer is {value['answer']}"
    ElementTree.fromstring(re.sub(r"<!DOCTYPE html>", "", page))
    shown = value if has_order else value["agree"]
    with open(f"{out}.csv", encoding="utf-8", newline="") as stream:
        header, *body = csv.reader(stream)
    told = {row[0]: {name for name, cell in zip(header[1:], row[1:]) if cell == "1"} for row in body}
    if header[1:columns + 1] != shown["order"] or told != members:
        return f"the table in order is {header} {body}"
    problem = picture_problem(shown, pictures_on(page)[0], members, names if has_order else shown["rows"])
    if problem or has_order:
        return problem
    return steps_problem(page, members) or core_problem(columns, value, rows, names)


def core_problem(columns, value, rows, names):
    """What is wrong with what is said after a no, or None, by trying all orders."""
    def has_order(chosen):
        return next(orders_of(columns, [rows[names.index(name)] for name in chosen]), None) is not None

    for core in value["cores"]:
        if has_order(core["rows"]) or not all(has_order([other for other in core["rows"] if other != name]) for name in core["rows"]):
            return f"no core: {core['rows']}"
    taken = []
    aside = {one["row"]: one["contradicts"] for one in value["set aside"]}
    for name in names:
        if has_order([*taken, name]):
            taken.append(name)
        elif name not in aside or has_order([*aside[name], name]) or not set(aside[name]) <= set(taken):
            return f"{name} is not set aside rightly: {value['set aside']}"
    return None if value["agree"]["rows"] == taken and set(aside) == set(names) - set(taken) else f"agree: {value['agree']['rows']}, wanted {taken}"


def small_matrices():
    """Every matrix of at most 3 by 3, as rows of columns from 0."""
    for columns in range(1, 4):
        subsets = [{at for at in range(columns) if bits >> at & 1} for bits in range(2**columns)]
        for count in range(1, 4):
            yield from ((columns, rows) for rows in itertools.product(subsets, repeat=count))


def reports():
    """The reports on all small matrices, and on drawn ones of four and five columns, are right."""
    draw = random.Random(SEED)
    larger = [(columns, [{at for at in range(columns) if draw.random() < 0.5} for _ in range(6)]) for columns in (4, 5) for _ in range(40)]
    with tempfile.TemporaryDirectory() as folder:
        for columns, rows in [*small_matrices(), *larger]:
            if columns == 1 or not all(any(at in row for row in rows) for at in range(columns)):
                continue
            problem = report_problem(columns, rows, folder)
            if problem:
                return f"{columns} {rows}: {problem}"
    return None


def all_kinds():
    """Each kind of file gives a page, a yes and a no, whose proof is valid again."""
    no = {"matrix": b"110\n011\n101\n", "rows": b"3\n1 2\n2 3\n1 3\n", "table": b"t,a,b,c\nr,1,1,\ns,,1,1\nu,1,,1\n",
          "circular": b"11000\n10100\n10010\n01100\n", "convex": b"3 3\n1 1\n1 2\n2 2\n2 3\n3 1\n3 3\n",
          "clones": b'{"probes": ["a", "b", "c"], "clones": [{"probes": ["a", "b"]}, {"probes": ["b", "c"]}, {"probes": ["a", "c"]}]}',
          "doubly": b"3 3\n1 1\n1 2\n2 2\n2 3\n3 1\n3 3\n",
          "proper": b"4\n1 2\n1 3\n1 4\n", "robinson": b"4\n0 1 1 1\n1 0 2 2\n1 2 0 2\n1 2 2 0\n"}
    yes = {"matrix": "nested.txt", "rows": "chain.txt", "table": "graves.csv", "clones": "map.json", "circular": "ring.txt", "convex": "jobs.txt",
           "doubly": "path.txt", "proper": "overlaps.txt",
           "robinson": "distances.txt"}
    with tempfile.TemporaryDirectory() as folder:
        path, out = os.path.join(folder, "f"), os.path.join(folder, "out")
        for kind in no:
            for is_yes in (True, False):
                content = open(os.path.join(HOME, "examples", yes[kind]), "rb").read() if is_yes else no[kind]
                with open(path, "wb") as stream:
                    stream.write(content)
                for name in os.listdir(folder):
                    if name != "f":
                        os.remove(os.path.join(folder, name))
                given = called(["report", path, out, "--plain", "--kind", kind, "--status", "--pq", PROGRAM])
                again = called(["again", f"{out}.json", "--pq", PROGRAM])
                if given[0] != (0 if is_yes else 1) or again[0]:
                    return f"{kind} {'yes' if is_yes else 'no'}: {given} {again}"
    return None


def hostile_names():
    """Names that would be markup give well-formed pages without an active element, and are shown as they are."""
    with tempfile.TemporaryDirectory() as folder:
        path, out = os.path.join(folder, "t.csv"), os.path.join(folder, "out")
        with open(path, "w", encoding="utf-8", newline="") as stream:
            writer = csv.writer(stream)
            writer.writerow(["", *HOSTILE])
            writer.writerows([f"row {name}", *("1" if at in (number, number + 1) else "" for at in range(len(HOSTILE)))] for number,
                             name in enumerate(HOSTILE))
        status, _, errors = called(["report", path, out, "--order", "columns", "--title", "<b>T</b>", "--things", "<i>", "--pq", PROGRAM])
        if status:
            return f"{status} {errors}"
        page = open(f"{out}.html", encoding="utf-8").read()
        root = ElementTree.fromstring(page.replace("<!DOCTYPE html>", ""))
        names = {element.tag.rpartition("}")[2] for element in root.iter()}
        attributes = {name for element in root.iter() for name in element.attrib}
        known = {"html", "head", "meta", "title", "style", "body", "h1", "h2", "p", "ul", "ol", "li", "figure", "figcaption", "svg", "rect", "text",
                 "code", "div"}
        if not names <= known or any(name.startswith("on") or name in ("href", "src") for name in attributes):
            return f"{names - known} {attributes}"
        heads = {text.find(f"{SVG}title").text for text in pictures_on(page)[0].iter(f"{SVG}text") if text.find(f"{SVG}title") is not None}
        lacks = [name for name in HOSTILE if name.replace("\u0001", "\ufffd") not in heads]
        return f"the picture lacks {lacks}" if lacks else None


# --- that it is found out ---

def changed_bytes():
    """A report of which a byte is changed, in whichever of its files, is found out with status 7."""
    draw = random.Random(SEED)
    with tempfile.TemporaryDirectory() as folder:
        path, out = os.path.join(folder, "t.csv"), os.path.join(folder, "out")
        for text in (b",a,b,c\nr,1,1,\ns,,1,1\nu,1,,1\nv,1,1,1\n", b",a,b,c\nr,1,1,\ns,,1,1\n"):
            with open(path, "wb") as stream:
                stream.write(text)
            called(["report", path, out, "--order", "columns", "--pq", PROGRAM])
            for name in sorted(os.listdir(folder)):
                whole = os.path.join(folder, name)
                content = open(whole, "rb").read()
                for _ in range(6 if name != "t.csv" else 0):
                    at = draw.randrange(len(content))
                    with open(whole, "wb") as stream:
                        stream.write(content[:at] + bytes([content[at] ^ 1]) + content[at + 1:])
                    status, said, errors = called(["again", f"{out}.json", "--pq", PROGRAM])
                    if status != 7 or said:
                        return f"byte {at} of {name}: {status} {said} {errors}"
                with open(whole, "wb") as stream:
                    stream.write(content)
            if called(["again", f"{out}.json", "--pq", PROGRAM])[0]:
                return "the report itself is not valid"
    return None


LIAR = """#!/bin/sh
# judges as pq does, and answers the question with another order
case $1 in {command}) "{pq}" "$@" | sed '{edit}';; *) exec "{pq}" "$@";; esac
"""
# What it says otherwise: an order, and that a core has another first row.
LIES = [("solve", "s/^order 1 2 3/order 1 3 2/"), ("core", "0,/^row 1$/s//row 3/")]


def faults():
    """No program, another one, one that lies, files that can't be read or written: each ends with its status, and leaves older files alone."""
    table = os.path.join(HOME, "examples", "graves.csv")
    words = ["--order", "columns"]
    with tempfile.TemporaryDirectory() as folder:
        os.chmod(folder, 0o755)
        out, chain, ring = (os.path.join(folder, name) for name in ("out", "chain", "ring"))
        for command, edit in LIES:
            with open(os.path.join(folder, command), "w", encoding="utf-8") as stream:
                stream.write(LIAR.format(pq=PROGRAM, command=command, edit=edit))
            os.chmod(os.path.join(folder, command), 0o755)
        for path, text in [(chain, "5\n1 2\n3 4\n2 3\n"), (ring, "3\n1 2\n2 3\n1 3\n1 3\n")]:
            with open(path, "w", encoding="utf-8") as stream:
                stream.write(text)
        old = f"{out}.html"
        with open(old, "w", encoding="utf-8") as stream:
            stream.write("old")
        tried = [(["report", table, out, *words, "--pq", "nowhere"], 4),
                 (["report", chain, out, "--plain", "--kind", "rows", "--pq", os.path.join(folder, "solve")], 7),
                 (["report", ring, out, "--plain", "--kind", "rows", "--pq", os.path.join(folder, "core")], 7),
                 (["report", table, out, *words, "--pq", "/bin/true"], 7),
                 (["report", os.path.join(folder, "none"), out, *words, "--pq", PROGRAM], 4), (["report", folder, out, *words, "--pq", PROGRAM], 4),
                 (["report", table, os.path.join(folder, "none", "out"), *words, "--pq", PROGRAM], 5)]
        for given, wanted in tried:
            done = run(given)
            is_left = open(old, encoding="utf-8").read() == "old"
            if done.returncode != wanted or done.stderr.count(b"\n") != 1 or b"Traceback" in done.stderr or not is_left:
                return f"{given}: {done.returncode} {done.stderr}"
        for name in ("json", "look"):
            with open("/dev/full", "wb") as full:
                done = run([name, table, *words], stdout=full, capture_output=False, stderr=subprocess.PIPE)
            if done.returncode != 5 or done.stderr.count(b"\n") != 1:
                return f"{name} on a full device: {done.returncode} {done.stderr}"
    return None


def stopped():
    """Ctrl-C ends a call at once, with one line and nothing written."""
    with tempfile.TemporaryDirectory() as folder:
        slow = os.path.join(folder, "slow")
        with open(slow, "w", encoding="utf-8") as stream:
            stream.write(f"#!/bin/sh\ntouch '{folder}/begun'\nexec sleep 30\n")
        os.chmod(slow, 0o755)
        process = subprocess.Popen([SCRIPT, "report", os.path.join(HOME, "examples", "graves.csv"), os.path.join(folder, "out"), "--order",
                                    "columns", "--pq", slow], stderr=subprocess.PIPE,
                                   start_new_session=True, preexec_fn=lambda: signal.signal(signal.SIGINT, signal.default_int_handler))
        end = time.monotonic() + SECONDS
        while not os.path.exists(os.path.join(folder, "begun")) and time.monotonic() < end:
            time.sleep(0.02)
        os.killpg(process.pid, signal.SIGINT)
        errors = process.communicate(timeout=20)[1]
        left = sorted(os.listdir(folder))
    return None if process.returncode == 130 and errors == b"pqpage: stopped\n" and left == ["begun",
                                                                                             "slow"] else f"{process.returncode} {errors} {left}"


def as_a_module():
    """The module's function gives what `json` prints, and stops with a status."""
    path = os.path.join(HOME, "examples", "graves.csv")
    value = pqpage.answer(path, order="columns", pq=PROGRAM)
    printed = run(["json", path, "--order", "columns"])
    try:
        pqpage.answer(path)
        status = None
    except pqpage.Stop as stop:
        status = stop.status
    return None if (json.loads(printed.stdout), status) == (value, 2) and value["order"][0] == "Grave 3" else f"{value} {status} {printed}"


def one_version():
    """The version stands in one file, and the companion, the line to cite and the changes tell the same."""
    version = read_text("VERSION").strip()
    told = [called_version(), re.search(r"^version: (.*)$", read_text("CITATION.cff"), re.M)[1],
            re.search(r"^## (.*)$", read_text("CHANGELOG.md"), re.M)[1]]
    return None if told == [version] * 3 else f"{version} {told}"


def called_version():
    """What `pqpage --version` prints."""
    return run(["--version"]).stdout.decode().strip()


def read_text(name):
    """The text of a file of the repository."""
    with open(os.path.join(HOME, name), encoding="utf-8") as stream:
        return stream.read()


# --- with other programs, where they are there ---

R_TRIAL = """source("{folder}/pq.R")
m <- matrix(c(1,0,1,0,0, 1,0,0,1,0, 0,1,0,1,0), nrow = 3, byrow = TRUE, dimnames = list(c("a", "b", "c"), paste0("G", 1:5)))
f <- pq_order(m)
cat(f$answer, f$columns, f$rows, f$names, f$tree, sep = "|"); cat("\\n")
cat(is.null(pq_core(m)), class(pq_permutation(f)), sep = "|"); cat("\\n")
n <- rbind(m, e = c(0,1,1,0,0), g = c(1,1,1,1,1))
cat(pq_order(n)$answer, names(pq_core(n)), sep = "|"); cat("\\n")
m[1, 1] <- NA
cat(inherits(try(pq_order(m), silent = TRUE), "try-error"), pq_order(matrix(0, 0, 3))$tree, sep = "|"); cat("\\n")
cat(length(pq_core(outer(1:600, 1:600, function(row, column) (column - row) %% 600 < 2)))); cat("\\n")
cat(conditionMessage(tryCatch(pq_call(pq_program(), "solve", list()), error = identity)), "\\n")
"""
R_SAYS = "yes|2|4|1|3|5|3|2|1|G2|G4|G1|G3|G5|([2 4 1 3] 5)\nTRUE|ser_permutation|list\nno|a|b|c|e\nTRUE|(1 2 3)\n600\npq: words \n"


def in_r(pq=PROGRAM):
    """The functions for R give the orders and the cores, over the program or over the library."""
    if shutil.which("Rscript") is None:
        return passed_over("Rscript")
    with tempfile.TemporaryDirectory() as folder:
        path = os.path.join(folder, "trial.R")
        with open(path, "w", encoding="utf-8") as stream:
            stream.write(R_TRIAL.format(folder=FOLDER))
        done = subprocess.run(["Rscript", path], capture_output=True, text=True, timeout=SECONDS, env={**os.environ, "PQ": pq}, check=False)
    return None if done.stdout == R_SAYS and done.returncode == 0 else f"{done}"


def many_files():
    """The two lines of docs/SCRIPTS.md for many files, on this machine as the only host: statuses come back, and what failed runs again."""
    if shutil.which("parallel") is None:
        return passed_over("parallel")
    first, second = re.findall(r"^    (parallel .*)$", read_text(os.path.join("docs", "SCRIPTS.md")), re.M)
    with tempfile.TemporaryDirectory() as folder:
        os.mkdir(os.path.join(folder, "many"))
        shutil.copy(PROGRAM, os.path.join(folder, "pq"))
        for name, text in {"1": "110\n011\n", "2": "110\n011\n101\n", "3": "1a\n"}.items():
            with open(os.path.join(folder, "many", f"{name}.txt"), "w", encoding="utf-8") as stream:
                stream.write(text)
        # without another host nothing is sent and nothing comes back
        here = re.sub(r"--sshlogin \S+|--basefile \S+|--transferfile \S+|--return \S+|--cleanup", "", first)
        subprocess.run(["sh", "-c", here], cwd=folder, capture_output=True, timeout=SECONDS, check=False)
        with open(os.path.join(folder, "many", "3.txt"), "w", encoding="utf-8") as stream:
            stream.write("11\n")
        before = [open(os.path.join(folder, "many", f"{name}.txt.status"), encoding="utf-8").read() for name in "123"]
        subprocess.run(["sh", "-c", second], cwd=folder, capture_output=True, timeout=SECONDS, check=False)
        after = [open(os.path.join(folder, "many", f"{name}.txt.status"), encoding="utf-8").read() for name in "123"]
    return None if (before, after) == (["0\n", "1\n", "3\n"], ["0\n", "1\n", "0\n"]) else f"{before} {after}"


def passed_over(command):
    """Tells that a check was passed over for want of a program."""
    print(f"passed over: {command} is not here, so nothing was tried with it")


def pixels(content):
    """The pixels of a PNG of eight bits a colour: for each line the bytes of its colours, and how many a pixel has."""
    at, data, head = 8, b"", None
    while at < len(content):
        (size,), kind = struct.unpack(">I", content[at:at + 4]), content[at + 4:at + 8]
        body = content[at + 8:at + 8 + size]
        head = struct.unpack(">IIBB", body[:10]) if kind == b"IHDR" else head
        data += body if kind == b"IDAT" else b""
        at += size + 12
    width, height, _, colour = head
    depth = {2: 3, 6: 4}[colour]
    raw, above, found = zlib.decompress(data), bytes(width * depth), []
    for line in range(height):
        begin = line * (width * depth + 1)
        above = unfiltered(raw[begin], raw[begin + 1:begin + 1 + width * depth], above, depth)
        found.append(above)
    return found, depth


def unfiltered(form, line, above, depth):
    """A line of a PNG without its filter."""
    out = bytearray(line)
    for at, value in enumerate(line):
        left, up, corner = out[at - depth] if at >= depth else 0, above[at], above[at - depth] if at >= depth else 0
        guess = left + up - corner
        nearest = min((left, up, corner), key=lambda one: abs(guess - one))
        out[at] = (value + (0, left, up, (left + up) // 2, nearest)[form]) % 256
    return bytes(out)


def on_a_screen():
    """A picture in a browser: where its bars are drawn, column by column, is where the order says."""
    browser = shutil.which("chromium") or shutil.which("chromium-browser")
    if browser is None:
        return passed_over("chromium")
    with tempfile.TemporaryDirectory() as folder:
        out, shot = os.path.join(folder, "out"), os.path.join(folder, "shot.png")
        called(["report", os.path.join(HOME, "examples", "graves.csv"), out, "--order", "columns", "--pq", PROGRAM])
        subprocess.run([browser, "--headless", "--no-sandbox", "--disable-gpu", "--hide-scrollbars", f"--user-data-dir={folder}/own",
                        f"--screenshot={shot}", "--window-size=400,400", f"file://{out}.svg"],
                       capture_output=True, timeout=SECONDS, check=False)
        lines, depth = pixels(open(shot, "rb").read())
        picture = ElementTree.parse(f"{out}.svg").getroot()
    order, rows = seen(picture)
    left = min(float(text.get("x")) for text in picture.iter(f"{SVG}text") if text.get("transform")) - 12
    for text in picture.iter(f"{SVG}text"):
        if text.get("text-anchor") == "end":
            name, y = text.find(f"{SVG}title").text, int(float(text.get("y"))) - 5
            drawn = [place for place in range(len(order)) if tuple(lines[y][int(left + place * 16 + 8) * depth:][:3]) == (0x1F, 0x4E, 0x79)]
            if drawn != [at for part in rows[name] for at in part]:
                return f"{name}: drawn in {drawn}, wanted {rows[name]}"
    members = {"Beaker": {"Grave 1", "Grave 3"}, "Bowl": {"Grave 1", "Grave 4"}, "Jar": {"Grave 2", "Grave 4"}, "Fibula": {"Grave 2", "Grave 5"}}
    return picture_problem({"order": ["Grave 3", "Grave 1", "Grave 4", "Grave 2", "Grave 5"]}, picture, members, list(members))


def problems():
    """Each check with what is wrong, or None."""
    for check in (dialects, refusals, wrong_words, warnings, reports, all_kinds, hostile_names, changed_bytes, faults, stopped, as_a_module,
                  one_version, in_r, on_a_screen, many_files):
        yield f"companion: {check.__doc__}", check()


def main():
    found = list(problems())
    for name, problem in found:
        if problem is not None:
            print(f"FAILED {name}: {problem}")
    failed = sum(problem is not None for _, problem in found)
    print(f"{len(found) - failed} passed, {failed} failed")
    return 1 if failed else 0


if __name__ == "__main__":
    sys.exit(main())
