"""What the companion says of each kind: trees, counts of orders, intervals, contigs, distances, cycles and reasons, by plain programs and by hand."""

import csv
import hashlib
import itertools
import json
import os
import random
import re
import subprocess
import tempfile

from companion import SCRIPT, SECONDS, SVG, called, orders_of, pictures_on, seen
from program import HOME, PROGRAM

SEED = 45


def report(folder, content, words, ending=""):
    """A report on these bytes: the dictionary, the page, and the table in order; None of all where the call fails."""
    path, out = os.path.join(folder, f"t{ending}"), os.path.join(folder, "out")
    with open(path, "wb") as stream:
        stream.write(content)
    status, _, errors = called(["report", path, out, "--pq", PROGRAM, *words])
    if status:
        raise AssertionError(f"{words} {content[:80]!r}: {status} {errors}")
    with open(f"{out}.json", encoding="utf-8") as stream:
        value = json.load(stream)
    with open(f"{out}.html", encoding="utf-8") as stream:
        page = stream.read()
    with open(f"{out}.csv", encoding="utf-8", newline="") as stream:
        return value, page, list(csv.reader(stream))


def table(things, rows, names=None):
    """A wide table of rows that are sets of things."""
    names = names or [f"R{at}" for at in range(len(rows))]
    lines = [",".join(["", *things]), *(",".join([name, *("1" if thing in row else "" for thing in things)]) for name, row in zip(names, rows))]
    return "".join(f"{line}\n" for line in lines).encode()


def differs(what, wanted, given):
    """What is wrong where two values differ, or None."""
    return None if wanted == given else f"{what}: {given!r}, wanted {wanted!r}"


def first_of(problems):
    """The first problem, or None."""
    return next((problem for problem in problems if problem), None)


# --- orders, trees and counts ---

def frontiers(tree):
    """All orders that a tree with names stands for."""
    if isinstance(tree, str):
        return {(tree,)}
    (kind, parts), = tree.items()
    ways = itertools.permutations(parts) if kind == "permute" else (parts, parts[::-1])
    found = set()
    for way in ways:
        for chosen in itertools.product(*map(frontiers, way)):
            found.add(tuple(itertools.chain(*chosen)))
    return found


def counted(page):
    """The numbers of orders that a page tells."""
    return [int(text) for text in re.findall(r"<p>There (?:is|are) (\d+) orders?", page)]


def drawn_rows(draw, things, most):
    """Drawn rows over these things."""
    return [{thing for thing in things if draw.random() < 0.5} for _ in range(draw.randint(1, most))]


def trees_and_counts():
    """The tree with names stands for all orders, the blocks are its inner nodes, and the number of orders is theirs, by trying all."""
    draw = random.Random(SEED)
    with tempfile.TemporaryDirectory() as folder:
        for _ in range(60):
            things = [f"C{at}" for at in range(draw.randint(2, 5))]
            rows = drawn_rows(draw, things, 4)
            value, page, body = report(folder, table(things, rows), ["--order", "columns"])
            told = value if value["answer"] == "yes" else value["agree"]
            kept = rows if value["answer"] == "yes" else [rows[int(name[1:])] for name in told["rows"]]
            wanted = {tuple(things[at] for at in order) for order in orders_of(len(things), [{things.index(one) for one in row} for row in kept])}
            blocks = [set(block["members"]) for block in told["blocks"]]
            split = [block for block in blocks for order in wanted if len(block) != max(map(order.index, block)) - min(map(order.index, block)) + 1]
            problem = first_of([differs("tree", wanted, frontiers(told["tree"])), differs("count", [len(wanted)], counted(page)),
                                differs("blocks that are split", [], split),
                                differs("rows of the table", [*seen(pictures_on(page)[0])[1], *(one["row"] for one in value.get("set aside", []))],
                                        [row[0] for row in body[1:]])])
            if problem:
                return f"{things} {rows}: {problem}"
    return None


def free_things():
    """What is tied to no other is told, and grey: by hand."""
    with tempfile.TemporaryDirectory() as folder:
        value, page, _ = report(folder, table("abcde", ["ab", "bc"]), ["--order", "columns"])
        grey = [text.find(f"{SVG}title").text for text in pictures_on(page)[0].iter(f"{SVG}text") if text.get("fill") == "#888888"]
        problem = first_of([differs("free", ["d", "e"], sorted(value["free"])), differs("grey", ["d", "e"], sorted(grey)),
                            differs("line", True, "Tied to none of the others" in page)])
        ring, circle, _ = report(folder, table("abcde", ["ab", "bc", "cd", "de", "ae"]), ["--order", "columns", "--kind", "circular"])
        return problem or differs("free round a circle", ([], False),
                                  (ring["free"], "Tied to none of the others:" in circle or 'fill="#888888"' in circle))


def circles():
    """Orders round a circle are counted without rotations, by trying all; a no speaks of complements by name, and its cycle follows from them."""
    draw = random.Random(SEED)
    with tempfile.TemporaryDirectory() as folder:
        for _ in range(40):
            things = [f"C{at}" for at in range(draw.randint(3, 5))]
            rows = drawn_rows(draw, things, 5)
            value, page, body = report(folder, table(things, rows), ["--order", "columns", "--kind", "circular"])
            orders = [order for order in itertools.permutations(things[1:])
                      if all(sum((one in row) != (other in row) for one, other in zip((things[0], *order), (*order, things[0]))) <= 2
                             for row in rows)]
            members = {f"R{at}": row for at, row in enumerate(rows)}
            turned = {name: set(things) - row if things[0] in row else row for name, row in members.items()}
            if value["answer"] == "yes":
                problem = differs("count", [len(orders)], counted(page)) or differs("table", members, marked(body))
            else:
                named = {f"the complement of {name}" if turned[name] != row else name: turned[name] for name, row in members.items()}
                problem = differs("orders", [], orders) or cycles_problem(value, turned) or differs("table", named, marked(body, -1))
            if problem:
                return f"{things} {rows}: {problem}"
    return None


def marked(body, last=None):
    """The rows of a table in order, each with the things that it marks."""
    header, *rows = body
    return {row[0]: {thing for thing, cell in zip(header[1:last], row[1:last]) if cell == "1"} for row in rows}


# --- reasons ---

def follows(now, row, then, members):
    """Whether a step of a cycle follows: turned round, or by a row that has the outer two of three things and lacks the middle one."""
    if row is None:
        return then == now[::-1]
    (one, other), (then_one, then_other) = now, then
    triples = ([(one, other, then_other)] if then_one == other else []) + ([(then_one, one, other)] if then_other == one else [])
    return any({left, right} <= members[row] and middle not in members[row] and left != right for left, middle, right in triples)


def cycles_problem(value, members):
    """What is wrong with the cycles of a no, or None: each is odd, closed, follows from its rows, and names just the rows that are blamed."""
    told = [(core["cycle"], set(core["rows"]), True) for core in value["cores"]]
    told += [(one["cycle"], {one["row"], *one["contradicts"]}, False) for one in value["set aside"]]
    for cycle, blamed, is_core in told:
        steps = [(tuple(step["things"]), step["row"]) for step in cycle]
        named = {row for _, row in steps if row is not None}
        if len(steps) % 2 == 0 or not all(follows(now, row, then, members) for (now, row), (then, _) in zip(steps, steps[1:] + steps[:1])):
            return f"no odd cycle: {steps}"
        if not named <= blamed or named != blamed and not is_core:
            return f"blamed are {sorted(blamed)}, and the cycle names {sorted(named)}"
    return None


def reasons():
    """After a no each cycle is odd and follows, and the rows blamed are those that it names; no two cores share a row."""
    draw = random.Random(SEED)
    with tempfile.TemporaryDirectory() as folder:
        things = [f"C{at}" for at in range(5)]
        for number in range(40):
            # first all pairs, of which many are set aside
            drawn = [row for row in drawn_rows(draw, things, 4) + drawn_rows(draw, things, 8) if row]
            rows = drawn if number else [set(pair) for pair in itertools.combinations(things, 2)]
            value, page, body = report(folder, table(things, rows), ["--order", "columns"])
            if value["answer"] == "yes":
                continue
            members = {f"R{at}": row for at, row in enumerate(rows)}
            said = [f"<p>Core {number}: {', '.join(core['rows'])}.</p>" in page for number, core in enumerate(value["cores"], 1)]
            aside = [one["row"] for one in value["set aside"]]
            cored = [name for core in value["cores"] for name in core["rows"]]
            lines = [f"<li>{one['row']}: contradicts {', '.join(one['contradicts'])}</li>" in page for one in value["set aside"]]
            agree = f"<p>{', '.join(value['agree']['rows'])}</p>" in page and sorted([*value["agree"]["rows"], *aside]) == sorted(members)
            problem = first_of([cycles_problem(value, members), differs("lines of the page", (True, True), (all(lines), agree)),
                                numbers_problem(page), differs("cores on the page", [True] * len(said), said),
                                differs("rows in two cores", sorted(set(cored)), sorted(cored)),
                                differs("rows set aside in the table", aside, [row[0] for row in body if row[-1] == "yes"])])
            if problem:
                return f"{rows}: {problem}"
    return None


def numbers_problem(page):
    """What is wrong with the numbers in the picture of the core, or None: each stands where its step says that a row lacks something."""
    steps = re.findall(r"<li>(.*?)</li>", re.search(r"<ol>(.*?)</ol>", page)[1])
    wanted = {(number, *found.groups()) for number, found in enumerate((re.search(r"(\w+) has \w+ and \w+ and lacks (\w+), so", step)
                                                                        for step in steps), 1) if found}
    texts = list(pictures_on(page)[1].iter(f"{SVG}text"))
    heads = {float(text.get("x")) - 10: text.find(f"{SVG}title").text for text in texts if text.get("transform")}
    names = {float(text.get("y")): text.find(f"{SVG}title").text for text in texts if text.get("text-anchor") == "end"}
    given = {(int(text.text), names[float(text.get("y"))], heads[float(text.get("x"))]) for text in texts if text.get("fill") == "#a00000"}
    return differs("numbers", wanted, given)


def bars_and_words():
    """The bars of the tree lie under their blocks, dark where the parts keep their order, and the words say the same; by hand."""
    with tempfile.TemporaryDirectory() as folder:
        value, page, _ = report(folder, table("abcde", ["ab", "bc", "abcd"]), ["--order", "columns"])
        picture, order = pictures_on(page)[0], value["order"]
        heads = sorted(float(text.get("x")) for text in picture.iter(f"{SVG}text") if text.get("transform"))
        bars = {"#333333": [], "#b06000": []}
        for rect in picture.iter(f"{SVG}rect"):
            begin, end = float(rect.get("x")), float(rect.get("x")) + float(rect.get("width"))
            bars.get(rect.get("fill"), []).append("".join(sorted(name for name, head in zip(order, heads) if begin <= head <= end)))
        given = ({fill: sorted(found) for fill, found in bars.items()},
                 sorted(("".join(sorted(block["members"])), block["fixed"]) for block in value["blocks"]))
        wanted = ({"#333333": ["abc"], "#b06000": ["abcd", "abcde"]}, [("abc", True), ("abcd", False)])
        words = re.findall(r"<li>(Within .*?)</li>", page)
        turns = [re.fullmatch(r"Within (a, b, c|c, b, a): 3 parts stand in this order, up to turning it round: (a; b; c|c; b; a)\.",
                              line) is not None for line in words]
        return differs("bars and blocks", wanted, given) or differs("words", (2, 1), (len(words), sum(turns)))


def sums_of_files():
    """The page and the dictionary tell the sums of the file, of the exact file, of the verdict, and of the program."""
    with tempfile.TemporaryDirectory() as folder:
        value, page, _ = report(folder, table("abc", ["ab", "bc"]), ["--order", "columns"])
        files = {"source": "t", "in": "out.in", "verdict": "out.verdict", "pq": PROGRAM}
        wanted = {name: hashlib.sha256(open(os.path.join(folder, path), "rb").read()).hexdigest() for name, path in files.items()}
        shown = re.findall(r"SHA-256 of [^:]*: ([0-9a-f]{64})", page)
        return differs("sums", (wanted, list(wanted.values())), (value["sums"], shown))


def trusted():
    """The order of trust: of the file, the named ones first, the rare ones first; by hand."""
    content = table("abcd", ["abc", "bd", "cd", "ad"], ["big", "bd", "cd", "ad"])
    # abc and bd: d beside b, at the end of abc. cd and ad then have no place: with bd taken, d stands beside b.
    cases = [([], ["big", "bd"], ["cd", "ad"]), (["--trust", "ad"], ["big", "ad"], ["bd", "cd"]), (["--trust", "cd,ad"], ["cd", "ad"], ["big", "bd"]),
             (["--rare-first"], ["bd", "cd"], ["ad", "big"]), (["--trust", "ad,ad"], ["big", "ad"], ["bd", "cd"])]
    with tempfile.TemporaryDirectory() as folder:
        for words, agree, aside in cases:
            value, page, _ = report(folder, content, ["--order", "columns", *words])
            given = (value["agree"]["rows"], [one["row"] for one in value["set aside"]])
            if given != (agree, aside) or f"Taken in turn, {len(agree)} of the lines agree, and {len(aside)} were set aside" not in page:
                return f"{words}: {given}, wanted {agree} {aside}"
        value, page, _ = report(folder, content, ["--order", "columns", "--cores", "1"])
        return differs("cores", (1, True), (len(value["cores"]), "No more than 1 cores were looked for" in page))


# --- clones, intervals, distances, two sides ---

def clones():
    """Contigs are stretches that clones tie together, or single probes; places are first and last; green bars are the contigs."""
    draw = random.Random(SEED)
    with tempfile.TemporaryDirectory() as folder:
        for _ in range(20):
            line = [f"p{at}" for at in range(9)]
            held = [line[begin:begin + draw.randint(0, 4)] for begin in (draw.randrange(9) for _ in range(5))]
            probes = draw.sample(line, len(line))
            content = json.dumps({"probes": probes, "clones": [{"name": f"k{at}", "probes": row} for at, row in enumerate(held)]}).encode()
            value, page, _ = report(folder, content, [])
            order = value["order"]
            places = {f"k{at}": [min(map(order.index, row)) + 1, max(map(order.index, row)) + 1] if row else None for at, row in enumerate(held)}
            contigs = [[probe] for probe in order]
            for at in range(len(order) - 1, 0, -1):
                if any(order[at - 1] in row and order[at] in row for row in held):
                    contigs[at - 1:at + 1] = [contigs[at - 1] + contigs[at]]
            picture = pictures_on(page)[0]
            heads = sorted(float(text.get("x")) for text in picture.iter(f"{SVG}text") if text.get("transform"))
            green = [(float(rect.get("x")), float(rect.get("width"))) for rect in picture.iter(f"{SVG}rect") if rect.get("fill") == "#2e7d32"]
            bars = [[order[at] for at, head in enumerate(heads) if begin <= head <= begin + width] for begin, width in green]
            problem = first_of([differs("places", places, value["places"]), differs("bars", value["contigs"], bars),
                                differs("contigs", contigs, value["contigs"])])
            if problem:
                return f"{held} {order}: {problem}"
    return None


def intervals():
    """Two vertices have an edge exactly where their intervals meet, in the dictionary and in the picture; by a plain program."""
    draw = random.Random(SEED)
    with tempfile.TemporaryDirectory() as folder:
        for _ in range(20):
            points = {f"v{at}": draw.random() for at in range(7)}
            edges = {frozenset(pair) for pair in itertools.combinations(points, 2) if abs(points[pair[0]] - points[pair[1]]) < 0.25}
            content = "".join(f"{' '.join(sorted(edge))}\n" for edge in edges) + "".join(f"{name}\n" for name in points)
            value, page, _ = report(folder, content.encode(), ["--graph", "--header", "0"])
            picture = pictures_on(page)[0]
            names = {float(text.get("y")): text.find(f"{SVG}title").text for text in picture.iter(f"{SVG}text")}
            drawn = {names[float(rect.get("y")) + 12]: (float(rect.get("x")), float(rect.get("x")) + float(rect.get("width")))
                     for rect in picture.iter(f"{SVG}rect")}
            for found in (value["intervals"], drawn):
                meet = {frozenset(pair) for pair in itertools.combinations(points, 2) if found[pair[0]][0] <= found[pair[1]][1]
                        and found[pair[1]][0] <= found[pair[0]][1]}
                if sorted(found) != sorted(points) or meet != edges:
                    return f"{sorted(map(sorted, edges))}: {found}"
    return None


def distances():
    """Distances are read with all their digits or rounded, written back as decimals in order, and drawn the darker the nearer; by hand."""
    content = b",Cc,Aa,Bb\nCc,0,1.26,1e-05\nAa,1.26,0,1.25\nBb,0.00001,1.25,0\n"
    with tempfile.TemporaryDirectory() as folder:
        for words, numbers in [([], (126000, 1, 125000)), (["--digits", "1"], (13, 0, 12)), (["--digits", "0"], (1, 0, 1))]:
            value, page, body = report(folder, content, ["--distances", *words])
            with open(os.path.join(folder, "out.in"), "rb") as stream:
                given = stream.read()
            first, near, far = numbers
            problem = differs("file", f"3\n0 {first} {near}\n{first} 0 {far}\n{near} {far} 0\n".encode(), given)
            if problem:
                return f"{words}: {problem}"
            if not words:
                order = value["order"]
                real = {"CcAa": 1.26, "CcBb": 0.00001, "AaBb": 1.25}
                table_said = {body[0][column] + row[0]: float(row[column]) for row in body[1:] for column in (1, 2, 3)}
                wanted = {one + other: real.get(one + other, real.get(other + one, 0)) for one in order for other in order}
                shade = {rect.find(f"{SVG}title").text: int(re.match(r"rgb\((\d+)", rect.get("fill"))[1])
                         for rect in pictures_on(page)[0].iter(f"{SVG}rect")}
                by_name = [shade[name] for name in ("Aa and Aa: 0.00000", "Bb and Cc: 0.00001", "Aa and Bb: 1.25000", "Aa and Cc: 1.26000")]
                problem = first_of([differs("middle", "Bb", order[1]), differs("lines", order, [row[0] for row in body[1:]]),
                                    differs("table", wanted, table_said), differs("shades", sorted(set(by_name)), by_name)])
                if problem:
                    return problem
        value, page, _ = report(folder, b",a,b,c\na,0,1.0004,2\nb,1,0,1.0001\nc,2,1,0\n", ["--distances", "--digits", "2"])
        note = "the table isn't symmetric: b and a differ most, by 0.0004"
        kept = report(folder, b"0,1.000000000000000000000000000000001\n1.000000000000000000000000000000001,0\n",
                      ["--distances", "--digits", "3"])[2][2][1]
        return differs("note", True, note in value["read"]) or differs("rounded", "1.000", kept) or too_many_digits(folder)


def too_many_digits(folder):
    """Digits that don't fit are never dropped without a word: more than 28 of them, and huge or tiny numbers."""
    path = os.path.join(folder, "d")
    for text in ("100000.000000000000000000000001", "1e99999999", "1e-99999999", "1e20"):
        with open(path, "w", encoding="utf-8") as stream:
            stream.write(f"0,{text}\n{text},0\n")
        status, out, errors = called(["look", path, "--distances"])
        if status != 3 or out or "--digits" not in errors:
            return f"{text}: {status} {out} {errors}"
    return None


def two_sides():
    """Of `doubly` both sides are told, by trying all orders; a no names its side."""
    draw = random.Random(SEED)
    with tempfile.TemporaryDirectory() as folder:
        for _ in range(30):
            things = [f"C{at}" for at in range(draw.randint(2, 4))]
            rows = drawn_rows(draw, things, 4)
            value, page, _ = report(folder, table(things, rows), ["--order", "columns", "--kind", "doubly"])
            names = [f"R{at}" for at in range(len(rows))]
            across = [{name for name, row in zip(names, rows) if thing in row} for thing in things]
            members = [dict(zip(names, rows)), dict(zip(things, across))]
            wanted = [{tuple(side[at] for at in order) for order in orders_of(len(side), [{side.index(one) for one in row} for row in over])}
                      for side, over in ((things, rows), (names, across))]
            if value["answer"] == "yes":
                given = [frontiers(one["tree"]) for one in (value, value["other side"])]
                shown = [seen(picture) for picture in pictures_on(page)]
                drawn = [{name: {order[at] for part in parts for at in part} for name, parts in lines.items()} for order, lines in shown]
                problem = first_of([differs("orders", wanted, given),
                                    differs("pictures", [value["order"], value["other side"]["order"]], [order for order, _ in shown]),
                                    differs("marks", members, drawn)])
            else:
                number = value["side"] - 1
                problem = differs("orders of the side", set(), wanted[number]) or cycles_problem(value, members[number])
            if problem:
                return f"{rows}: {problem}"
    return None


# --- words ---

def dropped_and_counted():
    """`--drop` leaves out rows and things in each form, or says that there is none of the name; `--value` says which lines count; by hand."""
    clone = b'{"probes": ["a", "b", "c"], "clones": [{"name": "k", "probes": ["b", "a"]}, {"name": "l", "probes": ["c"]}]}'
    far = b",a,b,c\na,0,1,2\nb,1,0,3\nc,2,3,0\n"
    cases = [(clone, ["--kind", "rows", "--drop", "a"], b"2\n1\n2\n"), (clone, ["--kind", "rows", "--drop", "l"], b"3\n1 2\n"),
             (b"r,t,n\nx,a,1\nx,b,0\ny,b,2\n", ["--long", "r,t", "--value", "n"], b"2\n1\n2\n"),
             (b"r,t,n\nx,a,1\nx,b,0\ny,b,2\n", ["--long", "r,t"], b"2\n1 2\n2\n"),
             (b"r,t\nx,a\nx,b\ny,b\n", ["--long", "r,t", "--drop", "a"], b"1\n1\n1\n"),
             (b"r,t\nx,a\nx,b\ny,b\n", ["--long", "r,t", "--drop", "x"], b"2\n2\n"),
             (b",a,b\nx,2,3\ny,\"2,5\",1\n", ["--order", "columns", "--marks", ">2"], b"2\n2\n1\n"),
             (far, ["--distances", "--drop", "b"], b"2\n0 2\n2 0\n"), (b"a,b\nb,c\nd\n", ["--graph", "--header", "0", "--drop", "a"], b"3\n1 2\n"),
             (b"x,a\ny,b\n", ["--graph", "--header", "0", "--kind", "convex", "--drop", "x"], b"1 2\n1 2\n")]
    with tempfile.TemporaryDirectory() as folder:
        path, to = os.path.join(folder, "t"), os.path.join(folder, "t.in")
        for content, words, wanted in cases:
            with open(path, "wb") as stream:
                stream.write(content)
            status, _, errors = called(["convert", path, to, *words])
            given = open(to, "rb").read() if status == 0 else errors
            none = called(["convert", path, to, *words, "--drop", "none"])
            if given != wanted or none[0] != 3 or "'none' to drop" not in none[2]:
                return f"{words}: {given}, wanted {wanted}; {none}"
    return None


def words_that_say_nothing():
    """Words that say nothing about a file, or two things, end with status 2 and a line that names them."""
    wide, long, far = ["--order", "columns"], ["--long", "r,t"], ["--distances"]
    cases = [([*wide, "--digits", "2"], "--digits"), ([*wide, "--value", "r"], "--value"), ([*long, "--order", "lines"], "--order"),
             ([*long, "--marks", "x"], "--marks"),
             ([*far, "--marks", "x"], "--marks"), ([*far, "--kind", "rows"], "rows"), ([*far, *long], "--distances"),
             (["--graph", "--header", "0", "--plain", "--kind", "rows"], "--graph"),
             ([*wide, "--header", "0"], "--header"), ([*far, "--digits", "-1"], "--digits"), ([*wide, "--separator", "ab"], "--separator"),
             (["--long", "r"], "--long"),
             (["--long", "r,r"], "--long"), ([*wide, "--marks", ">a"], "'>a'"), (["--plain", "--kind", "rows", "--header", "2"], "--header")]
    with tempfile.TemporaryDirectory() as folder:
        path = os.path.join(folder, "t")
        with open(path, "wb") as stream:
            stream.write(b"r,t\na,1\n")
        for words, named in cases:
            status, out, errors = called(["look", path, *words])
            if status != 2 or named not in errors or errors.count("\n") != 1 or out:
                return f"{words}: {status} {errors!r} {out!r}"
        for out in ("-", folder + os.sep):
            if called(["report", path, out, *wide])[0] != 2:
                return f"a report to {out!r}"
    return None


def warned():
    """Warnings stand on standard error, in the dictionary and on the page; what was read stands on the page too."""
    with tempfile.TemporaryDirectory() as folder:
        path, out = os.path.join(folder, "t"), os.path.join(folder, "out")
        with open(path, "wb") as stream:
            stream.write(b"Title;;;;\n;a;;b;Summe\nx;1;;;1\n;;;;\ny;;;1;1\n")
        status, _, errors = called(["report", path, out, "--order", "columns", "--header", "2", "--pq", PROGRAM])
        value, page = json.load(open(f"{out}.json", encoding="utf-8")), open(f"{out}.html", encoding="utf-8").read()
        told = ["blank columns are left out: 3", "blank lines, which are left out: 1", "the header is line 2", "semicolon", "read as utf-8"]
        lacks = [text for text in told if text not in page or text not in " ".join(value["read"])]
        named = ["'Summe'" in text for text in (errors, value["warnings"][0], page.replace("&#x27;", "'"))]
        turned = called(["look", path, "--order", "lines", "--header", "2"])
        with open(path, "wb") as stream:
            stream.write(b",a,b,c\nx,1,,1\nAnzahl,1,1,\nJahr,1987,2001,\nz,1,1,1\n")
        lines = re.findall("^warning: (.*)$", called(["look", path, "--order", "columns"])[1], re.M)
        wanted = ["the line 'Anzahl' is named like", "the line 'Jahr' is named like", "the line 'z' has a mark in every cell"]
        full = [f"the column {name!r} has a mark in every cell" in " ".join(lines) for name in "abc"]
        return first_of([differs("status", 0, status), differs("untold", [], lacks), differs("warned", [True] * 3, named),
                         differs("of lines", (0, True), (turned[0], "'Summe'" in turned[1])),
                         differs("lines", [], [text for text in wanted if not any(line.startswith(text) for line in lines)]),
                         differs("full", [True, False, False], full)])


def picture_of_the_start():
    """The picture that companion/README.md shows is the one that its command makes."""
    with tempfile.TemporaryDirectory() as folder:
        content = open(os.path.join(HOME, "examples", "graves.csv"), "rb").read()
        report(folder, content, ["--order", "columns"])
        made, shown = (open(path, "rb").read() for path in (os.path.join(folder, "out.svg"), os.path.join(HOME, "examples", "graves.svg")))
    return differs("picture", shown, made)


# --- how a call ends ---

def ends():
    """Closed and full outputs, standard input, devices as OUT, and reports that are none: each ends with its status and one line."""
    plain = {key: value for key, value in os.environ.items() if key != "PYTHONUNBUFFERED"}
    with tempfile.TemporaryDirectory() as folder:
        path, out = os.path.join(folder, "t"), os.path.join(folder, "out")
        with open(path, "wb") as stream:
            stream.write(b",a,b\nx,1,\ny,,1\n")
        call = f"'{SCRIPT}'"
        shell = [("{call} look {path} --order columns > /dev/full", 5), ("{call} json {path} --order columns >&-", 5),
                 ("{call} look {path} --order columns >&-", 5),
                 ("{call} look - --order columns <&-", 4), ("{call} look - --order columns < {path} > {folder}/said", 0),
                 ("{call} -h > /dev/full", 5),
                 ("{call} look {folder}/none --order columns", 4), ("{call} report {path} {folder}/pipe --order columns", 5)]
        os.mkfifo(os.path.join(folder, "pipe.html"))
        for line, wanted in shell:
            done = subprocess.run(line.format(call=call, path=path, folder=folder), shell=True, capture_output=True, timeout=SECONDS,
                                  env={**plain, "PQ": PROGRAM}, check=False)
            if done.returncode != wanted or done.stderr.count(b"\n") != (wanted != 0):
                return f"{line}: {done}"
        left = [name for name in os.listdir(folder) if name.endswith(".new")]
        if left or not os.path.exists(os.path.join(folder, "pipe.html")):
            return f"left: {left}"
        return differs("reports", None, no_reports(folder, path, out))


def no_reports(folder, path, out):
    """What is wrong with how `again` ends on what is no report, or None."""
    words = ["--pq", PROGRAM]
    called(["report", path, out, "--order", "columns", *words])
    with open(f"{out}.json", encoding="utf-8") as stream:
        good = stream.read()
    value = json.loads(good)
    spoilt = ["", "{", "[]", "7", "[" * 100000, "{}", good[:-20], json.dumps({**value, "kept": {**value["kept"], "form": "pqpage 1"}}),
              json.dumps({**value, "files": []}),
              json.dumps({**value, "kept": {**value["kept"], "names": []}}), json.dumps({**value, "kept": {**value["kept"], "digits": -1}}),
              json.dumps({**value, "kept": None})]
    for text in spoilt:
        with open(f"{out}.json", "w", encoding="utf-8") as stream:
            stream.write(text)
        status, said, errors = called(["again", f"{out}.json", *words])
        if status != 7 or said or errors.count("\n") != 1:
            return f"{text[:60]}: {status} {said} {errors}"
    with open(f"{out}.json", "w", encoding="utf-8") as stream:
        stream.write(good)
    os.remove(f"{out}.svg")
    status = called(["again", f"{out}.json", *words])[0]
    return None if status == 7 else f"without its picture: {status}"


LIAR = """#!/bin/sh
# answers as pq does but for one command, and may find everything valid
case $1 in {judge}) echo valid;; {command}) said=$("{pq}" "$@"); status=$?
printf '%s\\n' "$said" | sed '{edit}'; exit $status;;
*) exec "{pq}" "$@";; esac
"""
# A file of rows, the command that lies, and what it says otherwise.
LIES = [("4\n1 2\n2 3\n3 4\n", "solve", "s/^order 1 2 3/order 1 3 2/"), ("3\n1 2\n2 3\n1 3\n1 3\n", "core", "s/^row 1$/row 4/"),
        ("3\n1 2\n2 3\n1 3\n", "extend", "s/row 1$/row 2/"), ("3\n1 2\n2 3\n1 3\n", "solve", "s/^order 1 2 3/order 1 3 2/")]


def lies():
    """Lies of a program are found out where it judges itself rightly, and by `again` where it finds them valid."""
    with tempfile.TemporaryDirectory() as folder:
        path, out, liar = (os.path.join(folder, name) for name in ("t", "out", "liar"))
        honest = os.path.join(folder, "honest")
        for content, command, edit in LIES:
            for name, text in ((path, content), (liar, LIAR.format(judge="check|check-core", command=command, edit=edit, pq=PROGRAM)),
                               (honest, LIAR.format(judge="none", command=command, edit=edit, pq=PROGRAM))):
                with open(name, "w", encoding="utf-8") as stream:
                    stream.write(text)
            os.chmod(liar, 0o755)
            os.chmod(honest, 0o755)
            judged = called(["report", path, out, "--plain", "--kind", "rows", "--pq", honest])
            made = called(["report", path, out, "--plain", "--kind", "rows", "--pq", liar])
            lied = called(["again", f"{out}.json", "--pq", liar])
            found = called(["again", f"{out}.json", "--pq", PROGRAM])
            if (judged[0], made[0], lied[0], found[0]) != (7, 0, 0, 7) or "did not check" not in found[2]:
                return f"{command} {content!r}: {judged} {made} {lied} {found}"
    return None


def problems():
    """Each check with what is wrong, or None."""
    for check in (trees_and_counts, free_things, circles, reasons, bars_and_words, sums_of_files, trusted, clones, intervals, distances, two_sides,
                  dropped_and_counted,
                  words_that_say_nothing, warned, picture_of_the_start, ends, lies):
        try:
            problem = check()
        except AssertionError as error:
            problem = str(error)
        yield f"companion: {check.__doc__}", problem
