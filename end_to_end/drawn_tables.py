"""Tables as people have them, drawn by a seed: separators, quotes, line ends, encodings, titles, marks, blank lines and columns, names that
stand twice, cells that are no marks. Each comes with how it is to be read."""

import random

NAMES = ["Beaker", "Bowl", "Krug, klein", 'the "big" one', "Fibel", "Gefäß", "Total", "n", "pot\nlid", "1960", "jar", "Ürne", "x",
         "A;B", " knife ", "<b>&'c'"]
CELLS = ["", "", "", "1", "1", "x", "0", "2"]
ODD = ["?", "(1)", "1,5", "-"]


def quoted(field, separator, always):
    """A field, in quotes where it needs them."""
    if always or any(one in field for one in (separator, '"', "\n")) or field.startswith('"'):
        return '"' + field.replace('"', '""') + '"'
    return field


def names(draw, count, stem):
    """Names, mostly each once."""
    found = [draw.choice(NAMES) if draw.random() < 0.3 else f"{stem}{number}" for number in range(count)]
    if draw.random() < 0.93:
        found = [name if name not in found[:at] else f"{stem}{at} again" for at, name in enumerate(found)]
    return found


def cells(draw, columns, lines):
    """The cells: those of each column together about every second time, so that yes and no both come."""
    if draw.random() < 0.45:
        begins = [draw.randrange(lines) for _ in range(columns)]
        return [["1" if begin <= line < begin + 1 + begin % 3 else "" for begin in begins] for line in range(lines)]
    spoil = 0.05 if draw.random() < 0.3 else 0
    return [[draw.choice(ODD) if draw.random() < spoil else draw.choice(CELLS) for _ in range(columns)] for _ in range(lines)]


def table(draw):
    """The bytes of a table, and how it is to be read."""
    columns, lines = draw.randint(1, 7), draw.randint(1, 8)
    separator, end = draw.choice(";;,,\t"), draw.choice(["\n", "\r\n"])
    records = [["type", *names(draw, columns, "G")]]
    records += [[name, *row] for name, row in zip(names(draw, lines, "T"), cells(draw, columns, lines))]
    if draw.random() < 0.1:
        records = [[*record, "", ""] for record in records]
    if draw.random() < 0.1:
        records.insert(draw.randint(1, len(records)), [""] * len(records[0]))
    title = draw.random() < 0.1
    if title:
        records.insert(0, ["Finds of 1960"])
    always = draw.random() < 0.1
    text = "".join(separator.join(quoted(field, separator, always) for field in record) + end for record in records)
    if draw.random() < 0.05:
        at = draw.randrange(len(text))
        text = text[:at] + draw.choice(["", '"', separator, "\n"]) + text[at + 1:]
    encoding = draw.choice(["utf-8", "utf-8", "utf-8-sig", "cp1252", "utf-16"])
    return text.encode(encoding, "replace"), reading(draw, 2 if title and draw.random() < 0.8 else 1)


def many_lines():
    """A table with almost as many lines as pq takes, and how it is to be read."""
    lines = "".join(f"T{number},{'1' if number % 2 else ''},1,{'' if number % 2 else '1'}\n" for number in range(131000))
    return f"type,a,b,c\n{lines}".encode(), reading(random.Random(1), 1) | {"kind": "rows", "order": "columns", "drop": []}


def reading(draw, header):
    """How a table is to be read."""
    marks = draw.choice([([], ["?"]), ([], ["?", "-", "(1)", "1,5"]), (["x", "1"], ["2", *ODD]), ([">1"], ["x", "?", "(1)", "-"])])
    return {"kind": draw.choice(["rows", "rows", "circular"]), "order": draw.choice(["columns", "lines"]), "header": header,
            "separator": ";" if draw.random() < 0.05 else None, "lineNames": draw.choice([None, None, None, "first"]) if draw.random() < 0.97 else "none",
            "drop": draw.choice([["T1"], ["Total"]]) if draw.random() < 0.1 else [], "marks": {"present": marks[0], "absent": marks[1]}}


def tables(seed, count):
    """So many tables of this seed."""
    draw = random.Random(seed)
    return [table(draw) for _ in range(count)]
