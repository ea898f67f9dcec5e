"""The cases of the kinds `rows`, `table` and `clones`.

Every wanted text was written by hand from the rules of the formats (docs/FORMATS.md).
"""

import json

from cases import LIMIT, case, count, in_both, in_each

MARK = b"\xef\xbb\xbf"
DIGITS = b"1" * 30


def yes(kind, columns, tree, order, *added):
    """The verdict on an instance that has a valid order, with the lines that the kind adds."""
    lines = ["pq-verdict 2", f"kind {kind}", f"columns {columns}", "answer yes", f"tree {tree}", f"order {order}", *added, "end"]
    return "\n".join(lines + [""]).encode()


def answers(name, kind, content, *wanted):
    return case(f"{kind}: {name}", ["solve", kind, "file"], 0, yes(kind, *wanted), files={"file": content})


def refused(name, kind, content, code, line):
    return case(f"{kind}: {name}", ["solve", kind, "file"], 3, err=f"pq: refused 1 code {code} line {line}\n".encode(),
                files={"file": content})


def judged(name, kind, content, verdict, line):
    return case(f"{kind}: {name}", ["check", kind, "file", "verdict"], 0 if line == "valid" else 1, f"{line}\n".encode(),
                files={"file": content, "verdict": verdict})


def lines(text):
    """The bytes of lines that are apart by ` / `."""
    return (text + " / ").replace(" / ", "\n").encode()


# ---- rows ----

CHAIN_ROWS = lines("5 / 1 2 / 3 4 / 2 3")
CHAIN_ANSWER = (5, "([1 2 3 4] 5)", "1 2 3 4 5")

ROWS = [
    answers("a chain beside a column", "rows", CHAIN_ROWS, *CHAIN_ANSWER),
    answers("the same rows in another order, one of them twice", "rows", lines("5 / 2 3 / 3 4 / 1 2 / 3 4"), *CHAIN_ANSWER),
    answers("2,048 columns without a row", "rows", b"2048\n", 2048, f"({count(2048)})", count(2048)),
    answers("lines that end with CR LF", "rows", CHAIN_ROWS.replace(b"\n", b"\r\n"), *CHAIN_ANSWER),
    answers("no LF at the end", "rows", CHAIN_ROWS[:-1], *CHAIN_ANSWER),
    answers("a lone CR at the end", "rows", CHAIN_ROWS[:-1] + b"\r", *CHAIN_ANSWER),
    answers("spaces and tabs round the words", "rows", b"\t5 \n 1\t2\n3  4\t\n2 3\n", *CHAIN_ANSWER),
    answers("leading zeros", "rows", b"0005\n01 2\n3 004\n" + b"0" * 40 + b"2 3\n", *CHAIN_ANSWER),
    answers("columns that fall, and that come twice", "rows", b"5\n2 1 2 1 1\n4 3\n3 2\n", *CHAIN_ANSWER),
    answers("empty rows", "rows", b"5\n\n1 2\n \t\n3 4\n\r\n2 3\n\n", *CHAIN_ANSWER),
    answers("a byte order mark", "rows", MARK + CHAIN_ROWS, *CHAIN_ANSWER),
    answers("131,072 rows", "rows", b"1\n" + b"\n" * 131_072, 1, "1", "1"),
    answers("a file of the greatest length", "rows", b"1\n" + b" " * (LIMIT - 2), 1, "1", "1"),
    refused("an empty file", "rows", b"", 1, 0),
    refused("a byte order mark alone", "rows", MARK, 1, 0),
    refused("a second byte order mark", "rows", MARK + MARK + b"1\n", 2, 1),
    refused("a blank first line", "rows", b"\n5\n1 2\n", 2, 1),
    refused("two words in the first line", "rows", b"5 5\n", 2, 1),
    refused("a first word that is no number", "rows", b"five\n", 2, 1),
    refused("a sign before the number of columns", "rows", b"+5\n", 2, 1),
    refused("no column", "rows", b"0\n", 4, 1),
    refused("no column, by 30 zeros", "rows", b"0" * 30 + b"\n", 4, 1),
    refused("2,049 columns", "rows", b"2049\n", 7, 1),
    refused("a number of columns of 30 digits", "rows", DIGITS + b"\n", 7, 1),
    refused("a column past the last", "rows", b"2\n3\n", 4, 2),
    refused("a column 0", "rows", b"2\n\n1 0\n", 4, 3),
    refused("a column of 30 digits", "rows", b"2\n1\n" + DIGITS + b"\n", 4, 3),
    refused("a column of 2 to the 64th and 1", "rows", b"2\n18446744073709551617\n", 4, 2),
    refused("a word that is no number", "rows", b"2\n1 x\n", 2, 2),
    refused("a word that is no number after a column past the last", "rows", b"2\n3 x\n", 4, 2),
    refused("a column past the last after a word that is no number", "rows", b"2\nx 3\n", 2, 2),
    refused("a sign before a column", "rows", b"2\n-1\n", 2, 2),
    refused("a comma between columns", "rows", b"2\n1,2\n", 2, 2),
    refused("a CR in the middle", "rows", b"2\n1\r2\n", 2, 2),
    refused("two CR at the end", "rows", b"2\n1\r\r\n", 2, 2),
    refused("a zero byte", "rows", b"2\n1\x002\n", 2, 2),
    refused("digits of another script", "rows", "2\n\u0661\n".encode(), 2, 2),
    refused("the 131,073rd row", "rows", b"1\n" + b"\n" * 131_073, 7, 131_074),
    refused("the 131,073rd row is also malformed", "rows", b"1\n" + b"\n" * 131_072 + b"x\n", 7, 131_074),
    refused("a file one byte past the limit", "rows", b"1\n" + b" " * (LIMIT - 1), 7, 0),
    refused("a file past the limit is judged by its length first", "rows", b"x" * (LIMIT + 1), 7, 0),
]

# ---- table ----


def graves():
    """The finds of 25 types in 40 graves as a spreadsheet writes them: type t occurs where t <= (7j mod 41) <= t + 15."""
    records = ["\"Type\"," + ",".join(f"\"Grave {j}, east\"" for j in range(1, 41))]
    for t in range(1, 26):
        cells = [str(1 + (t + j) % 3) if t <= 7 * j % 41 <= t + 15 else "" for j in range(1, 41)]
        records.append(f"\"Type {t}\"," + ",".join(cells))
    return "".join(record + "\r\n" for record in records).encode()


GRAVES = ("6 12 18 24 30 36 1 7 13 19 25 31 37 2 8 14 20 26 32 38 3 9 15 21 27 33 39 4 10 16 22 28 34 40 5 11 17 23 29 35")
NESTED_TABLE = MARK + lines("t,a,b,c / x,2,X, / y, ,0,1")
NESTED_ANSWER = (3, "((1 2) 3)", "1 2 3")
ONE = (1, "1", "1")
TWO = (2, "(1 2)", "1 2")

TABLES = [
    answers("finds in 40 graves, from a spreadsheet", "table", graves(), 40, f"[{GRAVES}]", GRAVES),
    answers("marks of every kind, after a byte order mark", "table", NESTED_TABLE, *NESTED_ANSWER),
    answers("a header alone", "table", b"t,a,b\n", *TWO),
    answers("no LF at the end", "table", NESTED_TABLE[:-1], *NESTED_ANSWER),
    answers("records that end with CR", "table", NESTED_TABLE.replace(b"\n", b"\r"), *NESTED_ANSWER),
    answers("blank lines, which are no records", "table", b"\n\nt,a,b,c\n\nx,2,X,\n\r\ny, ,0,1\n\n", *NESTED_ANSWER),
    answers("tabs and spaces round the marks", "table", b"t,a,b,c\nx,\t1 , x\t,\ny,,\t \t, \t7\n", *NESTED_ANSWER),
    answers("digits with leading zeros, zeros alone, and 30 digits", "table", b"t,a,b,c\nx,007," + DIGITS + b",00\ny,0,000," + b"0" * 30 + b"1\n",
            *NESTED_ANSWER),
    answers("a name with a comma, a line feed and a doubled quote", "table", b"t,\"a,\n\"\"b\"\"\",c\nx,1,\ny,,1\n", *TWO),
    answers("marks in quotes", "table", b"t,a,b,c\n\"x\",\"2\",\" X \",\"\"\ny,\"0\",,\"1\"\n", *NESTED_ANSWER),
    answers("a quote that is not closed", "table", b"t,a\nx,\"1", *ONE),
    answers("a first field that is passed over", "table", b"\xff,a\n?!,1\n", *ONE),
    answers("names that are no UTF-8", "table", b"t,\xff,\xfe\nx,1,\n", *TWO),
    answers("blank names, any number of times", "table", b",, ,\t,\"\"\n", 4, "(1 2 3 4)", "1 2 3 4"),
    answers("names that differ in capitals or in blanks within", "table", b"t,a b,A b,a  b\n", 3, "(1 2 3)", "1 2 3"),
    answers("2,048 columns", "table", b"," * 2048 + b"\n", 2048, f"({count(2048)})", count(2048)),
    answers("131,072 rows", "table", b"t,a\n" + b"x,1\n" * 131_072, *ONE),
    answers("a file of the greatest length", "table", b"t,a\nx," + b" " * (LIMIT - 6), *ONE),
    refused("an empty file", "table", b"", 1, 0),
    refused("a byte order mark alone", "table", MARK, 1, 0),
    refused("line feeds alone", "table", b"\n\r\n\n", 1, 0),
    refused("a header of one field", "table", b"t\n", 1, 1),
    refused("a header of one field before a row", "table", b"t\nx\n", 1, 1),
    refused("a blank header", "table", b" \n", 1, 1),
    refused("2,049 columns", "table", b"," * 2049 + b"\n", 7, 1),
    refused("2,049 columns of two equal names", "table", b"t,a,a" + b"," * 2047 + b"\n", 7, 1),
    refused("a name that comes twice", "table", b"t,a,a\n", 5, 1),
    refused("a name that comes twice, in quotes and after a blank", "table", b"t,a,b,\" a\"\n", 5, 1),
    refused("a name that comes twice, and a row with another mark", "table", b"t,a,a\nx,?,1\n", 5, 1),
    refused("a short record", "table", lines("t,a,b / x,1"), 8, 0),
    refused("a long record", "table", lines("t,a,b / x,1,1,1"), 8, 0),
    refused("a short record after a name that comes twice", "table", b"t,a,a\nx,1\n", 8, 0),
    refused("a short record after another mark", "table", b"t,a,b\nx,?,1\ny,1\n", 8, 0),
    refused("a record of blanks", "table", b"t,a\n \nx,1\n", 8, 0),
    refused("another mark", "table", b"t,a\nx,1\ny,?\n", 2, 3),
    refused("another mark after a header of two lines and a blank line", "table", b"t,\"a\nb\"\n\nx,?\n", 2, 2),
    refused("a sign", "table", b"t,a\nx,-1\n", 2, 2),
    refused("a decimal point", "table", b"t,a\nx,1.0\n", 2, 2),
    refused("two crosses", "table", b"t,a\nx,xx\n", 2, 2),
    refused("a blank between two digits", "table", b"t,a\nx,1 1\n", 2, 2),
    refused("a quote after a digit", "table", b"t,a\nx,1\"\n", 2, 2),
    refused("a mark that is no UTF-8", "table", b"t,a\nx,\xff\n", 2, 2),
    refused("a byte order mark within", "table", b"t,a\nx," + MARK + b"1\n", 2, 2),
    refused("a zero byte", "table", b"t,a\nx,\x00\n", 2, 2),
    refused("the 131,073rd row", "table", b"t,a\n" + b"x,1\n" * 131_073, 7, 131_074),
    refused("the 131,073rd row is also malformed", "table", b"t,a\n" + b"x,1\n" * 131_072 + b"x,?\n", 7, 131_074),
    refused("a file one byte past the limit", "table", b"t,a\nx," + b" " * (LIMIT - 5), 7, 0),
    refused("a file past the limit is judged by its length first", "table", b"x" * (LIMIT + 1), 7, 0),
]

# ---- clones ----

MAP = (b'{"probes":["a","b","c","d","e"],"clones":[{"name":"k1","probes":["b","a"]},{"name":"k2","probes":["b","c"]},'
       b'{"name":"k3","probes":[]},{"name":"k4","probes":["d"]}]}\n')
PLACES = ["places 4", "place 1 1 2", "place 2 2 3", "place 3 none", "place 4 4 4"]
CONTIGS = ["contigs 3", "contig 1 3", "contig 4 4", "contig 5 5"]
MAP_ANSWER = (5, "([1 2 3] 4 5)", "1 2 3 4 5", *PLACES, *CONTIGS)
# One probe that no clone holds.
LONE = (1, "1", "1", "places 0", "contigs 1", "contig 1 1")


def clones(probes, *rows, **more):
    """A clone file with these probes and the probes of each clone."""
    return json.dumps({"probes": probes, "clones": [{"probes": row} for row in rows], **more}).encode()


def deep(arrays):
    """A clone file with a further key under which arrays are nested so deep."""
    return b'{"probes":["a"],"clones":[],"more":' + b"[" * arrays + b"]" * arrays + b"}"


def number(text):
    """A clone file with a further key that has this number."""
    return b'{"probes":["a"],"clones":[],"more":' + text + b"}"


def names(*texts):
    """A clone file with probes of these texts, as they stand between quotes."""
    return b'{"probes":[' + b",".join(b'"' + text + b'"' for text in texts) + b'],"clones":[]}'


def placed(name, line, places=None, contigs=None, tree="([1 2 3] 4 5)", order="1 2 3 4 5"):
    """A check of a verdict on the map with these places and contigs."""
    return judged(name, "clones", MAP, yes("clones", 5, tree, order, *(places or PLACES), *(contigs or CONTIGS)), line)


def holding(*texts):
    """A clone file of one clone that holds the second of these texts, where the first is its only probe."""
    return b'{"probes":["' + texts[0] + b'"],"clones":[{"probes":["' + texts[1] + b'"]}]}'


HELD = (1, "1", "1", "places 1", "place 1 1 1", "contigs 1", "contig 1 1")

CLONES = [
    answers("four clones over five probes", "clones", MAP, *MAP_ANSWER),
    answers("no clone", "clones", clones(["a"]), *LONE),
    answers("clones without probes", "clones", clones(["a", "b"], [], []), 2, "(1 2)", "1 2", "places 2", "place 1 none", "place 2 none",
            "contigs 2", "contig 1 1", "contig 2 2"),
    answers("a clone that holds every probe, and one within it", "clones", clones(["a", "b", "c"], ["c", "a", "b"], ["c", "a"]), 3,
            "((1 3) 2)", "1 3 2", "places 2", "place 1 1 3", "place 2 1 2", "contigs 1", "contig 1 3"),
    answers("a probe named twice in a clone", "clones", clones(["a"], ["a", "a"]), *HELD),
    answers("blanks, tabs and CR LF between the parts", "clones", MAP.replace(b",", b" ,\r\n\t"), *MAP_ANSWER),
    answers("a byte order mark", "clones", MARK + MAP, *MAP_ANSWER),
    answers("no LF at the end", "clones", MAP[:-1], *MAP_ANSWER),
    answers("other keys", "clones", clones(["a"], more={"probes": 5}, name=None), *LONE),
    answers("of two equal keys the last", "clones", b'{"probes":5,"clones":[],"probes":["a"]}', *LONE),
    answers("of two equal keys of a clone the last", "clones", b'{"probes":["a"],"clones":[{"probes":["z"],"probes":["a"]}]}', *HELD),
    answers("a key with an escape", "clones", b'{"\\u0070robes":["a"],"clones":[]}', *LONE),
    answers("a name with an escape", "clones", holding(b"ab\\\"", b"a\\u0062\\u0022"), *HELD),
    answers("a name past the basic plane, with and without escapes", "clones", holding("\U0001f600".encode(), b"\\ud83d\\uDE00"), *HELD),
    answers("a name with a zero byte", "clones", holding(b"\\u0000", b"\\u0000"), *HELD),
    answers("an empty name", "clones", clones([""], [""]), *HELD),
    answers("names that differ in capitals or in blanks", "clones", clones(["a", "A", " a"]), 3, "(1 2 3)", "1 2 3", "places 0", "contigs 3",
            "contig 1 1", "contig 2 2", "contig 3 3"),
    answers("arrays nested 126 deep within the object", "clones", deep(126), *LONE),
    answers("a number of 300 digits", "clones", number(b"9" * 300), *LONE),
    answers("a fraction of 400 digits", "clones", number(b"0." + b"9" * 400), *LONE),
    answers("2,048 probes and 131,072 clones", "clones", clones([str(j) for j in range(2048)], *[[]] * 131_072), 2048, f"({count(2048)})",
            count(2048), "places 131072", *(f"place {i} none" for i in range(1, 131_073)), "contigs 2048",
            *(f"contig {j} {j}" for j in range(1, 2049))),
    answers("a file of the greatest length", "clones", clones(["a"]).ljust(LIMIT), *LONE),
    refused("an empty file", "clones", b"", 9, 0),
    refused("a byte order mark alone", "clones", MARK, 9, 0),
    refused("a second byte order mark", "clones", MARK + MARK + MAP, 9, 0),
    refused("an open brace alone", "clones", b"{", 9, 0),
    refused("a second value", "clones", MAP + b"[]", 9, 0),
    refused("a comma after the last item", "clones", b'{"probes":["a",],"clones":[]}', 9, 0),
    refused("single quotes", "clones", b"{'probes':['a'],'clones':[]}", 9, 0),
    refused("a remark", "clones", b'{"probes":["a"],"clones":[]} // none', 9, 0),
    refused("a line feed within a name", "clones", names(b"a\nb"), 9, 0),
    refused("an escape that is none", "clones", names(b"\\x"), 9, 0),
    refused("a lone leading surrogate", "clones", names(b"\\ud800"), 9, 0),
    refused("a lone trailing surrogate", "clones", names(b"\\udc00"), 9, 0),
    refused("two leading surrogates", "clones", names(b"\\ud83d\\ud83d"), 9, 0),
    refused("a name that is no UTF-8", "clones", names(b"\xff"), 9, 0),
    refused("a surrogate in UTF-8", "clones", names(b"\xed\xa0\x80"), 9, 0),
    refused("a name that is cut off", "clones", b'{"probes":["a', 9, 0),
    refused("arrays nested 127 deep within the object", "clones", deep(127), 9, 0),
    refused("arrays nested 127 deep", "clones", b"[" * 127 + b"]" * 127, 10, 0),
    refused("arrays nested 128 deep", "clones", b"[" * 128 + b"]" * 128, 9, 0),
    refused("arrays nested 100,000 deep", "clones", b"[" * 100_000, 9, 0),
    refused("a number of 400 digits", "clones", number(b"9" * 400), 9, 0),
    refused("a number with a leading zero", "clones", number(b"01"), 9, 0),
    refused("a number that is none", "clones", number(b"NaN"), 9, 0),
    refused("an array in place of the object", "clones", b"[]", 10, 0),
    refused("a string in place of the object", "clones", b'"probes"', 10, 0),
    refused("nothing in place of the object", "clones", b"null", 10, 0),
    refused("an empty object", "clones", b"{}", 10, 0),
    refused("no clones", "clones", b'{"probes":["a"]}', 10, 0),
    refused("no probes", "clones", b'{"clones":[]}', 10, 0),
    refused("keys in capitals", "clones", b'{"Probes":["a"],"Clones":[]}', 10, 0),
    refused("probes that are no array", "clones", b'{"probes":{"a":1},"clones":[]}', 10, 0),
    refused("clones that are no array", "clones", b'{"probes":[],"clones":{}}', 10, 0),
    refused("a probe that is a number", "clones", b'{"probes":["a","a",1],"clones":[]}', 10, 0),
    refused("an empty array of probes", "clones", b'{"probes":[],"clones":[5]}', 1, 0),
    refused("2,049 equal probes", "clones", clones(["a"] * 2049), 7, 0),
    refused("a probe that occurs twice", "clones", clones(["a", "b", "a"], ["z"]), 5, 0),
    refused("a probe that occurs twice, once by an escape", "clones", names(b"ab", b"a\\u0062"), 5, 0),
    refused("an empty probe that occurs twice", "clones", clones(["", ""]), 5, 0),
    refused("131,073 clones that are none", "clones", b'{"probes":["a"],"clones":[' + b"0," * 131_072 + b"0]}", 7, 0),
    refused("131,073 clones after a probe that occurs twice", "clones", b'{"probes":["a","a"],"clones":[' + b"0," * 131_072 + b"0]}", 5, 0),
    refused("a clone that is a number", "clones", b'{"probes":["a"],"clones":[{"probes":["a"]},5,{}]}', 10, 2),
    refused("a clone that is an array", "clones", b'{"probes":["a"],"clones":[["a"]]}', 10, 1),
    refused("a clone without probes", "clones", b'{"probes":["a"],"clones":[{"name":"k1"}]}', 10, 1),
    refused("a clone whose probes are a string", "clones", b'{"probes":["a"],"clones":[{"probes":"a"}]}', 10, 1),
    refused("a clone with another name and then a number", "clones", b'{"probes":["a"],"clones":[{"probes":["z",1]}]}', 10, 1),
    refused("a name that no probe has", "clones", clones(["a", "b"], ["a"], [], ["b", "z"], ["y"]), 4, 3),
    refused("a name with a blank at its end", "clones", clones(["a"], ["a "]), 4, 1),
    refused("another name before a clone that is a number", "clones", b'{"probes":["a"],"clones":[{"probes":["z"]},5]}', 4, 1),
    refused("a file one byte past the limit", "clones", clones(["a"]).ljust(LIMIT + 1), 7, 0),
    refused("a file past the limit is judged by its length first", "clones", b"x" * (LIMIT + 1), 7, 0),
]

# ---- verdicts ----

PLACED = [
    placed("the places and the contigs of the order", "valid"),
    placed("another order with its own places and contigs", "valid", tree="(4 [1 2 3] 5)", order="4 3 2 1 5",
           places=["places 4", "place 1 3 4", "place 2 2 3", "place 3 none", "place 4 1 1"],
           contigs=["contigs 3", "contig 1 1", "contig 2 4", "contig 5 5"]),
    placed("the places of another order", "invalid places", tree="(4 [1 2 3] 5)", order="4 3 2 1 5"),
    placed("a place that ends too early", "invalid places", [*PLACES[:2], "place 2 2 2", *PLACES[3:]]),
    placed("a place that begins too early", "invalid places", [*PLACES[:4], "place 4 3 4"]),
    placed("a place of an empty clone", "invalid places", [*PLACES[:3], "place 3 1 1", PLACES[4]]),
    placed("no place of a clone", "invalid places", [*PLACES[:4], "place 4 none"]),
    placed("a place the wrong way round", "invalid places", [PLACES[0], "place 1 2 1", *PLACES[2:]]),
    placed("a place too few", "invalid places", ["places 3", *PLACES[1:4]]),
    placed("a place too many", "invalid places", ["places 5", *PLACES[1:], "place 5 none"]),
    placed("no places", "invalid places", ["places 0"]),
    placed("a contig in two parts", "invalid contigs", contigs=["contigs 4", "contig 1 2", "contig 3 3", *CONTIGS[2:]]),
    placed("two contigs in one", "invalid contigs", contigs=["contigs 2", "contig 1 3", "contig 4 5"]),
    placed("the contigs from right to left", "invalid contigs", contigs=["contigs 3", *reversed(CONTIGS[1:])]),
    placed("a contig too few", "invalid contigs", contigs=["contigs 2", *CONTIGS[1:3]]),
    placed("no contigs", "invalid contigs", contigs=["contigs 0"]),
    placed("a place and a contig that are wrong", "invalid places", ["places 0"], ["contigs 0"]),
    placed("wrong places after an order that parts a clone", "invalid order 1", ["places 0"], order="1 3 2 4 5"),
    placed("wrong places after a tree that parts a clone", "invalid tree 1 1", ["places 0"], tree="(1 2 3 4 5)"),
    placed("places that are not numbered in turn", "invalid text", [PLACES[0], PLACES[2], PLACES[1], *PLACES[3:]]),
    placed("fewer places than are counted", "invalid text", PLACES[:4]),
    placed("more contigs than are counted", "invalid text", contigs=["contigs 2", *CONTIGS[1:]]),
    judged("a verdict without places", "clones", MAP, yes("clones", 5, "([1 2 3] 4 5)", "1 2 3 4 5"), "invalid text"),
    judged("a verdict of another kind", "clones", MAP, yes("rows", 5, "([1 2 3] 4 5)", "1 2 3 4 5"), "invalid kind"),
    judged("a verdict of another kind", "rows", CHAIN_ROWS, yes("table", *CHAIN_ANSWER), "invalid kind"),
    judged("a verdict with places", "rows", CHAIN_ROWS, yes("rows", *CHAIN_ANSWER, "places 0", "contigs 0"), "invalid text"),
    judged("an order that parts a row", "table", NESTED_TABLE, yes("table", 3, "((1 2) 3)", "1 3 2"), "invalid order 1"),
]

# Files whose verdicts are checked as they come.
SOLVED = [
    ("a chain", "rows", CHAIN_ROWS),
    ("2,048 columns without a row", "rows", b"2048\n"),
    ("each two of three columns", "rows", lines("3 / 1 2 / 2 3 / 1 3")),
    ("finds in 40 graves", "table", graves()),
    ("marks of every kind", "table", NESTED_TABLE),
    ("each two of three columns", "table", lines("t,a,b,c / x,1,1, / y,,1,1 / z,1,,1")),
    ("four clones over five probes", "clones", MAP),
    ("each two of three probes", "clones", clones(["a", "b", "c"], ["a", "b"], ["b", "c"], ["a", "c"])),
    ("a clone of each size", "clones", clones([str(j) for j in range(100)], *[[str(j) for j in range(i)] for i in range(101)])),
    ("chains of clones", "clones", clones([str(j) for j in range(300)], *[[str(j * 7 % 300) for j in range(i, i + 1 + i % 9)] for i in range(280)])),
]

# A tree of eight of the twelve orders of the map.
FEWER = "([1 2 3] (4 5))"
VERSIONS = [
    *in_each(lambda name, verdict, line: judged(name, "clones", MAP, verdict, line), "too few orders",
             yes("clones", 5, FEWER, "1 2 3 4 5", *PLACES, *CONTIGS), "invalid complete 1", "valid"),
    *in_each(lambda name, verdict, line: judged(name, "clones", MAP, verdict, line), "too few orders, and wrong places",
             yes("clones", 5, FEWER, "1 2 3 4 5", "places 0", *CONTIGS), "invalid complete 1", "invalid places"),
    *in_each(lambda name, verdict, line: judged(name, "table", NESTED_TABLE, verdict, line), "too few orders",
             yes("table", 3, "[1 2 3]", "1 2 3"), "invalid complete 1", "valid"),
]

KIND_CASES = ROWS + TABLES + CLONES + [*in_both(PLACED), *VERSIONS]
