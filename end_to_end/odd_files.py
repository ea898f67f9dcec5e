"""Files at the edges of the rules of docs/FORMATS.md, of each kind: what a change of one byte of a small file doesn't reach."""

import json

MARK = b"\xef\xbb\xbf"
# Words that are numbers or nearly so.
WORDS = [b"0", b"00", b"01", b"4", b"5", b"4294967296", b"18446744073709551615", b"18446744073709551616", b"184467440737095516150", b"-1",
         b"0" * 5_000 + b"2", b"9" * 5_000, b"+1", b"1.0", b"1e0", b"0x1", b"1_0", b"1\x0b", b"1\x0c", b"1\xc2\xa0", b"\xd9\xa1", b"x"]
# Ends of lines and blanks; each stands in the place of the line feeds of a file.
ENDS = [b"\r\n", b"\r\r\n", b"\r", b"\n\r", b"\n\n", b" \n", b"\t\n", b"\n \t\r\n", b"\x0b\n", b"\x85\n", b"\0\n"]
# A small file of each kind.
ENTRIES = {"matrix": b"110\n011\n", "circular": b"110\n011\n101\n", "rows": b"4\n1 2\n3 4\n", "table": b",a,b,c\n,x,,1\n",
           "clones": b'{"probes":["a","b","c"],\n"clones":[{"probes":["a","c"]}]}\n', "convex": b"2 3\n1 1\n2 3\n",
           "doubly": b"2 3\n1 1\n2 3\n", "proper": b"3\n1 2\n2 3\n", "robinson": b"3\n0 1 2\n1 0 1\n2 1 0\n"}
# How many words the first line has.
HEADS = {"rows": 1, "convex": 2, "doubly": 2, "proper": 1, "robinson": 1}

# Tables: records, quotes, marks, names, and what is none of them.
TABLES = [
    b",", b",\n", b"a,b", b"a,b\n,", b"a,\n,", b"a,b\r\r,x\r", b"a,b\n\n\n,x\n\r\n", b"a\nx\n", b"a\n", b'""\n', b'"', b'"\n', b'a,"',
    b'a,"\n', b'a,b\n,"x', b'a,b\n,"x\n', b'a,b\n,"x"\n', b'a,b\n,""\n', b'a,b\n,""""\n', b'a,b\n,"x"1\n', b'a,b\n,"1"2\n',
    b'a,b\n,"1""2"\n', b'a,b\n,"1"2"3\n', b'a,b\n,"1"2,3\n', b'a,b\n, "x"\n', b'a,b\n,"x" \n', b'a,b\n," x\t"\n', b'a,b\n,1"\n',
    b'a,b\n,"1\n"\n', b'a,"b\n,c"\n,x\n', b'a,b, b\n,x,x\n', b'a,b,"b"\n', b'a,"b"c,bc\n', b'a,b,B\n,x,\n', b'a, ,\t,\n,1,2,3\n',
    b'a,b"",b""\n', b'a,"b""","b"""\n', b'a,"b""",b"\n', b'a,\xff\n\xfe,x\n', b'a,\xff,\xff\n', b'a,b\n,\xef\xbc\x91\n', b'a,b\n\n,x,\n',
    b'a,b\n,x\n,\n,x,x\n', b'a,b,b\n,1\n', b'a,b,b\n,z,z\n', b'a,b\n,xx\n', b'a,b\n,X\n', b'a,b\n,000\n', b'a,b\n,0001\n', b'a,b\n,1.0\n',
    b'a,b\n,+1\n', b'a,b\n,1 1\n', b'a,b\n \n', b'a,b\n,\x0b\n', b'sep=,\na,b\n,x\n', b'a;b\n;x\n', b' \n', b' \n \n', b'#a,b\n#,x\n',
    b'a,b\n,\\"x\n', b'a,"b\\",c"\n,x,x\n', b'a,b\r\n,"x\r\n', b'a,b\n,"x\r"\r\n', MARK, MARK + b"\n", MARK + MARK, MARK + MARK + b"\n",
    MARK + b"a,b\n,x\n", MARK + b'"a,b",c\n,x\n', MARK + MARK + b'"a,b",c\n,x\n', MARK + MARK + b'"a,b",c\n,x,x\n',
    b"a,b\n" + MARK + b",x\n", b"a,b\n" + MARK + b'"c,d",x\n', b'a,b\n\0,x\n', b'a,b\n,x\0\n', b'a,\0,\0\n',
    b'a,b\n' + b'"' * 1_001 + b',x\n', b'a,b\n' + b'"' * 1_002 + b',x\n', b'a,b\n,' + b'9' * 5_000 + b'\n',
    b'a,b\n,' + b'0' * 5_000 + b'\n',
]


# Fields, and what is none.
CELLS = [b"", b" ", b"0", b"000", b"0" * 5_000, b"x", b"X", b"xx", b"1", b"01", b"9" * 5_000, b" x\t", b"\xa0x", b"-1", b"1.0", b"+1",
         b"1 1", b"1e3", b"\x0b", b'"x"', b' "x"', b'"x" ', b'" x"', b'"1"2', b'"1""2"', b'""', b'""""', b'"0"0', b'"0"1', b'"\n"',
         b'"x\r"', b'"1,234"', b"x\0", b"yes"]


def tables():
    """Tables at the edges of the rules."""
    yield from TABLES
    yield from (b"t,a,b,c\n,1,%s,1\n" % cell for cell in CELLS)
    yield from (b"t,a,b,c\nr,%s,,x\r\n" % cell for cell in CELLS)
    yield from (b"t,a,b,%s\n,1,,1\n" % cell for cell in CELLS)
    yield from (b"%s,a,b,c\n%s,1,,1\n" % (cell, cell) for cell in CELLS)


# Texts that are JSON or nearly so.
JSON_LINES = r"""
null true false tru truex True NaN Infinity -Infinity undefined nul
- -0 0 00 01 1. .5 1.5 +1 1e 1e+ 1e5 1E-5 0x1 1_0 1e308 1e309 -1e309 1e400 0e400 0.0e999999999999999999999 1e-400 1e-99999999999999999999
1.7976931348623157e308 1.8e308 1e99999999999999999999 18446744073709551615 18446744073709551616 -9223372036854775808 -9223372036854775809
"" "\t" "\x" "\u12" "\u123g" "\u+123" "\U0041" "\/" 'a' "\'" "a "\" "\u0000" "\uffff" "é" "\b\f\n\r\t\"\\"
"\ud800" "\udc00" "\ud83d\ude00" "\uD83D\uDE00" "\ude00\ud83d" "\ud83d\u0041" "\ud83dx" "\ud83d\n" "\ud83d\ud83d\ude00" "\ud83d😀" "😀"
[] [1] [1,] [,1] [1,,2] [ ] [] {} {"a"} {"a":} {"a":1,} {,"a":1} {a:1} {1:2} {"a":1,"a":2} {"\ud800":1} {"a":"\ud800","a":1} 1,2 [1}
""".split()
# Such texts with blanks or bytes that are not printed.
JSON_BLANKS = ["", '"\t"', '"\n"', '"\x7f"', '"\x80"', '"\0"', '"\uffff"', '"\ufeff"', '"\\u 123"', "[1 2]", '{"a" : 1 , "b" : [ ] }',
               "[] // a",
               "/* a */ 1", "[1\xa0]", "[\v1]", "[\f1]", "[\r1\t]", "1 1", "1\0"]
JSON_LONG = ["1" * 309, "1" * 310, "9" * 400, "123456789" * 30, "17976931348623157" + "0" * 292, "1" + "0" * 400 + "e-400",
             "0." + "0" * 400 + "1e400", "0" * 400]


def json_texts():
    """Texts that are JSON or nearly so."""
    yield from [*JSON_LINES, *JSON_BLANKS, *JSON_LONG]
    for depth in (125, 126, 127, 128, 1_000):
        yield "[" * depth + "]" * depth
        yield '{"a":' * depth + "1" + "}" * depth
        yield "[" * depth


# Values of the members of a file of clones.
PARTS = r"""
[] {} null 1 "a" ["a"] ["a",1] ["a","a"] ["a","b"] ["a",["b"]]
[{"probes":["a"]}] [{"probes":["a","b","a"]}] ["a","\u0061"]
""".split()
# Clones over the probes a, b and c, or nearly so.
CLONES = r"""
{"probes":["a","c"]} {"probes":["c","a","\u0061"]} {"probes":["a","b"],"probes":["a","c"]} {"probes":["a","c"],"probes":["a","b"]}
{"\u0070robes":["a","c"],"name":"k"} {"probes":["a","c"],"PROBES":["a"]}
{"probes":["a"]},{"probes":["z"]} {"probes":["z",1]} {"probes":[]},{} {},{"probes":["z"]} {"probes":{}} [["a"]] {"probes":null} "a"
{"probes":["z"],"probes":["a"]} {"probes":["a"],"probes":["z"]} {"probes":["a"],"probes":1} {"probes":1,"probes":["a"]} {"PROBES":["a"]}
{"pro\u0062es":["a"]} {"probes":["\u0061","A"]} {"probes":["A"]} {"probes":["a\u0020"]} {"probes":["a"],"clones":[1]} {"probes":["b\u0000"]}
""".split()
# Whole files of clones.
CLONE_FILES = [
    b"[]", b"1", b'"a"', b"{}", b'{"probes":["a"]}', b'{"clones":[]}', b"{} {}", b'[["a"],[]]',
    b'{"probes":[""],"clones":[{"probes":[""]}]}',
    b'{"probes":["a\xff"],"clones":[]}', b'{"probes":["\xed\xa0\x80"],"clones":[]}', b'{"probes":["\xc0\x80"],"clones":[]}',
    b'{"probes":["\xf4\x90\x80\x80"],"clones":[]}', b'{"probes":["e\xcc\x81","\xc3\xa9"],"clones":[]}',
    b'{"probes":["a"],"clones":[],"\xff":1}',
    b'{"probes":["\xc3\xa9","\\u00e9"],"clones":[]}', b'{"probes":["\xf0\x9f\x98\x80","\\ud83d\\ude00"],"clones":[]}',
    b'{"probes":["a"],"clones":[]}\0', b'{"probes":["a"],"clones":[]}\x1a', b'{"probes":["a"],"clones":[]} ' + MARK,
    b'{"probes":["a"],"clones":[],"probes":["b","c"]}', b'{"probes":["a"],"clones":[1],"clones":[]}',
    b'{"probes":1,"clones":1,"\\u0070robes":["b"],"clones":[{"probes":["b"]}]}',
]


def clone_file(probes, clones, more=""):
    """A file of clones by the texts of its members."""
    return f'{{"probes":{probes},"clones":{clones}{more}}}'.encode()


def clone_files():
    """Files of clones."""
    yield from CLONE_FILES
    yield from (clone_file(probes, clones) for probes in PARTS for clones in PARTS)
    yield from (clone_file(probes, f"[{clones}]") for probes in ('["a","b"]', r'["\u0061","b","c"]') for clones in CLONES)
    yield from (clone_file('["a"]', '[{"probes":["a"]}]', f',"more":{text}') for text in json_texts())
    yield from (text.encode() for text in json_texts())
    for depth in (126, 127, 128):
        yield clone_file('["a"]', '[{"probes":["a"],"more":' + "[" * (depth - 3) + "]" * (depth - 3) + "}]")


def dense_at(columns, rows):
    """Matrices of lines of digits with so many columns, and with so many rows."""
    yield from [b"1" * columns + b"\n", b"1" * columns + b"x\n", b"1\n" * rows, b"1\n" * (rows - 1) + b"x", b"1\n" * (rows - 1) + b"11"]


def rows_at(columns, rows):
    """Rows by their columns, of which there are so many."""
    yield from [b"%d\n1\n" % columns, b"2\n" + b"\n" * rows, b"2\n" + b"1\n" * (rows - 1) + b"x\n", b"2\n" + b"1\n" * (rows - 1) + b"3"]


def tables_at(columns, rows):
    """Tables with so many columns, and with so many rows."""
    yield "".join(["t", *(f",{name}" for name in range(columns))]).encode()
    yield from [b"t" + b",a" * columns, b"t" + b"," * columns, b"t,a\n" + b",x\n" * rows, b"t,a\n" + b",x\n" * (rows - 1) + b",z"]


def clones_at(columns, rows):
    """Probes and clones, of which there are so many."""
    names = [str(name) for name in range(columns)]
    yield json.dumps({"probes": names, "clones": [{"probes": names[:2]}, 1]}).encode()
    yield json.dumps({"probes": names[:-1] + ["0"], "clones": []}).encode()
    yield clone_file('["a","a"]', "[" + ",".join(["1"] * rows) + "]")
    yield clone_file('["a"]', "[" + ",".join(["{}"] * rows) + "]")


def bigraphs_at(columns, rows):
    """Bipartite graphs with so many vertices on either side."""
    yield from [b"%d 2\n1 1\n" % columns, b"%d 2\n1 1\n" % rows, b"2 %d\n1 1\n" % columns, b"%d 0\n" % rows, b"0 %d\n" % columns,
                b"%d x\n" % rows]


def graphs_at(vertices, _):
    """Graphs with so many vertices."""
    yield from [b"%d\n1 2\n" % vertices, b"%d\n%d 1\n" % (vertices, vertices + 1)]


def distances_at(items):
    """Tables of distances of so many items."""
    yield b"%d\n" % items + (b" ".join([b"0"] * items) + b"\n") * items
    yield b"%d\n0" % items


AT = {"matrix": dense_at, "circular": dense_at, "rows": rows_at, "table": tables_at, "clones": clones_at, "convex": bigraphs_at,
      "doubly": bigraphs_at, "proper": graphs_at}


def limit_files(kind, limits):
    """Files with as many columns and rows as a kind may have, and with one more."""
    for more in (0, 1):
        if kind == "robinson":
            yield from distances_at(limits.items + more)
        else:
            yield from AT[kind](limits.columns + more, limits.rows + more)


def byte_files(kind, limits):
    """Files with as many bytes as there may be, and with one more; a byte order mark counts."""
    for more in (0, 1):
        for start in (b"", MARK):
            content = start + ENTRIES[kind]
            yield content[:-1] + b" " * (limits.file_bytes + more - len(content)) + b"\n"


def odd_lines(content):
    """A file with other ends of lines, with byte order marks, and with lines more and fewer."""
    yield from [b"", b"\n", b" ", b"\r\n", b"\r", b" \t\n\n", MARK, MARK + b"\n", b"\xff\xfe" + content]
    yield from [MARK + content, MARK + MARK + content, MARK[:2] + content, content + MARK]
    for end in ENDS:
        yield from [content.replace(b"\n", end), end + content, content[:-1] + end, content[:-1]]
    lines = content.splitlines(keepends=True)
    for place in range(len(lines) + 1):
        yield b"".join(lines[:place])
        yield from (b"".join([*lines[:place], more, *lines[place:]]) for more in (b"\n", b" \n", lines[-1]))


def odd_words(content, count):
    """A file with other words and more of them, and files of two lines, the first of which has so many words."""
    for word in WORDS:
        yield content.replace(content.split()[0], word, 1)
        yield content[:-1] + b" " + word + b"\n"
        yield content.rpartition(b" ")[0] + b" " + word + b"\n"
    for head in WORDS[:8]:
        yield from (b" ".join([head] * count) + b"\n" + b" ".join([word] * more) + b"\n" for word in WORDS for more in range(4))


def odd_files(kind, limits):
    """Files of a kind at the edges of its rules."""
    found = [*odd_lines(ENTRIES[kind])]
    if kind in HEADS:
        found += odd_words(ENTRIES[kind], HEADS[kind])
    if kind == "table":
        found += tables()
    if kind == "clones":
        found += clone_files()
    return [*dict.fromkeys(found), *limit_files(kind, limits), *byte_files(kind, limits)]


def odd_further(limits):
    """Files of further rows over four columns at the edges of the rules."""
    found = [b"", b"\n", b" ", b"\r\n", b"\r", MARK, MARK + b"1\n", MARK + MARK + b"1\n", b"1", b"1\r\r\n"]
    found += [b" ".join(pair) + b"\n" for word in WORDS for pair in ([word], [b"1", word], [word, b"x"], [word, b"5"])]
    found += [b"\n" * (limits.rows + more) for more in (0, 1)] + [b"1\n" * (limits.rows - 1 + more) + b"x" for more in (0, 1)]
    return found + [b"\n" * (limits.file_bytes + 1)]
