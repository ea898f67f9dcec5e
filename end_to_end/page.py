"""Builds the page, and compares its solver with the library on drawn runs, and what it says of drawn tables with what the companion says,
sentence by sentence and picture by picture, in node; and uses the page in a browser as a reader would. A line says which tool is missing."""

import base64
import ctypes
import hashlib
import json
import os
import random
import re
import shutil
import signal
import socket
import subprocess
import sys
import tempfile
import zlib
from xml.etree import ElementTree

from drawn_runs import LONG, deep_runs, runs
from drawn_tables import many_lines, tables
from program import HOME
from streams import difference

sys.path.insert(0, os.path.join(HOME, "companion"))

from pqparts import cells  # noqa: E402
from pqparts.finding import asked  # noqa: E402
from pqparts.program import CODES  # noqa: E402
from pqparts.library import Library  # noqa: E402
from pqparts.pictures import pictures_of  # noqa: E402
from pqparts.spoken import Words, answer_lines, fixed_lines, steps  # noqa: E402
from pqparts.stops import Stop  # noqa: E402
from pqparts.tables import Reading, wide_question  # noqa: E402
from pqparts.texts import decoded  # noqa: E402

SEED, RUNS, TABLES, SECONDS = 46, 2000, 500, 300
HERE = os.path.join(HOME, "end_to_end")
SVG = "{http://www.w3.org/2000/svg}"
TOOLS = ["clang-16", "wasm-ld-16", "wasm-opt"]


def passed_over(tools):
    """Tells that checks were passed over for want of programs."""
    print(f"passed over: {', '.join(tools)} not here, so the page was not tried with it")


class Kept(Library):
    """The library, which keeps what it was asked: the words, and the files as they stand in JSON."""

    def __init__(self, path):
        super().__init__(path)
        self.runs = []

    def ask(self, asked, first=b"", second=b""):
        self.runs.append([asked, first.decode("latin1"), second.decode("latin1")])
        return super().ask(asked, first, second)


def said_of(path, content, how):
    """What the companion says of a table: the question, the answer, the pictures, and what it asked; or why it can't be read."""
    library = Kept(path)
    try:
        text, encoding = decoded(content, "table", None)
        marks = cells.Marks(how["marks"]["present"], how["marks"]["absent"])
        question = wide_question(text, "table", Reading(how["kind"], how["order"], how["header"], how["separator"], how["lineNames"], how["drop"], marks))
        question.notes.insert(0, f"table: read as {encoding}")
        finding = asked(library, question)
    except Stop as stop:
        return {"stop": str(stop)}
    words, side = Words(question.kind, *question.called), question.sides[0]
    cores = finding.contradiction.cores if finding.contradiction else []
    return {"content": question.content.decode("latin1"), "notes": question.notes, "warnings": question.warnings, "question": words.question(),
            "answer": answer_lines(question, finding, words), "fixed": fixed_lines(question, finding, words),
            "pictures": [list(one) for one in pictures_of(question, finding)],
            "steps": list(steps(cores[0]["cycle"], side.things, side.cut().names)) if cores else [], "runs": library.runs}


def as_json(drawn):
    """Runs as they stand in JSON."""
    return [[words, first.decode("latin1"), second.decode("latin1")] for words, first, second in drawn]


def run_problems(place, library, drawn, answers):
    """The answers to drawn runs that do not equal those of the library."""
    yield f"the runs {place}", difference("how many answers", len(drawn), len(answers))
    for number, (run, answer) in enumerate(zip(drawn, answers)):
        status, reply, line = library.ask(*run)
        is_same = answer == [status, reply.decode("latin1"), line]
        yield f"the page's solver {place}, run {number}", None if is_same else f"{run}: {(status, reply, line)} and {answer}"[:2000]


class Halves(ctypes.Structure):
    """A number of 128 bits by its halves, as C hands it over."""

    _fields_ = [("low", ctypes.c_uint64), ("high", ctypes.c_uint64)]


def halves(number):
    """The last 128 bits of a number."""
    return Halves(number % 2**64, number // 2**64 % 2**64)


def helper_problems(folder):
    """The products and shifts of 128 bits in C, as this machine's compiler makes them, on drawn numbers."""
    built = os.path.join(folder, "helpers.so")
    subprocess.run(["cc", "-O2", "-fPIC", "-shared", os.path.join(HOME, "library", "helpers.c"), "-o", built], check=True)
    helpers, draw = ctypes.CDLL(built), random.Random(SEED)
    for name, takes, wanted in [("__multi3", Halves, lambda one, other: one * other), ("__lshrti3", ctypes.c_int, lambda one, bits: one >> bits),
                                ("__ashlti3", ctypes.c_int, lambda one, bits: one << bits)]:
        call = getattr(helpers, name)
        call.argtypes, call.restype = [Halves, takes], Halves
        pairs = [(draw.getrandbits(draw.randint(1, 128)), draw.getrandbits(draw.randint(1, 128) if takes is Halves else 7)) for _ in range(RUNS)]
        wrong = [(one, other) for one, other in pairs
                 if bytes(call(halves(one), halves(other) if takes is Halves else other)) != bytes(halves(wanted(one, other)))]
        yield f"helpers.c: {name}", difference("wrong on", [], wrong[:3])


def in_node(folder, library):
    """The page's solver on drawn runs, and its parts on drawn tables."""
    if shutil.which("node") is None:
        passed_over(["node"])
        return
    drawn = [*runs(SEED, RUNS, lambda words, first: library.ask(words, first)[1]), LONG]
    found = [*tables(SEED, TABLES), many_lines()]
    cases, answers = os.path.join(folder, "cases.json"), os.path.join(folder, "answers.json")
    with open(cases, "w", encoding="utf-8") as stream:
        json.dump({"runs": as_json(drawn), "deep": as_json(deep_runs()), "tables": [[content.decode("latin1"), how] for content, how in found],
                   "plain": [[kind, content.decode("latin1")] for kind, content in PLAIN_FILES]}, stream)
    done = subprocess.run(["node", os.path.join(HERE, "page_in_node.js"), os.path.join(folder, "pq.html"), cases, answers], capture_output=True,
                          text=True, timeout=SECONDS, check=False)
    yield "the page in node", difference("status", 0, done.returncode) and done.stderr
    if done.returncode:
        return
    with open(answers, encoding="utf-8") as stream:
        got = json.load(stream)
    yield from run_problems("in node", library, drawn, got["runs"])
    yield from deep_problems(library, got["deep"])
    yield from distrust_problems(got["tables"])
    yield from plain_problems(library, got["plain"])
    for number, (table, answer) in enumerate(zip(found, got["tables"])):
        answer = {name: value for name, value in answer.items() if name not in ("judged", "faults")}
        wanted = said_of(library.path, *table)
        yield f"the page on table {number}", None if wanted == answer else f"{table}: {wanted} and {answer}"[:4000]
    kinds = {("stop" if "stop" in one else one["answer"][0][:3]) for one in got["tables"]}
    yield "the drawn tables", difference("answers", {"stop", "Yes", "No:"}, kinds)


def deep_problems(library, answers):
    """Runs that take the most stack: each has the right answer, or none, with the reason."""
    for number, (run, answer) in enumerate(zip(deep_runs(), answers)):
        status, reply, line = library.ask(*run)
        is_right = answer in ([status, reply.decode("latin1"), line], "this browser has too little room for the solver on this file")
        yield f"the page's solver on deep run {number}", None if is_right else f"{answer}"[:2000]


def plain_said(library, kind, content):
    """Why the companion has no answer about a file of pq, or that it has one."""
    try:
        library.solve(kind, content)
    except Stop as stop:
        return str(stop)
    return "an answer"


def plain_problems(library, answers):
    """Files of pq that are refused for all reasons, and some that are not: the page says what the companion says, with the code's meaning."""
    wanted = [plain_said(library, *one) for one in PLAIN_FILES]
    yield "files of pq on the page", difference("what is said", wanted, answers)
    met = {code for code, meaning in CODES.items() if any(f" code {code} " in line and meaning in line for line in answers)}
    yield "the codes that are met", difference("codes", set(CODES) - {12}, met)


def distrust_problems(answers):
    """Where a judge says of every text that it is not valid, or a run ends with a fault, the page gives no answer."""
    faults = {line for one in answers if "stop" not in one for line in one["faults"]}
    yield "runs that fail", difference("what is said", {f"fault {status}" for status in range(2, 7)}, faults)
    said = {one["judged"] for one in answers if "stop" not in one}
    yield "a judge who says no", difference("what is said", {True}, {line.startswith("the proof did not check: check ") for line in said})


# A table whose lines contradict one another; one for which each field of how it is read has a word; names that are no HTML here; a file of
# pq; and one whose answer takes some time.
NO = "type,a,b,c,d\nGr\u00fcn,1,1,,\nQ,,1,1,\nR,1,,1,\nS,,,1,1\n"
READ = "Finds of 1960\ntype,x;a;b;c;d\nP,1;y;y;n;y\nQ,1;n;y;y;n\nR,1;n;?;y;n\nS,1;y;n;n;y\n"
FIELDS = {"kind": "circular table", "header": "2", "separator": ";", "line-names": "first", "marks": "y, z", "absent": "n, ?", "drop": "d"}
FIELDS_READ = {"kind": "circular", "order": "lines", "header": 2, "separator": ";", "lineNames": "first", "drop": ["d"],
               "marks": {"present": ["y", "z"], "absent": ["n", "?"]}}
KINDS = ["matrix", "rows", "table", "clones", "circular", "convex", "doubly", "proper", "robinson"]
CONTENTS = [b"", b"1a\n", b"\xff\n", b"10\n1\n", b"3\n4\n", b"3\n1 1\n", b"t,a,a\nP,1,1\n", b"t,a,b\nP,1\n", b"3\n1 2\n", b"2\n0 1\n2 0\n", b"9999\n",
            b"2\n1 1\n", b"{", b"{}", b"10\n"]
PLAIN_FILES = [(kind, content) for kind in KINDS for content in CONTENTS]
# Names with commas in them, which are dropped.
COMMAS, DROPPED = 'type,"a, left",b,c\nP,1,1,\n"Q, old",,1,1\nR,1,,1\n', ["a, left", "Q, old"]
HOSTILE = 'type,<img src=x onerror=ends=99>,"</title></svg><script>ends=99</script>",&lt;\n"<b>\'""",1,1,\n&amp;,,1,1\n'
PLAIN = "3\n1 2\n2 3\n"


def long_rows():
    """A file that takes the solver seconds: many rows over many columns, the last of which contradict those before."""
    columns, lines = 1024, ["1024"]
    lines += [" ".join(map(str, range(first, first + 40))) for first in range(1, columns - 40)] * 20
    return "\n".join([*lines, "1 500 1000", "2 500 999"]) + "\n"


def received(listening):
    """What the browser sends: the body of the one request that comes, as JSON; None where none comes in time."""
    try:
        taken, _ = listening.accept()
        with taken, taken.makefile("rb") as stream:
            heads = dict(line.decode("latin1").lower().strip().split(": ", 1) for line in iter(stream.readline, b"\r\n") if b": " in line)
            found = json.loads(stream.read(int(heads["content-length"])))
            taken.sendall(b"HTTP/1.1 204 No Content\r\n\r\n")
            return found
    except TimeoutError:
        return None


def text_of(value):
    """A value as JSON that may stand within a script."""
    return json.dumps(value).replace("<", "\\u003c")


def each_kind():
    """A text for each kind that can be chosen; that for the tables of pq is one which the companion reads and pq refuses."""
    found = {"table": EXAMPLE, "circular table": EXAMPLE}
    for name, kind in EXAMPLES:
        with open(os.path.join(HOME, "examples", name), encoding="utf-8") as stream:
            found[f"file of {kind}"] = stream.read()
    return found | {"file of table": "type;a;b\nP;1;\n"}


def driven(folder, address, drawn):
    """The page with the script in it that uses it, by its path."""
    with open(os.path.join(folder, "pq.html"), encoding="utf-8") as stream:
        text = stream.read()
    with open(os.path.join(HERE, "page_driver.js"), encoding="utf-8") as stream:
        driver = stream.read()
    run = {"no": NO, "plain": PLAIN, "long": long_rows(), "runs": as_json(drawn), "read": READ, "fields": FIELDS, "hostile": HOSTILE,
           "commas": COMMAS, "dropped": "\n".join(DROPPED), "kinds": each_kind()}
    # the page's policy, with what this script needs besides: its own sum, what is saved, and the check's address
    own = base64.b64encode(hashlib.sha256(driver.encode()).digest()).decode()
    text = text.replace("script-src", f"connect-src blob: {address}; script-src 'sha256-{own}'", 1)
    path = os.path.join(folder, "driven.html")
    with open(path, "w", encoding="utf-8") as stream:
        stream.write(text.replace("</body>", f'<script id="run" type="text/plain" data-to="{address}">{text_of(run)}</script><script>{driver}</script></body>'))
    return path


def address_problem(folder):
    """The page names no address but that of a name space, and a policy that allows nothing which it doesn't list."""
    with open(os.path.join(folder, "pq.html"), encoding="utf-8") as stream:
        text = stream.read()
    policy = re.search(r'Content-Security-Policy" content="([^"]*)"', text)[1]
    listed = {rule.split(" ")[0] for rule in policy.split("; ")}
    return (difference("addresses", {SVG.strip("{}")}, set(re.findall(r"[a-z]+://[^\s\"'<>`]*", text)))
            or difference("policy", True, policy.startswith("default-src 'none'; script-src 'sha256-"))
            or difference("rules", {"default-src", "script-src", "worker-src", "style-src", "base-uri", "form-action"}, listed))


def on_paper(browser, folder, page):
    """What is wrong with the page as it is printed after an answer: it takes few pages, and the bars of the picture are on them."""
    shown, printed = os.path.join(folder, "shown.html"), os.path.join(folder, "shown.pdf")
    with open(shown, "w", encoding="utf-8") as stream:
        stream.write(page)
    subprocess.run([browser, "--headless", "--no-sandbox", "--disable-gpu", f"--user-data-dir={folder}/printing", f"--print-to-pdf={printed}",
                    f"file://{shown}"], capture_output=True, timeout=SECONDS, check=False)
    if not os.path.exists(printed):
        return "nothing was printed"
    with open(printed, "rb") as stream:
        content = stream.read()
    packed = re.findall(rb"/Filter /FlateDecode[^>]*>>\s*stream\r?\n(.*?)endstream", content, flags=re.S)
    drawn = b"\n".join(zlib.decompressobj().decompress(one) for one in packed)
    sheets = len(re.findall(rb"/Type /Page\b", content))
    return difference("pages", True, 1 <= sheets <= 3) or difference("bars", True, bool(re.search(rb"\.12\d* 0?\.30\d* 0?\.47\d* rg", drawn)))


def in_browser(folder, library):
    """The page in a browser: its solver on drawn runs; what is said of the example, of a dropped file and of a file that can't be read; and
    that the button stops."""
    browser = shutil.which("chromium") or shutil.which("chromium-browser")
    if browser is None:
        passed_over(["chromium"])
        return
    drawn = runs(SEED + 1, RUNS, lambda words, first: library.ask(words, first)[1])
    with socket.create_server(("127.0.0.1", 0)) as listening:
        listening.settimeout(SECONDS)
        path = driven(folder, f"http://127.0.0.1:{listening.getsockname()[1]}/", drawn)
        words = [browser, "--headless", "--no-sandbox", "--disable-gpu", f"--user-data-dir={folder}/own", "--remote-debugging-port=0", f"file://{path}"]
        running = subprocess.Popen(words, stdin=subprocess.DEVNULL, stdout=subprocess.DEVNULL, stderr=subprocess.DEVNULL, start_new_session=True)
        try:
            found = received(listening)
        finally:
            os.killpg(running.pid, signal.SIGKILL)
            running.wait()
    is_whole = found is not None and "failed" not in found
    yield "the page in a browser", None if is_whole else f"it ended without an answer: {found}"
    if is_whole:
        yield from run_problems("in a browser", library, drawn, found["runs"])
        yield from seen_problems(found, library)
        yield "the page on paper", on_paper(browser, folder, found["page"])


EXAMPLES = [("nested.txt", "matrix"), ("chain.txt", "rows"), ("map.json", "clones"), ("ring.txt", "circular"), ("jobs.txt", "convex"),
            ("path.txt", "doubly"), ("overlaps.txt", "proper"), ("distances.txt", "robinson")]
EXAMPLE = "type,Grave 1,Grave 2,Grave 3,Grave 4,Grave 5\nBeaker,3,,1,,\nBowl,x,,,2,0\nJar,,1,,1,\nFibula,,4,,,1\n"


def seen_problems(found, library):
    """What was seen in the browser."""
    how = {"kind": "rows", "order": "columns", "header": 1, "separator": None, "lineNames": None, "drop": [], "marks": {"present": [], "absent": []}}
    yield "a table without the way round", difference("said", "Say first which of the two are to be put in order: the columns or the lines.",
                                                      found["unsaid"]["said"])
    for name, text, read in (("example", EXAMPLE, how), ("no", NO, how), ("fields", READ, FIELDS_READ), ("hostile", HOSTILE, how),
                             ("commas", COMMAS, how | {"drop": DROPPED})):
        wanted = said_of(library.path, text.encode(), read)
        yield f"{name}: the answer", difference("said", wanted["answer"][0], found[name]["said"])
        lines = [wanted["question"], *wanted["answer"][1:], *wanted["fixed"], *wanted["steps"], *wanted["notes"][1:], *wanted["warnings"]]
        missing = [line for line in lines if line not in found[name]["answer"]]
        yield f"{name}: its sentences", difference("lines that are missing", [], missing)
        drawn = [taken_apart(one) for _, one in wanted["pictures"]]
        yield f"{name}: its pictures", difference("pictures", drawn, list(map(taken_apart, found[name]["pictures"])))
    for line in ("Core 1: Gr\u00fcn, Q, R.", "R: contradicts Gr\u00fcn, Q", "no.csv: read as cp1252"):
        yield f"of a no: {line}", None if line in found["no"]["answer"] else found["no"]["answer"]
    yield "names that are no HTML", difference("elements and runs of theirs", (0, 0), (found["hostile"]["strange"], found["hostile"]["ends"] // 99))
    yield "the judge's word", None if "no search: valid." in found["example"]["answer"] else found["example"]["answer"]
    yield from saved_problems("yes", found["saved"], found["example"]["answer"], library)
    yield from saved_problems("no", found["proof"], found["no"]["answer"], library)
    yield from kind_problems(found["kinds"], how, library)
    yield "connections and scripts", difference("rules that forbid them", ["connect-src", "script-src-elem", "connect-src"], found["broken"])
    yield "a cell that is no mark", None if "'?'" in found["unread"]["said"] else found["unread"]["said"]
    yield "the fields that it names", None if "field under" in found["unread"]["answer"] and found["unread"]["isOpen"] else found["unread"]["answer"]
    stopped = found["stopped"]
    yield "the button that stops", difference("said", ("Stopped.", True, 1), (stopped["said"], stopped["isReady"], stopped["ends"]))
    yield "a file of pq after a stop", difference("said", "Yes: there is such an order.", found["plain"]["said"])


def saved_problems(answer, saved, said, library):
    """The files that the page saves are judged to be valid by the commands beside them, and there is a command for each."""
    commands = [line.split(" ")[1:] for line in said.splitlines() if line.startswith("pq check")]
    yield f"the files that are saved of a {answer}", difference("files", sorted(saved), sorted(name for words in commands for name in words[2:]))
    wanted = ["check"] if answer == "yes" else ["check", "check-core", "check"]
    yield f"the commands of a {answer}", difference("commands", wanted, [words[0] for words in commands])
    for command, kind, first, second in commands:
        status, reply, _ = library.ask([command, kind, "1", "2"], saved[first].encode(), saved[second].encode())
        yield f"{command} of {second} of a {answer}", difference("judgement", (0, b"valid\n"), (status, reply))


def kind_problems(said, how, library):
    """Each kind that can be chosen asks its own question: a table is read as the companion reads it, and a file of pq as pq does."""
    wanted = {}
    for value, text in each_kind().items():
        if value.startswith("file of "):
            line = plain_said(library, value.removeprefix("file of "), text.encode())
            wanted[value] = "Yes: there is such an order." if line == "an answer" else line
        else:
            kind = "circular" if value.startswith("circular") else "rows"
            wanted[value] = said_of(library.path, text.encode(), how | {"kind": kind})["answer"][0]
    yield "each kind that can be chosen", difference("what is said", wanted, said)


def taken_apart(picture):
    """The bars and the words of a picture, with where they stand."""
    root = ElementTree.fromstring(picture)
    bars = [(one.get("x"), one.get("y"), one.get("width"), one.get("fill"), one[0].text) for one in root.iter(f"{SVG}rect")]
    return sorted(bars), sorted((one.get("x"), one.get("y"), one.text) for one in root.iter(f"{SVG}text"))


def problems():
    """All checks of the page, which is built first."""
    without = [tool for tool in TOOLS if shutil.which(tool) is None]
    if without:
        passed_over(without)
        return
    with tempfile.TemporaryDirectory() as folder:
        for name in ("library", "page"):
            done = subprocess.run([sys.executable, os.path.join(HOME, "scripts", f"{name}.py"), folder], capture_output=True, text=True, check=False)
            yield f"scripts/{name}.py", difference("status", 0, done.returncode) and done.stderr
            if done.returncode:
                return
        library = Library(os.path.join(folder, "libpq.so"))
        yield from helper_problems(folder)
        yield "the page's addresses", address_problem(folder)
        yield from in_node(folder, library)
        yield from in_browser(folder, library)
