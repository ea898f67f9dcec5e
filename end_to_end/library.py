"""Compares the library with the program on drawn runs, byte for byte; hands it words and pointers that it has to refuse; and calls it from
several threads, by the typed calls of Python, and from R where R is there. What it has to equal is known beforehand, or is the program's."""

import concurrent.futures
import ctypes
import os
import re
import shutil
import subprocess
import sys
import tempfile
import threading

from companion import in_r
from drawn_runs import LONG, deep_runs, runs
from library_choice import choice_problems
from program import HOME, PROGRAM
from streams import difference

sys.path.insert(0, os.path.join(HOME, "companion"))

import pq  # noqa: E402
from pqparts.library import FIRST_ROOM, POINTERS, Bytes, Library, Room, bytes_of  # noqa: E402
from pqparts.program import Calls, Program  # noqa: E402

SEED, RUNS = 45, 2000
# An address above all that a process has, so nothing overlaps with what begins there.
FAR = 2**48
# The stack that a thread has to have, as pq.h says.
STACK = 2 << 20


def by_program(words, first, second, folder):
    """The status, the reply and the line of the program over files of the names `1` and `2`."""
    for name, content in (("1", first), ("2", second)):
        with open(os.path.join(folder, name), "wb") as file:
            file.write(content)
    done = subprocess.run([PROGRAM, *words], cwd=folder, stdin=subprocess.DEVNULL, capture_output=True, check=False)
    return done.returncode, done.stdout, done.stderr.decode().strip()


def by_library(library, words, first, second=b""):
    """The same of the library, by words that name the files themselves."""
    return library.ask(words, first, second)


def compared(library, words, first, second):
    """What is wrong with a run by the library, or None."""
    with tempfile.TemporaryDirectory() as folder:
        wanted = by_program(words, first, second, folder)
    got = by_library(library, words, first, second)
    return next((f"{words} {first!r} {second!r}: {problem}"[:2000] for problem in map(difference, ["status", "reply", "line"], wanted, got) if problem),
                None)


def drawn_problems(library):
    """The drawn runs."""
    drawn = runs(SEED, RUNS, lambda words, first: by_library(library, words, first)[1])
    with concurrent.futures.ThreadPoolExecutor(os.cpu_count()) as pool:
        for number, problem in enumerate(pool.map(lambda one: compared(library, *one), drawn)):
            yield f"library, run {number}", problem


def long_problems(library):
    """A reply that is longer than the room that is tried first."""
    yield "library: a long reply", compared(library, *LONG)
    yield "library: its length", difference("more than the room", True, len(library.ask(*LONG)[1]) > FIRST_ROOM)


def thread_problems(library):
    """The same runs by several threads at a time, a library's call beside another, on the stack that pq.h asks for."""
    drawn = [*runs(SEED + 1, RUNS, lambda words, first: by_library(library, words, first)[1]), *deep_runs()]
    wanted = [library.ask(*one) for one in drawn]
    before = threading.stack_size(STACK)
    with concurrent.futures.ThreadPoolExecutor(8) as pool:
        answers = list(pool.map(lambda one: library.ask(*one), drawn))
    threading.stack_size(before)
    for number, (one, other) in enumerate(zip(wanted, answers)):
        yield f"library in threads, run {number}", None if one == other else f"{drawn[number]}: {one} and {other}"[:2000]


def answered(library, words, reply_room, line_room):
    """What a call with so much room gives: the status, and each room with the byte behind it and how much was written."""
    rooms = [ctypes.create_string_buffer(b"." * (room + 1), room + 1) for room in (reply_room, line_room)]
    reply, line = (Room(ctypes.addressof(one), len(one) - 1, 0) for one in rooms)
    status = library.entry(bytes_of(words), bytes_of(b"1\n"), bytes_of(b""), ctypes.byref(reply), ctypes.byref(line))
    return status, rooms[0].raw, reply.length, rooms[1].raw, line.length


def filled(text, room):
    """Room with a text at its front, and what was there before behind it."""
    return text + b"." * (room + 1 - len(text))


def room_problems(library):
    """Room that is just enough, and one byte less: of a reply what there is room for, with status 5; a line whole or not at all."""
    words, wrong, full, missing = b"solve\nmatrix\n1\n", b"pq: words\n", b"pq: write fault\n", b"pq: read fault\n"
    reply = library.ask(["solve", "matrix", "1"], b"1\n")[1]
    much, few = len(reply), len(wrong) - 1
    for name, wanted, got in [
        ("just enough room", (0, filled(reply, much), much, filled(b"", 64), 0), answered(library, words, much, 64)),
        ("more than enough", (0, filled(reply, much + 9), much, filled(b"", 0), 0), answered(library, words, much + 9, 0)),
        ("a byte too little", (5, filled(reply[:-1], much - 1), much - 1, filled(full, 64), len(full)), answered(library, words, much - 1, 64)),
        ("no room", (5, b".", 0, b".", 0), answered(library, words, 0, 0)),
        ("just enough for the line", (2, b".", 0, filled(wrong, few + 1), few + 1), answered(library, b"no\n", 0, few + 1)),
        ("a byte too little for the line", (2, b".", 0, filled(b"", few), 0), answered(library, b"no\n", 0, few)),
        ("words that are no UTF-8", (2, filled(b"", 9), 0, filled(wrong, 64), few + 1), answered(library, b"solve\nmatrix\n\xff\n", 9, 64)),
        ("another name", (4, filled(b"", 9), 0, filled(missing, 64), len(missing)), answered(library, b"solve\nmatrix\n3\n", 9, 64)),
        ("another name behind a file", (4, filled(b"", 9), 0, filled(missing, 64), len(missing)), answered(library, b"check\nmatrix\n1\n3\n", 9, 64)),
    ]:
        yield f"library: {name}", difference("status, reply and line", wanted, got)
    got = answered(library, b"check\nclones\n1\n3\n", 9, 64)
    yield "library: another name behind a refused file", difference("status", 3, got[0]) or difference("line", b"pq: refused 1 ", got[3][:14])


def word_problems(library):
    """How words may be written, and what no program can be handed: line ends, no last one, no words at all, and a zero byte."""
    reply = library.ask(["solve", "matrix", "1"], b"1\n")[1]
    solved, wrong, missing = (0, filled(reply, 999), len(reply), filled(b"", 64), 0), b"pq: words\n", b"pq: read fault\n"
    refused, unread = ((status, filled(b"", 999), 0, filled(line, 64), len(line)) for status, line in ((2, wrong), (4, missing)))
    for name, wanted, words in [
        ("line ends as on Windows", solved, b"solve\r\nmatrix\r\n1\r\n"),
        ("a last word without a line end", solved, b"solve\nmatrix\n1"),
        ("no words", refused, b""),
        ("an empty word", refused, b"solve\n\n1\n"),
        ("a zero byte in a word", refused, b"solve\0\nmatrix\n1\n"),
        ("a zero byte in a name", unread, b"solve\nmatrix\n1\0\n"),
    ]:
        yield f"library: {name}", difference("status, reply and line", wanted, answered(library, words, 999, 64))


def pointed(at, length):
    """Bytes at an address."""
    return Bytes(ctypes.cast(at, ctypes.c_char_p), length)


def pointers(at, within):
    """Calls with pointers: each with its name, the status, the words, the files and the rooms. `at` is the address of 256 bytes, where what is
    told of the room `within` lies at 64."""
    words, file, empty = bytes_of(b"solve\nmatrix\n1\n"), bytes_of(b"1\n"), bytes_of(b"")
    good, other, none, over = Room(at, 128, 9), Room(at + 128, 64, 9), Room(None, 0, 9), pointed(at + 8, 4)
    for name, wrong in [("null words", Bytes(None, 3)), ("words past the end of memory", pointed(2**64 - 8, 16)),
                        ("words longer than any object", pointed(FAR, 2**63)), ("words within room", over),
                        ("words within the room for the line", pointed(at + 191, 4)), ("words over where a length is told", pointed(at + 64, 1))]:
        rooms = (other, within) if "told" in name else (good, other)
        yield name, POINTERS, (wrong, file, empty, *rooms)
        yield f"{name}, as the first file", POINTERS, (words, wrong, empty, *rooms)
        yield f"{name}, as the second file", POINTERS, (words, file, wrong, *rooms)
    for name, wrong in [("null room", Room(None, 3, 9)), ("room past the end of memory", Room(2**64 - 8, 16, 9)),
                        ("room longer than any object", Room(FAR, 2**63, 9)), ("room that overlaps with room", Room(at + 100, 64, 9)),
                        ("no room at all", None)]:
        yield name, POINTERS, (words, file, empty, wrong, other if name != "room that overlaps with room" else good)
        yield f"{name}, for the line", POINTERS, (words, file, empty, good, wrong)
    yield "room over where its own length is told", POINTERS, (words, file, empty, good, within)
    yield "one place for both lengths", POINTERS, (words, file, empty, none, none)
    yield "a null file without bytes", 3, (words, Bytes(None, 0), empty, good, other)
    yield "a file without bytes within room", 3, (words, pointed(at + 8, 0), empty, good, other)
    yield "a second file within the first", 0, (words, file, file, good, other)
    yield "null room without bytes", 5, (words, file, empty, Room(None, 0, 0), other)
    yield "room side by side", 0, (words, file, empty, good, other)


def pointer_problems(library):
    """Pointers that the library has to refuse, with nothing written, neither in the room nor as a length; and such as it has to take."""
    memory = ctypes.create_string_buffer(b"." * 256, 256)
    at, within = ctypes.addressof(memory), Room.from_buffer(memory, 64)
    within.at, within.room, within.length = at + 192, 64, 9
    for name, wanted, given in pointers(at, within):
        before = memory.raw, [one.length for one in given[1:] if one is not None]
        status = library.entry(*given[:3], *(one if one is None else ctypes.byref(one) for one in given[3:]))
        yield f"library: {name}", difference("status", wanted, status)
        if wanted == POINTERS:
            after = memory.raw, [one.length for one in given[1:] if one is not None]
            yield f"library: what is written after {name}", difference("room and lengths", before, after)


def typed_problems(by):
    """The typed calls, over the library or over the program, whose answers were found by hand."""
    rows, how = b"3\n1 2\n2 3\n", type(by).__name__
    core, verdict, model = pq.core("rows", rows + b"1 3\n", by), by.solve("rows", rows), pq.unit(rows, by)
    core_text = by.call(["core", "rows"], rows + b"1 3\n")[1]
    for name, wanted, found in [
        ("solve", ["[1 2 3]"], pq.solve("rows", rows, by).trees),
        ("check", pq.Check(True, "valid"), pq.check("rows", rows, verdict, by)),
        ("check of no verdict", pq.Check(False, "invalid text"), pq.check("rows", rows, b"no", by)),
        ("core", [1, 2, 3], core.rows),
        ("core of a yes", None, pq.core("rows", rows, by)),
        ("check_core", pq.Check(True, "valid"), pq.check_core("rows", rows + b"1 3\n", core_text, by)),
        ("check_core on other rows", False, pq.check_core("rows", rows + b"1 2\n", core_text, by).is_valid),
        ("extend", [False, True], pq.extend("rows", rows, b"1 3\n1 2 3\n", by).taken),
        ("list_orders", pq.Listing([[1, 2, 3]], True), pq.list_orders("rows", rows, 1, by)),
        ("unit", pq.Check(True, "valid"), pq.check_unit(rows, model.text, by)),
        ("meet", "[1 2 3]", pq.meet(3, b"(1 (2 3))\n", b"((1 2) 3)\n", by).tree),
        ("meet of a no", False, pq.meet(3, b"[1 2 3]\n", b"[2 1 3]\n", by).is_yes),
    ]:
        yield f"pq.{name} by {how}", difference("answer", wanted, found)
    for name, call, status, refusal in [
        ("a refused file", lambda: pq.solve("rows", b"3\n4\n", by), 3, pq.Refusal(1, 4, 2)),
        ("other words", lambda: pq.solve("matrices", rows, by), 2, None),
        ("a word with a line end", lambda: pq.solve("rows\n", rows, by), 2, None),
    ]:
        yield f"pq: {name} by {how}", stopped(call, status, refusal)


def fault_problems():
    """What stops a typed call, by the status and the line of a run; a program that is killed counts as one that could not be read from."""
    for status, line in [(2, "pq: words"), (4, "pq: read fault"), (5, "pq: write fault"), (6, "pq: no memory"), (3, "pq: refused 2 code 9 line 0")]:
        refusal = pq.Refusal(2, 9, 0) if status == 3 else None
        yield f"pq: {line}", stopped(lambda one=Fixed(status, line): pq.solve("rows", b"", one), status, refusal)
    yield "pq: a run that is killed", stopped(lambda: pq.solve("rows", b"", Fixed(-9, "")), 4, None)


class Fixed(Calls):
    """Calls that give the same status and line, whatever they are asked."""

    def __init__(self, status, line):
        self.status, self.line = status, line

    def run(self, words, contents, after):
        return self.status, b"", self.line


def stopped(call, status, refusal):
    """What is wrong with how a call stops, or None."""
    try:
        call()
    except pq.Stop as stop:
        return difference("status", status, stop.status) or difference("refusal", refusal, stop.refusal)
    return "it did not stop"


EXAMPLE = os.path.join("examples", "call.c")
SAYS = b"0\npq-verdict 2\nkind matrix\ncolumns 3\nanswer yes\ntree [1 2 3]\norder 1 2 3\nend\n"


def in_c(folder):
    """The example in C: the page shows it, and, built by the line of the page, it prints the answer."""
    with open(os.path.join(HOME, EXAMPLE), encoding="utf-8") as stream:
        example = stream.read()
    with open(os.path.join(HOME, "docs", "LIBRARY.md"), encoding="utf-8") as stream:
        page = stream.read()
    if "".join(f"    {line}".rstrip() + "\n" for line in example.splitlines()) not in page:
        return f"docs/LIBRARY.md doesn't show {EXAMPLE}"
    built = os.path.join(folder, "call")
    line = re.search(r"`(cc [^`]*) -o call`", page)[1].replace("$PWD/", "").replace("dist", folder)
    subprocess.run(f"{line} -o {built}", shell=True, cwd=HOME, check=True)
    done = subprocess.run([built], capture_output=True, check=False)
    return difference("what it prints", SAYS, done.stdout)


KEEPER_OF = "import sys; sys.path.insert(0, 'scripts'); import library; print(library.keeper_of(*sys.argv[1:]), end='')"


def kept_problem(folder):
    """What is wrong with the compiler that keeps the module, in a folder with a blank and a quote in its name."""
    place = os.path.join(folder, "it's a folder")
    os.mkdir(place)
    module, kept, keeper = (os.path.join(place, name) for name in ("module.bc", "kept", "keeper"))
    with open(module, "wb") as stream:
        stream.write(b"module")
    with open(keeper, "wb") as stream:
        stream.write(subprocess.run([sys.executable, "-c", KEEPER_OF, kept, shutil.which("cat")], cwd=HOME, capture_output=True, check=True).stdout)
    done = subprocess.run(["sh", keeper, module], capture_output=True, check=False)
    with open(kept, "rb") as stream:
        return difference("status, output and module", (0, b"module", b"module"), (done.returncode, done.stdout, stream.read()))


def problems():
    """All checks of the library, which is built first."""
    with tempfile.TemporaryDirectory() as folder:
        done = subprocess.run([sys.executable, os.path.join(HOME, "scripts", "library.py"), folder], capture_output=True, text=True, check=False)
        yield "scripts/library.py", difference("status", 0, done.returncode) and done.stderr
        if done.returncode:
            return
        library = Library(os.path.join(folder, "libpq.so"))
        for check in (drawn_problems, long_problems, thread_problems, room_problems, word_problems, pointer_problems, typed_problems):
            yield from check(library)
        yield from typed_problems(Program(PROGRAM))
        yield from fault_problems()
        yield from choice_problems(library.path)
        yield "pq.R over the library", in_r(library.path)
        yield "the example in C", in_c(folder)
        yield "the compiler that keeps the module", kept_problem(folder)
