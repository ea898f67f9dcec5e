"""Which library is taken: by the companion, by its page and by the functions for R, none but one of the version that lies there."""

import contextlib
import hashlib
import io
import json
import os
import shutil
import subprocess
import sys
import tempfile

from companion import passed_over
from program import HOME, PROGRAM, SECONDS
from streams import difference

sys.path.insert(0, os.path.join(HOME, "companion"))

import pq  # noqa: E402
from pqpage import sum_of_program  # noqa: E402
from pqparts.library import Library, own_library  # noqa: E402
from pqparts.program import version  # noqa: E402

PLACED = "; the program is called in its place"
ANOTHER = """#include "pq.h"
const char *pq_version(void) { return "0.0.1"; }
uint8_t pq_run(struct pq_bytes words, struct pq_bytes first, struct pq_bytes second, struct pq_room *reply, struct pq_room *line) { return 2; }
"""


def without(**given):
    """The environment with some variables, and without those that choose how `pq` is called."""
    return {name: value for name, value in os.environ.items() if name not in ("PQ", "PQ_LIBRARY")} | given


@contextlib.contextmanager
def in_environment(**given):
    """Sets the environment for a while."""
    before = dict(os.environ)
    changed = without(**given)
    os.environ.clear()
    os.environ.update(changed)
    try:
        yield
    finally:
        os.environ.clear()
        os.environ.update(before)


def another(folder):
    """A library of another version, by its path."""
    source, built = os.path.join(folder, "another.c"), os.path.join(folder, "another.so")
    with open(source, "w", encoding="utf-8") as stream:
        stream.write(ANOTHER)
    subprocess.run(["cc", "-fPIC", "-shared", "-I", os.path.join(HOME, "library"), source, "-o", built], check=True)
    return built


def found_in(folder, *library):
    """The library that is taken from a folder in which this file lies as libpq.so, and what is said of it."""
    os.makedirs(os.path.join(folder, "dist"))
    for path in library:
        shutil.copyfile(path, os.path.join(folder, "dist", "libpq.so"))
    with contextlib.redirect_stderr(io.StringIO()) as said:
        taken = own_library(folder)
    return taken, said.getvalue()


def own_problems(folder, path, old):
    """A library that lies in a checkout is taken if it is whole and of its version; of another the companion says why it isn't."""
    text = os.path.join(folder, "text")
    with open(text, "w", encoding="utf-8") as stream:
        stream.write("no library")
    taken, said = found_in(os.path.join(folder, "right"), path)
    yield "the library that lies here", difference("taken", (True, ""), (isinstance(taken, Library), said))
    yield "no library", difference("taken", (None, ""), found_in(os.path.join(folder, "none")))
    taken, said = found_in(os.path.join(folder, "old"), old)
    yield "a library of another version", difference("taken", None, taken)
    place = os.path.join(folder, "old", "dist", "libpq.so")
    yield "what is said of it", difference("line", f"pq: {place}: this is a library of pq 0.0.1, and not of {version()}{PLACED}\n", said)
    taken, said = found_in(os.path.join(folder, "broken"), text)
    yield "a file that is no library", difference("taken", (None, True), (taken, said.endswith(f"{PLACED}\n")))


def named_problems(folder, path, old):
    """The variables choose: the program before the library; one that is named and can't be taken stops the call."""
    for name, given, wanted in [("the library", {"PQ_LIBRARY": path}, pq.Library), ("the program", {"PQ_LIBRARY": path, "PQ": PROGRAM}, pq.Program)]:
        with in_environment(**given):
            calls = pq.calls()
        yield f"{name} by its variable", difference("calls", (wanted, given.get("PQ", path)), (type(calls), calls.path))
    for name, wrong in [("another version", old), ("no library", os.path.join(folder, "text")), ("no file", os.path.join(folder, "no"))]:
        with in_environment(PQ_LIBRARY=wrong):
            try:
                found = pq.solve("rows", b"1\n")
            except pq.Stop as stop:
                found = stop.status, str(stop).startswith(f"{wrong}: this is ")
        yield f"$PQ_LIBRARY names {name}", difference("status and line", (4, True), found)


def sum_of(path):
    """The sum of a file."""
    with open(path, "rb") as stream:
        return hashlib.sha256(stream.read()).hexdigest()


def on_page(**given):
    """The answer of the companion about an example of the pages, as a dictionary."""
    words = ["json", "examples/finds.csv", "--order", "lines", "--header", "3", "--drop", "Summe"]
    done = subprocess.run([os.path.join(HOME, "companion", "pqpage"), *words], cwd=HOME, capture_output=True, env=without(**given), timeout=SECONDS,
                          check=False)
    return json.loads(done.stdout)


def page_problems(path):
    """The companion's page says the same over the library as over the program, but for the sum of what was run."""
    one, other = on_page(PQ=PROGRAM), on_page(PQ_LIBRARY=path)
    sums = one.pop("sums"), other.pop("sums")
    yield "pqpage over the library", difference("answer", one, other)
    yield "the sums that it tells", difference("sums", (sum_of(PROGRAM), {**sums[0], "pq": sum_of(path)}), (sums[0]["pq"], sums[1]))


def sum_problems(folder, path):
    """Of the script of a checkout the page tells the sum of the program that was built, and of a library beside it its own."""
    os.makedirs(os.path.join(folder, "crates", "pq", "out"))
    script, beside = shutil.copy(os.path.join(HOME, "pq"), folder), shutil.copy(path, os.path.join(folder, "libpq.so"))
    shutil.copy(PROGRAM, os.path.join(folder, "crates", "pq", "out"))
    for name, of, wanted in [("the script", script, PROGRAM), ("a library beside it", beside, path), ("the program itself", PROGRAM, PROGRAM)]:
        yield f"the sum of {name}", difference("sum", sum_of(wanted), sum_of_program(of))


def in_r(folder, path, old):
    """The functions for R take a library under the same rule."""
    if shutil.which("Rscript") is None:
        passed_over("Rscript")
        return
    for name in ("VERSION", os.path.join("companion", "pq.R")):
        os.makedirs(os.path.dirname(os.path.join(folder, name)), exist_ok=True)
        shutil.copyfile(os.path.join(HOME, name), os.path.join(folder, name))
    shutil.copy(PROGRAM, os.path.join(folder, "pq"))
    for name, library, wanted in [("the right library", path, "libpq.so"), ("another version", old, "pq"),
                                  ("no library", os.path.join(folder, "VERSION"), "pq")]:
        shutil.copyfile(library, os.path.join(folder, "libpq.so"))
        done = subprocess.run(["Rscript", "-e", "source('companion/pq.R'); cat(pq_program())"], cwd=folder, capture_output=True, text=True,
                              env=without(), timeout=SECONDS, check=False)
        yield f"pq.R: {name}", difference("taken", (os.path.join(folder, wanted), wanted == "pq"), (done.stdout, PLACED in done.stderr))


def choice_problems(path):
    """All checks of which library is taken; `path` is one of this version."""
    with tempfile.TemporaryDirectory() as made:
        folder = os.path.realpath(made)
        old = another(folder)
        yield from own_problems(folder, path, old)
        yield from named_problems(folder, path, old)
        yield from page_problems(path)
        yield from sum_problems(os.path.join(folder, "sums"), path)
        yield from in_r(os.path.join(folder, "r"), path, old)
