#!/usr/bin/env python3
"""Refuses each request for memory of a run in turn, and says how the runs ended: with status 6, its line and nothing written, or as they do
with ample memory.

Usage: scripts/refuse_memory.py     after `rt ci` or `./pq`, which leave the program in crates/pq/out/pq; needs a C compiler, `cc`

It is no part of the gate. The program is run over a library of a few lines of C that comes before the C library's own functions and
refuses one request, the first, then the second, and so on, up to the one past the last. Then it refuses that one and all behind it. Where
the program has the C library in it, it is linked once more without.
The last line is `N passed, N failed`; the status is 0 where nothing failed.
"""

import os
import subprocess
import sys
import tempfile

import build

HOME = os.path.dirname(os.path.dirname(os.path.abspath(__file__)))
PROGRAM = os.path.join(HOME, "crates", "pq", "out", "pq")
SECONDS = 60
NO_MEMORY = (6, b"", b"pq: no memory\n")
# Refuses the request with the number REFUSED, and where REFUSED_ON is set each later one too; writes the number of requests to TOLD.
LIBRARY = r"""
#define _GNU_SOURCE
#include <dlfcn.h>
#include <errno.h>
#include <fcntl.h>
#include <stdlib.h>
#include <unistd.h>
static unsigned long asked, refused;
static int goes_on;
__attribute__((constructor)) static void begin(void) {
    const char *number = getenv("REFUSED");
    refused = number ? strtoul(number, 0, 10) : 0;
    goes_on = getenv("REFUSED_ON") != 0;
    asked = 0;
}
__attribute__((destructor)) static void end(void) {
    const char *name = getenv("TOLD");
    int file = name ? open(name, O_WRONLY | O_CREAT | O_TRUNC, 0600) : -1;
    char digits[24], *at = digits + sizeof digits;
    for (unsigned long left = asked; at == digits + sizeof digits || left; left /= 10) *--at = '0' + left % 10;
    if (file >= 0 && write(file, at, digits + sizeof digits - at) > 0) close(file);
}
static int is_refused(void) {
    asked++;
    if (asked != refused && !(goes_on && refused && asked > refused)) return 0;
    errno = ENOMEM;
    return 1;
}
extern void *__libc_malloc(size_t), *__libc_calloc(size_t, size_t), *__libc_realloc(void *, size_t), *__libc_memalign(size_t, size_t);
void *malloc(size_t n) { return is_refused() ? 0 : __libc_malloc(n); }
void *calloc(size_t m, size_t n) { return is_refused() ? 0 : __libc_calloc(m, n); }
void *realloc(void *old, size_t n) { return is_refused() ? 0 : __libc_realloc(old, n); }
void *aligned_alloc(size_t to, size_t n) { return is_refused() ? 0 : __libc_memalign(to, n); }
int posix_memalign(void **new, size_t to, size_t n) { if (is_refused()) return ENOMEM; *new = __libc_memalign(to, n); return *new ? 0 : ENOMEM; }
"""
CHAIN = b"110\n011\n"
TRIANGLE = b"110\n011\n101\n"
VERDICT = b"pq-verdict 2\nkind matrix\ncolumns 3\nanswer yes\ntree [1 2 3]\norder 1 2 3\nend\n"
CLONES = b'{"probes":["a","b","c","d","e"],"clones":[{"probes":["b","a"]},{"probes":["b","c"]},{"probes":[]},{"probes":["d"]}]}\n'
CORE = (b"pq-core 1\nkind matrix\ncolumns 3\ncore 3\nrow 1\nwithout 1 3 2\nrow 2\nwithout 2 1 3\nrow 3\nwithout 1 2 3\n"
        b"cycle 3\n1 3 row 1\n3 2 row 3\n2 1 row 2\nend\n")
PATH = b"4\n1 2\n2 3\n3 4\n"
UNIT = b"pq-unit 1\nvertices 4\nlength 4\nunit 1 3\nunit 2 6\nunit 3 9\nunit 4 12\nend\n"
# The words before the files, the bytes of the files, and the words behind them.
RUNS = [
    (["solve", "matrix"], [CHAIN], []),
    (["solve", "matrix"], [TRIANGLE], []),
    (["check", "matrix"], [CHAIN, VERDICT], []),
    (["extend", "matrix"], [CHAIN, b"1 3\n1 2 3\n"], []),
    (["solve", "rows"], [b"5\n1 2\n3 4\n2 3\n"], []),
    (["solve", "table"], [b"t,a,b,c\nx,2,X,\ny, ,0,1\n"], []),
    (["solve", "clones"], [CLONES], []),
    (["solve", "circular"], [TRIANGLE], []),
    (["solve", "convex"], [b"2 3\n1 1\n1 3\n2 2\n2 3\n"], []),
    (["solve", "doubly"], [b"4 3\n1 1\n2 1\n1 2\n3 2\n1 3\n4 3\n"], []),
    (["solve", "proper"], [PATH], []),
    (["solve", "robinson"], [b"3\n0 1 2\n1 0 1\n2 1 0\n"], []),
    (["gen", "7", "20", "30"], [], []),
    (["solve", "matrix"], [b"110\n01\n"], []),
    (["solve", "matrices"], [CHAIN], []),
    (["core", "matrix"], [TRIANGLE], []),
    (["core", "matrix"], [CHAIN], []),
    (["check-core", "matrix"], [TRIANGLE, CORE], []),
    (["list", "matrix"], [CHAIN], ["5"]),
    (["unit"], [PATH], []),
    (["unit"], [b"4\n1 2\n1 3\n1 4\n"], []),
    (["check-unit"], [PATH, UNIT], []),
    (["meet", "3"], [b"(1 2 3)", b"[1 2 3]"], []),
    (["meet", "3"], [b"[2 1 3]", b"[1 2 3]"], []),
]


def has_loader(program):
    """Whether a loader puts the C library's functions into a program at its start, so that others can stand before these."""
    with open(program, "rb") as stream:
        return b"/ld-linux-" in stream.read(4096)


class Refusals:
    """Runs of the program over the library, in a folder that holds it."""

    def __init__(self, folder):
        self.folder = folder
        self.library = os.path.join(folder, "refuse.so")
        source = os.path.join(folder, "refuse.c")
        with open(source, "w", encoding="utf-8") as stream:
            stream.write(LIBRARY)
        subprocess.run(["cc", "-shared", "-fPIC", "-O1", "-o", self.library, source], check=True)
        self.program = PROGRAM if has_loader(PROGRAM) else os.path.join(folder, "pq")
        if self.program != PROGRAM:
            subprocess.run(build.Toolchain().linking(f"{PROGRAM}.o", self.program), check=True, capture_output=True)

    def named(self, contents):
        """Files with these contents, by their names."""
        names = [os.path.join(self.folder, f"file{number}") for number in range(len(contents))]
        for name, content in zip(names, contents):
            with open(name, "wb") as stream:
                stream.write(content)
        return names

    def run(self, words, **how):
        """A run: its status, its output and its errors, and how many requests for memory it made."""
        told = os.path.join(self.folder, "told")
        done = subprocess.run([self.program, *words], env={"LD_PRELOAD": self.library, "TOLD": told, **how}, capture_output=True, timeout=SECONDS,
                              check=False)
        with open(told, encoding="ascii") as stream:
            return (done.returncode, done.stdout, done.stderr), int(stream.read())


def problems(refusals, before, contents, behind):
    """Each refusal of a run with what is wrong, or None. A run may end as with ample memory where it can go on without."""
    words = [*before, *refusals.named(contents), *behind]
    wanted, count = refusals.run(words)
    if count == 0:
        yield f"{words}", "the run asked for no memory: is it the C library's?"
    for number in range(1, count + 2):
        for how in ({}, {"REFUSED_ON": "1"}):
            given, _ = refusals.run(words, REFUSED=str(number), **how)
            fits = given in (wanted, NO_MEMORY) and (number <= count or given == wanted)
            yield f"{words[:2]}, request {number} of {count} {'and all later ones' if how else ''}", None if fits else f"{given}"


def main():
    passed = failed = 0
    with tempfile.TemporaryDirectory() as folder:
        refusals = Refusals(folder)
        for run in RUNS:
            for name, problem in problems(refusals, *run):
                passed += problem is None
                failed += problem is not None
                if problem:
                    print(f"FAILED {name}: {problem}")
    print(f"{passed} passed, {failed} failed")
    return 1 if failed else 0


if __name__ == "__main__":
    sys.exit(main())
