"""`scripts/try.py`, which runs the program with nothing proved: that it hands on words, files, standard input and the status, and says so.

It is tried once with the toolchain, and else with a stand-in that prints what it was handed.
"""

import concurrent.futures
import os
import subprocess
import sys
import tempfile

from program import HOME, run

SCRIPT = os.path.join(HOME, "scripts", "try.py")
SECONDS = 300
SAYS = b"pq: this run is not proved: indices, sums and accesses are checked as it runs, and no contract is\n"
# Prints its words, the files that it is handed and standard input, and ends as the toolchain does where the program ended with a status.
TOOLCHAIN = """#!/usr/bin/env python3
import os, sys
words = sys.argv[1:]
own, given = words[: words.index("--")], words[words.index("--") + 1 :]
handed = dict(word.split("=", 1) for at, word in enumerate(own) if own[at - 1] == "--data")
print(os.path.basename(os.getcwd()), own[0], [open(handed[word], "rb").read() if word in handed else word for word in given], sys.stdin.buffer.read())
print("pq: words\\nchecked: ended status=2\\nrun=ended status=2 runners=1 proved=no", file=sys.stderr)
sys.exit(2)
"""
SILENT = "#!/bin/sh\necho 'checked: no-answer: a time limit' >&2\necho 'run=no-answer proved=no' >&2\nexit 6\n"


def call(words, folder, toolchain=None, content=b""):
    """The status, the output and the errors of a call from a folder."""
    paths = os.environ["PATH"]
    if toolchain is not None:
        command = os.path.join(folder, "rt")
        with open(command, "w", encoding="utf-8") as stream:
            stream.write(toolchain)
        os.chmod(command, 0o755)
        paths = folder + os.pathsep + paths
    done = subprocess.run([sys.executable, SCRIPT, *words], input=content, capture_output=True, cwd=folder, timeout=SECONDS,
                          env={**os.environ, "PATH": paths}, check=False)
    return done.returncode, done.stdout, done.stderr


def handed_on(folder):
    """Words, files from the folder of the call, standard input and the status are handed on."""
    for name in ("a", "check"):
        with open(os.path.join(folder, name), "w", encoding="utf-8") as stream:
            stream.write(f"in {name}")
    for words, wanted in [(["check", "check", "a", "check"], ["check", "check", b"in a", b"in check"]), (["unit", "-"], ["unit", "-"]),
                          (["unit", "none"], ["unit", "pq-no-file"]), (["gen", "a"], ["gen", "a"]), (["solve"], ["solve"]), ([], [])]:
        given = call(words, folder, TOOLCHAIN, b"in")
        if given != (2, f"pq try {wanted} {b'in'}\n".encode(), SAYS + b"pq: words\n"):
            return f"{words}: {given}"
    return None


def no_answer(folder):
    """Where the run gives no answer the status is 70."""
    given = call(["gen", "0", "1", "0"], folder, SILENT)
    fits = given[:2] == (70, b"") and given[2].startswith(SAYS) and given[2].endswith(b"pq: this run gave no answer\n")
    return None if fits else f"{given}"


def as_the_program(folder):
    """With the toolchain: the bytes and the status are those of the program."""
    text = os.path.join(HOME, "examples", "nested.txt")
    tried = (["list", "matrix", os.path.relpath(text, folder), "2"], ["solve", "rows", text])
    with concurrent.futures.ThreadPoolExecutor(len(tried)) as pool:
        for words, given in zip(tried, pool.map(lambda words: call(words, folder), tried)):
            wanted = run([*words[:2], text, *words[3:]])
            if given != (wanted.returncode, wanted.stdout, SAYS + wanted.stderr):
                return f"{words}: {given}"
    return None


def problems():
    """Each check with what is wrong, or None."""
    for check in (handed_on, no_answer, as_the_program):
        with tempfile.TemporaryDirectory() as folder:
            yield f"try: {check.__doc__}", check(folder)
