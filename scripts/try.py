#!/usr/bin/env python3
"""Runs `pq` on the words given within a minute, with nothing proved: every index, sum and access is checked as the program runs.

Usage: scripts/try.py WORDS        the words of `pq`, as `scripts/try.py solve matrix examples/nested.txt`

Files are found from the folder of the call, and standard input, standard output and the status are those of `pq`. One line more on
standard error says that the run isn't proved. The program is translated anew at each call, and has 60 seconds to run and 1 MiB for its
output. The status is 70 where it gave no answer: it took longer, it wrote more, a check failed as it ran, or the toolchain is missing.
"""

import os
import re
import shutil
import subprocess
import sys
import tempfile

HOME = os.path.dirname(os.path.dirname(os.path.abspath(__file__)))
FOLDER = os.path.join(HOME, "crates", "pq")
FAILED = 70
# Which words of each command name files, counted from 0.
FILES = {"solve": [2], "check": [2, 3], "extend": [2, 3], "core": [2], "check-core": [2, 3], "list": [2], "unit": [1], "check-unit": [1, 2], "meet": [2, 3]}
# What the toolchain adds to the program's own lines on standard error.
ADDED = re.compile(rb"^(?:(?:interpreter|checked|races|rt): |run=).*\n", re.M)
ENDED = re.compile(rb"^run=ended status=(\d+) .*proved=no\n\Z", re.M)


def tell(text):
    """A line for the user."""
    print(f"pq: {text}", file=sys.stderr, flush=True)


def handed(words, folder):
    """The words with a name of their own for each file, and the toolchain's words that hand the files in.

    The program runs in a folder of its own. A file that can't be read isn't handed in, so the program finds none there. The word `-`
    stands for standard input, which the program gets as it is."""
    words, given = list(words), []
    for place in FILES.get(words[0] if words else "", []):
        if place < len(words) and words[place] != "-":
            name, copy = f"pq-file-{place}", os.path.join(folder, str(place))
            try:
                with open(words[place], "rb") as source, open(copy, "wb") as target:
                    shutil.copyfileobj(source, target)
            except (OSError, ValueError):
                words[place] = "pq-no-file"
                continue
            given += ["--data", f"{name}={copy}"]
            words[place] = name
    return words, given


def main(words):
    tell("this run is not proved: indices, sums and accesses are checked as it runs, and no contract is")
    with tempfile.TemporaryDirectory() as folder:
        words, given = handed(words, folder)
        try:
            done = subprocess.run(["rt", "try", *given, "--", *words], cwd=FOLDER, capture_output=True, check=False)
        except OSError as error:
            tell(f"the toolchain of Rattle is missing: {error}")
            return FAILED
    sys.stdout.buffer.write(done.stdout)
    ended = ENDED.search(done.stderr)
    if ended is None:
        sys.stderr.buffer.write(done.stderr)
        tell("this run gave no answer")
        return FAILED
    sys.stderr.buffer.write(ADDED.sub(b"", done.stderr))
    return int(ended[1])


if __name__ == "__main__":
    sys.exit(main(sys.argv[1:]))
