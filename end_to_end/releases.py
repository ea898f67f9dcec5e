"""Compares made folders by scripts/release.py: the same, changed, or with nothing to compare; and calls it where there is no clone."""

import os
import shutil
import subprocess
import sys
import tempfile

from program import HOME, SECONDS
from streams import difference

FILES = {"pq": b"program\n", "docs.txt": b"text\n", "SUMS": b"# rt: rt 1\n# cc: cc 2\n00  pq\n11  docs.txt\n"}


def written(folder, files):
    """Writes a folder with these files, and gives its path."""
    os.makedirs(folder)
    for name, content in files.items():
        with open(os.path.join(folder, name), "wb") as stream:
            stream.write(content)
    return folder


def called(home, *words):
    """The status, the lines and the line of a fault of the script in a copy without a clone."""
    script = os.path.join(home, "scripts", "release.py")
    done = subprocess.run([sys.executable, script, *words], cwd=home, capture_output=True, text=True, timeout=SECONDS, check=False)
    return done.returncode, done.stdout.splitlines(), done.stderr


def compared(top, home, ours):
    """Each comparison of a folder with dist/."""
    other, fewer = {**FILES, "pq": b"program!"}, {name: content for name, content in FILES.items() if name != "docs.txt"}
    newer, forged = {**FILES, "SUMS": FILES["SUMS"].replace(b"cc 2", b"cc 3")}, {**FILES, "SUMS": FILES["SUMS"].replace(b"11  ", b"22  ")}
    unsummed = {name: content for name, content in FILES.items() if name != "SUMS"}
    for name, files, status, lines in [
        ("the same", FILES, 0, ["3 files are the same"]),
        ("a byte more", other, 1, ["pq: differs", "2 files are the same"]),
        ("a file missing", fewer, 1, [f"docs.txt: is in {ours} alone", "2 files are the same"]),
        ("a file more", {**FILES, "more": b""}, 1, ["more: is in {} alone", "3 files are the same"]),
        ("another tool", newer, 0, [f"{ours} was made with cc: cc 2", "{} was made with cc: cc 3", "3 files are the same"]),
        ("other sums", forged, 1, ["SUMS: differs", "2 files are the same"]),
        ("no sums", unsummed, 1, [f"SUMS: is in {ours} alone", "2 files are the same"]),
    ]:
        folder = written(os.path.join(top, name), files)
        yield f"a release with {name}", difference("status and lines", (status, [line.format(folder) for line in lines], ""), called(home, "compare", folder))


def refused(top, home):
    """Nothing to compare, and no clone to build a release of: status 70 and one line, and dist/ stays as it is."""
    for name, folder in [("a missing folder", os.path.join(top, "none")), ("an empty folder", written(os.path.join(top, "empty"), {}))]:
        wanted = (70, [], f"pq: the release could not be compared: {folder}: there is no such folder, or nothing in it\n")
        yield f"compare with {name}", difference("status and line", wanted, called(home, "compare", folder))
    status, lines, line = called(home)
    is_said = line.startswith("pq: the release could not be built: git lists no files of companion/") and line.count("\n") == 1
    yield "a release without a clone", difference("status, lines and line", (70, [], True), (status, lines, is_said))
    dist = os.path.join(home, "dist")
    yield "dist/ after it", difference("files", sorted(FILES), sorted(os.listdir(dist)))
    shutil.rmtree(dist)
    yield "compare without dist/", difference("status", 70, called(home, "compare", os.path.join(top, "the same"))[0])


def problems():
    """All checks of the script, in a copy of it."""
    with tempfile.TemporaryDirectory() as made:
        top = os.path.realpath(made)
        home = os.path.join(top, "home")
        os.makedirs(os.path.join(home, "scripts"))
        shutil.copy(os.path.join(HOME, "scripts", "release.py"), os.path.join(home, "scripts"))
        yield from compared(top, home, written(os.path.join(home, "dist"), FILES))
        yield from refused(top, home)
