#!/usr/bin/env python3
"""Builds what is handed out: dist/ with the program, the library, the page, the companion, the licences, and the sums of all of them.

Usage: scripts/release.py               takes what scripts/library.py and scripts/page.py take
       scripts/release.py compare FOLDER   says whether a folder that was handed out has the same files as dist/ of this checkout

Whoever has this clone, the toolchain and the same versions of the tools makes the same files again: dist/SUMS names the versions, and the
sum of each file (SHA-256). It names versions that differ; they don't count as a difference of files. The status is 0; 1 where files differ; 70 where
something is missing or not proved, so where there is nothing to compare as well.
"""

import hashlib
import os
import shutil
import subprocess
import sys
import tarfile

HOME = os.path.dirname(os.path.dirname(os.path.abspath(__file__)))
DIST = os.path.join(HOME, "dist")
COPIED = ["LICENSE-APACHE", "LICENSE-MIT", "VERSION", "CITATION.cff", "CHANGELOG.md", "docs/FORMATS.md", "docs/LIBRARY.md"]
TOOLS = [["rt", "--version"], ["cc", "--version"], ["ldd", "--version"], ["clang-16", "--version"], ["wasm-ld-16", "--version"], ["wasm-opt", "--version"]]
SUMS = "SUMS"
FAILED = 70


def path(*names):
    """A path in dist/."""
    return os.path.join(DIST, *names)


def sum_of(name):
    """The SHA-256 of a file."""
    with open(name, "rb") as stream:
        return hashlib.sha256(stream.read()).hexdigest()


def version(words):
    """The first line by which a tool tells its version."""
    try:
        said = subprocess.run(words, stdin=subprocess.DEVNULL, stdout=subprocess.PIPE, stderr=subprocess.STDOUT, text=True, check=False).stdout
    except OSError:
        return f"{words[0]}: not found"
    return f"{words[0]}: {said.splitlines()[0] if said else 'without a version'}"


def names_in(folder):
    """The files of a folder but the sums, by their names."""
    return sorted(os.path.relpath(os.path.join(place, name), folder) for place, _, names in os.walk(folder) for name in names if name != SUMS)


def listed(folder):
    """The files of a folder that belong to this clone."""
    done = subprocess.run(["git", "ls-files", folder], cwd=HOME, stdout=subprocess.PIPE, stderr=subprocess.PIPE, text=True, check=False)
    if done.returncode or not done.stdout:
        raise OSError(f"git lists no files of {folder}/: a release is built in a clone. {done.stderr.partition(os.linesep)[0]}")
    return done.stdout.splitlines()


def packed(names, name):
    """Files in one archive, the same for the same files: not compressed, since that differs from one Python to another."""
    with tarfile.open(path(name), mode="w", format=tarfile.USTAR_FORMAT) as archive:
        for one in names:
            entry = archive.gettarinfo(os.path.join(HOME, one), one)
            entry.mtime, entry.uid, entry.gid, entry.uname, entry.gname = 0, 0, 0, "", ""
            entry.mode = 0o755 if entry.mode & 0o100 else 0o644
            with open(os.path.join(HOME, one), "rb") as stream:
                archive.addfile(entry, stream)


def release():
    """Builds dist/ anew."""
    companion = listed("companion")
    shutil.rmtree(DIST, ignore_errors=True)
    os.makedirs(DIST)
    for words in (["scripts/library.py"], ["scripts/page.py"], ["scripts/build.py"]):
        status = subprocess.run([sys.executable, *words], cwd=HOME, check=False).returncode
        if status:
            return status
    shutil.copyfile(os.path.join(HOME, "crates", "pq", "out", "pq"), path("pq"))
    os.chmod(path("pq"), 0o755)
    os.chmod(path("libpq.so"), 0o755)
    for name in COPIED:
        shutil.copyfile(os.path.join(HOME, name), path(os.path.basename(name)))
    packed(companion, "companion.tar")
    lines = [f"# {version(words)}" for words in TOOLS] + [f"{sum_of(path(name))}  {name}" for name in names_in(DIST)]
    with open(path(SUMS), "w", encoding="utf-8") as stream:
        stream.write("\n".join(lines) + "\n")
    print(f"{DIST}: {len(names_in(DIST))} files; `sha256sum -c {SUMS}` looks at their sums")
    return 0


def lines_of(folder):
    """The lines of the sums in a folder: those of the tools, and those of the files."""
    with open(os.path.join(folder, SUMS), encoding="utf-8") as stream:
        lines = stream.read().splitlines()
    return [line for line in lines if line.startswith("#")], [line for line in lines if not line.startswith("#")]


def told_by(folder):
    """What is compared of a folder: for each file its sum; of the sums their lines, without those of the tools."""
    found = {name: sum_of(os.path.join(folder, name)) for name in names_in(folder)}
    if not found:
        raise OSError(f"{folder}: there is no such folder, or nothing in it")
    return {**found, SUMS: lines_of(folder)[1]} if os.path.exists(os.path.join(folder, SUMS)) else found


def tools_apart(ours, theirs):
    """Which versions of tools the sums of one of two folders name alone."""
    tools = {place: lines_of(place)[0] for place in (ours, theirs)}
    for one, other in ((ours, theirs), (theirs, ours)):
        yield from (f"{one} was made with {line.removeprefix('# ')}" for line in tools[one] if line not in tools[other])


def compare(folder):
    """Says which files of a folder differ from those of dist/, and which tools made them."""
    ours, theirs = told_by(DIST), told_by(folder)
    same = [name for name in ours if ours[name] == theirs.get(name)]
    different = sorted({*ours, *theirs} - {*same})
    for name in different:
        print(f"{name}: {'differs' if name in ours and name in theirs else f'is in {DIST if name in ours else folder} alone'}")
    for line in tools_apart(DIST, folder) if SUMS in ours and SUMS in theirs else []:
        print(line)
    print(f"{len(same)} files are the same")
    return 1 if different else 0


def main(words):
    compares = words[:1] == ["compare"] and len(words) == 2
    if words and not compares:
        print(__doc__.strip(), file=sys.stderr)
        return 2
    try:
        return compare(words[1]) if compares else release()
    except (OSError, subprocess.SubprocessError) as error:
        print(f"pq: the release could not be {'compared' if compares else 'built'}: {error}", file=sys.stderr)
        return FAILED


if __name__ == "__main__":
    sys.exit(main(sys.argv[1:]))
