#!/usr/bin/env python3
"""Builds the solver as a library for other languages: dist/libpq.so, with its header dist/pq.h.

Usage: scripts/library.py [FOLDER]      the folder in the place of dist

The crate `pq_c` is proved and built first, with the crates below it, as `./pq` does; what was built stays. It takes the toolchain of
Rattle, of which the library has a few lines for the heap, and a C compiler: `cc`, or the one that $CC names. docs/LIBRARY.md shows
calls from C, Python and R. The status is 0; 70 where something is missing or not proved; 130 where it was interrupted.
"""

import os
import shlex
import shutil
import subprocess
import sys
import tempfile

import build

CRATE = "pq_c"
SOURCES = os.path.join(build.HOME, "library")
NAMES = ["pq.c", "pq_r.c"]
# What stands in the place of the toolchain's compiler: it keeps the module that it is handed, of which the page is made as well. Both paths
# are quoted for the shell.
KEEPER = """#!/bin/sh
for one in "$@"; do case $one in *.bc) cp "$one" {module} ;; esac; done
exec {clang} "$@"
"""


def made(*names):
    """The path of a file that is made, in the crate's folder."""
    return os.path.join(build.folder_of(CRATE), "out", *names)


class Archive(build.House):
    """The crates that the library needs, with the library's crate as the top."""

    def __init__(self):
        super().__init__(CRATE)
        self.folder = tempfile.TemporaryDirectory()

    def as_top(self):
        keep_modules(self.toolchain.path("toolchain"), self.folder.name)
        return ["--toolchain", self.folder.name, "--crate-type", "staticlib", "-o", made("new.a")]

    def is_whole(self):
        """Whether the archive and the module are there, of the texts as they are."""
        return all(os.path.exists(made(name)) for name in ("libpq_c.a", "module.bc")) and self.is_built(CRATE)

    def keep(self, crate):
        super().keep(crate)
        if crate == CRATE:
            os.rename(made("new.a"), made("libpq_c.a"))
            os.rename(made("module.bc.new"), made("module.bc"))
            with open(self.stamp_file(crate), "w", encoding="utf-8") as stream:
                stream.write(self.stamps[crate])


def keeper_of(module, clang):
    """The text of the compiler that keeps the module at this path."""
    return KEEPER.format(module=shlex.quote(module), clang=shlex.quote(clang))


def keep_modules(toolchain, folder):
    """Makes a folder like the toolchain's, whose compiler keeps the module."""
    os.makedirs(os.path.join(folder, "bin"), exist_ok=True)
    os.symlink(os.path.join(toolchain, "lib"), os.path.join(folder, "lib"))
    for name in os.listdir(os.path.join(toolchain, "bin")):
        if name != "clang":
            os.symlink(os.path.join(toolchain, "bin", name), os.path.join(folder, "bin", name))
    keeper = os.path.join(folder, "bin", "clang")
    with open(keeper, "w", encoding="utf-8") as stream:
        stream.write(keeper_of(made("module.bc.new"), os.path.join(toolchain, "bin", "clang")))
    os.chmod(keeper, 0o755)


def compiler():
    """The C compiler."""
    found = shutil.which(os.environ.get("CC") or "cc")
    if found is None:
        raise OSError("there is no C compiler: name one by CC")
    return found


def run(words):
    """Runs a command, and stops with what it printed where it fails."""
    done = subprocess.run(words, stdin=subprocess.DEVNULL, stdout=subprocess.PIPE, stderr=subprocess.STDOUT, check=False)
    if done.returncode:
        raise OSError(f"{os.path.basename(words[0])}: {done.stdout.decode(errors='replace')}")


def version():
    """The version of Sulgyabet."""
    with open(os.path.join(build.HOME, "VERSION"), encoding="utf-8") as stream:
        return stream.read().strip()


def linked(folder):
    """What links the library of the archive into a folder, whole or not at all."""

    def link(house):
        os.makedirs(folder, exist_ok=True)
        new = os.path.join(folder, "libpq.so.new")
        run([compiler(), "-O2", "-fPIC", "-shared", f'-DPQ_VERSION="{version()}"', *(os.path.join(SOURCES, name) for name in NAMES),
             made("libpq_c.a"), house.toolchain.path("c", "liblibc_c.a"), "-o", new, "-Wl,--exclude-libs,ALL", "-Wl,-z,defs", "-Wl,-soname,libpq.so"])
        os.rename(new, os.path.join(folder, "libpq.so"))
        shutil.copyfile(os.path.join(SOURCES, "pq.h"), os.path.join(folder, "pq.h"))

    return link


def built(finish):
    """Builds the archive where it isn't there yet, and then what is made of it; gives the status."""
    try:
        turn, _ = build.in_turn()
        with turn:
            house = Archive()
            if house.is_whole():
                finish(house)
                return 0
            return build.build_all([], Archive, finish)
    except OSError as error:
        build.tell(f"pq: the library could not be built: {error}")
        return build.FAILED
    except KeyboardInterrupt:
        build.tell("pq: stopped; the next call goes on from here")
        return build.INTERRUPTED


def main(words):
    if len(words) > 1 or words[:1] in (["-h"], ["--help"]):
        print(__doc__.strip(), file=sys.stderr)
        return 2
    return built(linked(os.path.abspath(words[0]) if words else os.path.join(build.HOME, "dist")))


if __name__ == "__main__":
    sys.exit(main(sys.argv[1:]))
