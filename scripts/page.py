#!/usr/bin/env python3
"""Builds the page with the solver in it: dist/pq.html, one file that works in a browser without a network.

Usage: scripts/page.py [FOLDER]         the folder in the place of dist; the solver's module is written beside the page as pq.wasm

The library's crate is proved and built first, as scripts/library.py does. Of the module that the toolchain makes of it, WebAssembly is
made by clang 16, its linker and binaryen (Debian: clang-16, lld-16, binaryen). These three are not proved, nor is `for_the_web`, which
rewrites the module's text for them. The status is 0; 70 where something is missing or not proved; 130 where it was interrupted.
"""

import base64
import hashlib
import json
import os
import re
import shutil
import sys
import tempfile

import build
import library

sys.path.insert(0, os.path.join(build.HOME, "companion"))

from pqparts.program import CODES  # noqa: E402

SOURCES = os.path.join(build.HOME, "page")
# The parts of the page in their order; each may use those before it.
PARTS = ["texts.js", "tables.js", "answers.js", "finding.js", "pictures.js", "solver.js"]
TOOLS = ["clang-16", "wasm-ld-16", "wasm-opt"]
FEATURES = ["bulk-memory", "mutable-globals", "nontrapping-fptoint", "sign-ext"]
LOWERING = ["--enable-memory64", "--enable-bulk-memory", "--enable-sign-ext", "--enable-mutable-globals", "--enable-nontrapping-float-to-int",
            "--memory64-lowering"]
LAYOUT = "e-m:e-p:64:64-p10:8:8-p20:8:8-i64:64-n32:64-S128-ni:1:10:20"
STACK = 1 << 20
# Words of the toolchain's LLVM that clang 16 has no word for, or that are of another processor.
WORDS = [('"probe-stack"="inline-asm"', ""), ('"target-cpu"="x86-64-v2"', f'"target-features"="{",".join(f"+{one}" for one in FEATURES)}"'),
         ("ptrtoaddr", "ptrtoint"), ("nocreateundeforpoison ", ""), ("captures(none)", "nocapture"), ("inbounds nuw", "inbounds")]


def missing():
    """The tools that are not here."""
    return [tool for tool in TOOLS if shutil.which(tool) is None]


def for_the_web(text):
    """The text of the module as clang 16 takes it, for a processor with 64-bit memory. Where it has no call `pq_c_run`, the linker stops."""
    text = re.sub(r"^target datalayout = .*$", f'target datalayout = "{LAYOUT}"', text, flags=re.M)
    text = re.sub(r"^target triple = .*$", 'target triple = "wasm64-unknown-unknown"', text, flags=re.M)
    text = re.sub(r'"stack-probe-size"="[0-9]*"', "", text)
    text = re.sub(r"<(\d+) x (\w+)> splat \((\w+) ([^)]+)\)", lambda found: f"<{found[1]} x {found[2]}> <" + ", ".join([f"{found[3]} {found[4]}"] * int(found[1])) + ">", text)
    for old, new in WORDS:
        text = text.replace(old, new)
    return text


def compiled(house, folder):
    """The solver's module, by its path in a folder of this call."""
    def path(name):
        return os.path.join(folder, name)

    library.run([house.toolchain.path("toolchain", "bin", "clang"), "-x", "ir", "-S", "-emit-llvm", "-O0", "-Wno-override-module",
                 library.made("module.bc"), "-o", path("found.ll")])
    with open(path("found.ll"), encoding="utf-8") as old, open(path("web.ll"), "w", encoding="utf-8") as new:
        new.write(for_the_web(old.read()))
    target = ["clang-16", "--target=wasm64-unknown-unknown"]
    library.run([*target, "-O3", "-ffunction-sections", "-fdata-sections", "-Wno-override-module", "-c", "-x", "ir", path("web.ll"), "-o", path("solver.o")])
    for name in ("heap", "helpers"):
        library.run([*target, *(f"-m{one}" for one in FEATURES), "-O2", "-fwrapv", "-ffreestanding", "-fno-builtin", "-nostdinc", "-c",
                     os.path.join(library.SOURCES, f"{name}.c"), "-o", path(f"{name}.o")])
    library.run(["wasm-ld-16", "-mwasm64", "--no-entry", "--stack-first", "-z", f"stack-size={STACK}", "--export=__heap_base",
                 "--export=pq_c_run", "--gc-sections", path("solver.o"), path("heap.o"), path("helpers.o"), "-o", path("wide.wasm")])
    library.run(["wasm-opt", *LOWERING, path("wide.wasm"), "-o", path("pq.wasm")])
    return path("pq.wasm")


def source(name):
    """The text of a source of the page."""
    with open(os.path.join(SOURCES, name), encoding="utf-8") as stream:
        return stream.read()


def fenced(text):
    """The page with the sums of its own scripts in its policy, so a browser runs no other script."""
    scripts = re.findall(r"<script(?: id=\"\w+\")?>(.*?)</script>", text, flags=re.S)
    sums = (base64.b64encode(hashlib.sha256(one.encode()).digest()).decode() for one in scripts)
    return text.replace("@SCRIPTS@", " ".join(f"'sha256-{one}'" for one in sums), 1)


def page_of(solver):
    """The page with a module in it."""
    parts = "".join(map(source, PARTS)) + f"// What pq's codes of refusals mean, as the companion says it.\nconst CODES = {json.dumps(CODES)};\n"
    filled = {"@SOLVER@": base64.b64encode(build.text_of(solver)).decode(), "@PARTS@": parts, "@WORKER@": source("worker.js"),
              "@MAIN@": source("main.js"), "@VERSION@": library.version()}
    return fenced(re.sub("|".join(filled), lambda found: filled[found[0]], source("template.html")))


def written(folder):
    """What writes the module and the page into a folder, each whole or not at all."""

    def write(house):
        if missing():
            raise OSError(f"{', '.join(missing())} not found: Debian has them as clang-16, lld-16 and binaryen")
        os.makedirs(folder, exist_ok=True)
        with tempfile.TemporaryDirectory() as made:
            solver = compiled(house, made)
            with open(os.path.join(made, "pq.html"), "w", encoding="utf-8") as stream:
                stream.write(page_of(solver))
            for name in ("pq.wasm", "pq.html"):
                shutil.copyfile(os.path.join(made, name), os.path.join(folder, f"{name}.new"))
                os.rename(os.path.join(folder, f"{name}.new"), os.path.join(folder, name))

    return write


def main(words):
    if len(words) > 1 or words[:1] in (["-h"], ["--help"]):
        print(__doc__.strip(), file=sys.stderr)
        return 2
    return library.built(written(os.path.abspath(words[0]) if words else os.path.join(build.HOME, "dist")))


if __name__ == "__main__":
    sys.exit(main(sys.argv[1:]))
