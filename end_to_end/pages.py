"""The commands of README.md, docs/ and companion/: each runs as the page shows it, and prints what stands under it.

In a page a command stands in an indented block, after `$ `. What it prints, on standard output and standard error, stands in the lines below it,
up to the next command or the end of the block. Commands run by a shell, page by page, in a folder that has the examples, the companion and the
program `pq`.
"""

import os
import shutil
import subprocess

HOME = os.path.dirname(os.path.dirname(os.path.abspath(__file__)))
INDENT = "    "
PROMPT = INDENT + "$ "
SECONDS = 60


def pages():
    """The pages, by their names in the repository."""
    docs = sorted(name for name in os.listdir(os.path.join(HOME, "docs")) if name.endswith(".md"))
    return ["README.md", *(os.path.join("docs", name) for name in docs), os.path.join("companion", "README.md")]


def commands(page):
    """Each command of a page, with the text that the page shows under it."""
    found, shown = [], None
    with open(os.path.join(HOME, page), encoding="utf-8") as stream:
        for line in stream.read().split("\n"):
            if line.startswith(PROMPT):
                shown = []
                found.append((line[len(PROMPT):], shown))
            elif line.startswith(INDENT) and shown is not None:
                shown.append(line[len(INDENT):])
            else:
                shown = None
    return [(command, "".join(line + "\n" for line in lines)) for command, lines in found]


def furnish(folder, program):
    """Puts what the commands of a page find into a new folder."""
    shutil.copytree(os.path.join(HOME, "examples"), os.path.join(folder, "examples"))
    shutil.copytree(os.path.join(HOME, "companion"), os.path.join(folder, "companion"), ignore=shutil.ignore_patterns("__pycache__"))
    shutil.copy(os.path.join(HOME, "VERSION"), folder)
    shutil.copy(program, os.path.join(folder, "pq"))


def page_problems(page, folder, program):
    """Each command of a page with what is wrong with it, or None. The folder is new."""
    furnish(folder, program)
    yield from run_problems(commands(page), folder)


def run_problems(listed, folder):
    """Each command with what is wrong with what it prints, or None."""
    for command, shown in listed:
        done = subprocess.run(["bash", "-c", command], stdout=subprocess.PIPE, stderr=subprocess.STDOUT, cwd=folder, timeout=SECONDS, check=False)
        printed = done.stdout.decode()
        yield command, None if printed == shown else f"{printed!r}, the page shows {shown!r}"


# What the recipes print on the table of graves where a blank column and a blank line stand at its end: column 6 is free and has no name.
WITH_BLANKS = {
    "4 rows, 5 columns\n": "4 rows, 6 columns\n",
    "columns 5\n": "columns 6\n",
    "Type,Grave 3,Grave 1,Grave 4,Grave 2,Grave 5\nBeaker,1,3,,,\nBowl,,x,2,,0\nJar,,,1,1,\nFibula,,,,4,1\n":
        "Type,Grave 3,Grave 1,Grave 4,Grave 2,Grave 5,\nBeaker,1,3,,,,\nBowl,,x,2,,0,\nJar,,,1,1,,\nFibula,,,,4,1,\n",
    "Grave 3\nGrave 1\nGrave 4\nGrave 2\nGrave 5\n": "Grave 3\nGrave 1\nGrave 4\nGrave 2\nGrave 5\n\n",
    "1 ok\n2 ok\n3 ok\n4 ok\n5 no\ntree [3 1 4 2 5]\n": "1 ok\n2 ok\n3 ok\n4 ok\n5 no\ntree ([3 1 4 2 5] 6)\n",
}


def blank_problems(folder, program):
    """The recipes, as `page_problems`, on the table of graves with a blank column and a blank line at its end."""
    furnish(folder, program)
    graves = os.path.join(folder, "examples", "graves.csv")
    with open(graves, encoding="utf-8") as stream:
        lines = stream.read().splitlines()
    with open(graves, "w", encoding="utf-8") as stream:
        stream.write("".join(f"{line},\n" for line in lines) + "\n")
    listed = commands(os.path.join("docs", "RECIPES.md"))
    missing = [shown for shown in WITH_BLANKS if shown not in dict(listed).values()]
    yield "what the recipes print", f"no recipe prints {missing}" if missing else None
    yield from run_problems([(command.replace("Ring,,,1,,1", "Ring,,,1,,1,"), WITH_BLANKS.get(shown, shown)) for command, shown in listed], folder)


def loose_commands(page):
    """The lines of a page that look like a command and are not run."""
    with open(os.path.join(HOME, page), encoding="utf-8") as stream:
        return [line for line in stream.read().split("\n") if line.startswith(INDENT + "./pq ")]
