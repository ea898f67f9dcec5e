#!/usr/bin/env python3
"""Finds the goals of a crate that the prover closes late, and writes down as their answers what closes them.

Usage: scripts/answers.py CRATE [SECONDS]      after a call of `./pq`, over whose libraries the crate is checked

For a goal without an answer the prover tries several ways in turn. If only the last closes it, those before may cost seconds. The script
looks at each function whose goals took the prover at least SECONDS of the processor (1 if left out). A goal that the first way closes stays
without an answer. For each other goal it tries two short terms, and writes them into the function's Answers.antt. They stay there if the
function then takes a quarter and three tenths of a second less. It prints what it did. The first check proves the whole crate, and each
further one what changed. Look at the changes before you commit them; `rt tidy` drops imports that nothing uses.

The status is 0, or 1 where the crate is not proved.
"""

import bisect
import collections
import os
import re
import shutil
import subprocess
import sys
import tempfile
import time

import build

TICKS = os.sysconf("SC_CLK_TCK")
SECONDS_BETWEEN_LOOKS = 0.02
# The first way that the prover tries, and the terms that are tried after it, with the names that they want.
FIRST_WAY = "search rules"
TERMS = {FIRST_WAY: ["rules"], "omega arith": ["arith"], "grind (arith, common_steps)": ["arith", "common_steps"]}
COMMON = "use Rattle.std.proofs.Common.{"
STEPS = "use Rattle.std.proofs.lemmas.Grind.{common_steps}"
LEAST_GAIN, LEAST_SHARE = 0.3, 0.25


class Checked:
    """What a check came to: its status, its lines, and the processor seconds of each module that it made."""

    def __init__(self, status, lines, seconds):
        self.status, self.lines, self.seconds = status, lines, seconds


class Crate:
    """A crate, and the folder that keeps what was checked of it."""

    def __init__(self, name):
        self.name, self.house = name, build.House(name)
        self.folder = build.folder_of(name)
        self.kept = build.made("answers", name)
        shutil.rmtree(self.kept, ignore_errors=True)
        os.makedirs(self.kept)

    def words(self, *more):
        """The command that checks the crate."""
        kit = self.house.toolchain.path
        found = [self.house.toolchain.prover, "check", "--crate-name", self.name, "src/lib.rt"]
        for one in ["std", *self.house.listed[self.name]]:
            found += ["--extern", f"{one}={self.house.rlib(one) if one in self.house.crates else kit('rlibs', one + '.rlib')}"]
        found += ["-L", f"dependency={kit('rlibs')}", "-L", f"dependency={build.made('statements')}"]
        found += ["--antt-project", kit("rattle", "logic", "antt-project.json"), "--logic-built", kit("logic_built")]
        return [*found, "--links", f"{self.name}=", "--jobs", "1", "--incremental", self.kept, *more]

    def check(self, *more):
        """Checks the crate."""
        begun, looks = time.time(), []
        with tempfile.TemporaryFile() as log:
            process = subprocess.Popen(self.words(*more), cwd=self.folder, stdin=subprocess.DEVNULL, stdout=log, stderr=subprocess.STDOUT)
            while process.poll() is None:
                looks.append((time.time(), spent(process.pid)))
                time.sleep(SECONDS_BETWEEN_LOOKS)
            log.seek(0)
            lines = log.read().decode(errors="replace").split("\n")
        return Checked(process.returncode, lines, self.seconds(begun, looks))

    def seconds(self, begun, looks):
        """The processor seconds of each module that was made since a check began, by when its file was written."""
        made = sorted((os.stat(path).st_mtime, os.path.basename(path).split(".oantt")[0]) for path in self.kept_files(""))
        moments, found, last = [moment for moment, _ in looks], collections.Counter(), None
        for moment, name in made:
            if moment >= begun:
                now = looks[max(0, bisect.bisect(moments, moment) - 1)][1]
                found[name.removesuffix(".decls").removesuffix(".statement")] += 0.0 if last is None else max(0.0, now - last)
                last = now
        return found

    def kept_files(self, start):
        """The files of checked modules whose names begin so."""
        for place, _, names in os.walk(self.kept):
            yield from (os.path.join(place, name) for name in names if name.startswith(start) and name.endswith(".oantt"))

    def module(self, function, kind):
        """The name of a module of a function."""
        return f"Rattle-{self.name}-proofs.{function}.{kind}"

    def forget(self, function):
        """Forgets what was checked of a function's goals, so that they are checked anew."""
        for kind in ["Proof", "Answers"]:
            for path in list(self.kept_files(self.module(function, kind) + ".")):
                os.remove(path)

    def cost(self, checked, function):
        """The processor seconds of a function's goals."""
        return checked.seconds[self.module(function, "Proof")] + checked.seconds[self.module(function, "Answers")]

    def dear(self, checked, least):
        """The functions whose goals took so many seconds at the least. Those in a cycle of calls are left out."""
        start, end = self.module("", "")[:-1], ".Proof"
        names = [name[len(start):-len(end)] for name in checked.seconds if name.startswith(start) and name.endswith(end)]
        return [name for name in names if "+" not in name and self.cost(checked, name) >= least]

    def goals(self, functions):
        """For each function its goals, with the names by which an answer takes what is known."""
        found = {}
        with tempfile.TemporaryDirectory() as room:
            starts = [word for function in functions for word in ("--start", function.replace(".", "::"))]
            subprocess.run(self.words("--generated", room, *starts), cwd=self.folder, capture_output=True, check=False)
            for function in functions:
                path = os.path.join(room, f"Rattle-{self.name}-proofs", *function.split("."), "AnswersOffered.antt")
                text = build.text_of(path).decode() if os.path.exists(path) else ""
                found[function] = dict(re.findall(r"^(\S+) (.*?) ?= \?$", text, re.M))
        return found


class Answers:
    """The answers of a function's goals: those that it has, and those that are tried."""

    def __init__(self, crate, function, goals):
        self.crate, self.function = crate, function
        self.path = os.path.join(crate.folder, "proofs", *function.split("."), "Answers.antt")
        self.old = build.text_of(self.path).decode() if os.path.exists(self.path) else None
        answered = re.findall(r"^pub (\S+) : goal\.", self.old or "", re.M)
        self.known = {goal: known for goal, known in goals.items() if not is_answered(goal, answered)}
        # The goals that no term closed so far, and what closes the others but for those that the first way closes.
        self.left, self.terms = set(self.known), {}

    def attempt(self, term):
        """Writes the answers that were found, and this term for each goal that is left."""
        self.save({**self.terms, **dict.fromkeys(sorted(self.left), term)})

    def save(self, terms):
        """Writes the file with these answers besides what it has."""
        goals = f"use Rattle.{self.crate.name}.proofs.{self.function}.Goals as goal"
        os.makedirs(os.path.dirname(self.path), exist_ok=True)
        with open(self.path, "w", encoding="utf-8") as stream:
            stream.write(with_answers((self.old or "").rstrip("\n"), goals, {goal: (self.known[goal], term) for goal, term in terms.items()}))

    def sort(self, term, lines):
        """Takes the goals that the term closes, by the lines of a check."""
        refused = self.refused(lines)
        if term != FIRST_WAY:
            self.terms.update(dict.fromkeys(sorted(self.left - refused), term))
        self.left &= refused

    def refused(self, lines):
        """The goals whose answers a check refuses."""
        text = build.text_of(self.path).decode().split("\n")
        found = set()
        for line in lines:
            told = re.match(r"\./(\S+):(\d+):\d+: (?:error|`)", line)
            if told and os.path.join(self.crate.folder, told[1]) == self.path:
                heads = [re.match(r"(?:pub )?(\S+)", one)[1] for one in text[:int(told[2])] if re.match(r"pub \S+ :|\S+ .*= ", one)]
                found.update(heads[-1:])
        return found

    def restore(self):
        """Writes the file as it was, or takes it away."""
        if self.old is not None:
            with open(self.path, "w", encoding="utf-8") as stream:
                stream.write(self.old)
        elif os.path.exists(self.path):
            os.remove(self.path)
            place = os.path.dirname(self.path)
            while not os.listdir(place):
                os.rmdir(place)
                place = os.path.dirname(place)


def spent(pid):
    """The processor seconds of a process, as far as it still runs."""
    try:
        with open(f"/proc/{pid}/stat", encoding="utf-8", errors="replace") as stream:
            fields = stream.read().rpartition(")")[2].split()
        return (int(fields[11]) + int(fields[12])) / TICKS
    except OSError:
        return 0.0


def is_answered(goal, answered):
    """Whether a goal, one that holds it, or one of its clauses has an answer."""
    return any(goal == one or goal.startswith(one + "-clause-") or one.startswith(goal + "-clause-") for one in answered)


def with_answers(text, goals, answers):
    """The text of a file of answers with more of them: for each goal the names of what is known, and a term."""
    lines = text.split("\n") if text else []
    wanted = sorted({name for _, term in answers.values() for name in TERMS[term]})
    common = [name for name in wanted if name != "common_steps"]
    at = next((i for i, line in enumerate(lines) if line.startswith(COMMON)), None)
    if at is None and common:
        lines.insert(0, COMMON + ", ".join(common) + "}")
    elif common:
        names = lines[at][len(COMMON):lines[at].rindex("}")].split(", ")
        lines[at] = COMMON + ", ".join(names + [name for name in common if name not in names]) + "}"
    if "common_steps" in wanted and not any("common_steps" in line for line in lines):
        lines.insert(1, STEPS)
    if goals not in lines:
        lines.insert(1 + max((i for i, line in enumerate(lines) if line.startswith("use ")), default=-1), goals)
    for goal, (known, term) in answers.items():
        lines += ["", f"pub {goal} : goal.{goal}", f"{goal} {known} = {term}"]
    return "\n".join(lines) + "\n"


def closed(crate, functions):
    """What closes the goals of these functions, with their files written so."""
    found = [Answers(crate, function, goals) for function, goals in crate.goals(functions).items()]
    for term in TERMS:
        for one in found:
            one.attempt(term)
        told = crate.check("--allow-holes")
        for one in found:
            one.sort(term, told.lines)
    for one in found:
        if one.terms:
            one.save(one.terms)
        else:
            one.restore()
    return [one for one in found if one.terms]


def judge(crate, before, found):
    """Keeps the answers that save enough, and says what they save."""
    for one in found:
        crate.forget(one.function)
    after = crate.check()
    if after.status:
        for one in found:
            one.restore()
        return f"{crate.name} is not proved with them, so nothing was changed"
    saved = 0.0
    for one in found:
        old, new = crate.cost(before, one.function), crate.cost(after, one.function)
        if old - new < max(LEAST_GAIN, LEAST_SHARE * old):
            one.restore()
        else:
            saved += old - new
            print(f"{one.function}: {old:.1f} s, now {new:.1f}, by {len(one.terms)} answers", flush=True)
    return f"{crate.name}: {saved:.1f} s less"


def main(words):
    """Looks for answers in one crate."""
    crate, least = Crate(words[0]), float(words[1]) if words[1:] else 1.0
    before = crate.check()
    if before.status:
        sys.exit(f"answers.py: {crate.name} is not proved as it is")
    found = closed(crate, crate.dear(before, least))
    print(judge(crate, before, found) if found else f"{crate.name}: no answer was found")


if __name__ == "__main__":
    if not sys.argv[1:] or len(sys.argv) > 3:
        sys.exit(__doc__)
    main(sys.argv[1:])
