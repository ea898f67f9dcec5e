#!/usr/bin/env python3
"""Runs a command of the toolchain, and says for each crate how long its proof, its tests and its must-fail edits took.

Usage: scripts/gate_times.py rt ci            prints what the command prints, then what each edit took, and then the table
       scripts/gate_times.py write rt ci      and writes the table into docs/WORKING.md as well

Seconds are of the processor, by looks at the prover's processes five times a second: of each process the last look counts, so some tenths
of a second of each are missing. From and to are minutes of the run. The longest chain is that of crates which stand on one another whose
proofs took the most together: with any number of processors, one to a crate, the run can't be shorter. The status is the command's.
"""

import functools
import os
import resource
import subprocess
import sys
import threading
import time

import build

PAGE = os.path.join("docs", "WORKING.md")
BEGIN, END = "<!-- Begin of the table that scripts/gate_times.py makes -->", "<!-- End of the table that scripts/gate_times.py makes -->"
SECONDS_BETWEEN_LOOKS = 0.2
TICKS = os.sysconf("SC_CLK_TCK")
KINDS = ["proof", "tests", "edits"]
# What the edits of a crate are tried over: its own proof, made once more.
UNEDITED = "its own proof"


class Look:
    """What was seen of a process of the prover: what it works on, by which edit, its processor time, and when it was seen first and last."""

    def __init__(self, task, edit, now):
        self.task, self.edit, self.first, self.last, self.seconds = task, edit, now, now, 0.0


def task_of(pid):
    """The crate that a process proves, and whether it is at its proof, its tests or an edit; None for another process."""
    with open(f"/proc/{pid}/cmdline", "rb") as stream:
        words = stream.read().decode(errors="replace").split("\0")
    if not words[0].endswith("/rattle") or "--crate-name" not in words:
        return None
    kind = "edits" if "rt-edit-" in os.readlink(f"/proc/{pid}/cwd") else "tests" if "--test" in words else "proof"
    return words[words.index("--crate-name") + 1], kind


def read(path):
    """The text of a file."""
    with open(path, encoding="utf-8") as stream:
        return stream.read()


def first_change(edit):
    """The file that an edit changes first, the text that it looks for there, and what it puts in its place."""
    words = {}
    for word, _, rest in (line.partition(":") for line in edit.split("\n")):
        words.setdefault(word, rest.removeprefix(" "))
        if word == "new":
            break
    return words["file"].strip(), words["old"], words["new"]


@functools.cache
def edits_of(crate):
    """The must-fail edits of a crate: for each its name, and a file that it changes with the text that it has then."""
    top = os.path.join(build.HOME, "crates", crate)
    found = []
    for name in sorted(os.listdir(os.path.join(top, "must-fail"))):
        path, old, new = first_change(read(os.path.join(top, "must-fail", name)))
        found.append((name.removesuffix(".edit"), path, read(os.path.join(top, path)).replace(old, new)))
    return found


def edit_of(pid, task):
    """By which edit a crate is changed, as far as the first change of each shows it."""
    if task is None or task[1] != "edits":
        return None
    changed = (name for name, path, text in edits_of(task[0]) if read(f"/proc/{pid}/cwd/{path}") == text)
    return next(changed, UNEDITED)


def descendants(top):
    """The processes below one, by number and moment of their start, with their processor seconds, without those of their children. A number
    is given again once its process has ended."""
    parents, seconds, starts = {}, {}, {}
    for name in filter(str.isdigit, os.listdir("/proc")):
        try:
            with open(f"/proc/{name}/stat", encoding="utf-8", errors="replace") as stream:
                fields = stream.read().rpartition(")")[2].split()
        except OSError:
            continue
        parents[int(name)] = int(fields[1])
        seconds[int(name)] = (int(fields[11]) + int(fields[12])) / TICKS
        starts[int(name)] = int(fields[19])
    found, grown = {top}, True
    while grown:
        below = {pid for pid, parent in parents.items() if parent in found} - found
        found |= below
        grown = bool(below)
    return {(pid, starts[pid]): seconds[pid] for pid in found if pid in seconds}


def watch(process, looks):
    """Looks at the prover's processes until the command has ended."""
    begun = time.monotonic()
    while process.poll() is None:
        now = time.monotonic() - begun
        for key, seconds in descendants(process.pid).items():
            pid = key[0]
            try:
                look = looks.get(key)
                if look is None:
                    task = task_of(pid)
                    look = Look(task, edit_of(pid, task), now)
            except OSError:
                continue
            if look.task:
                looks[key] = look
                look.last, look.seconds = now, seconds
        time.sleep(SECONDS_BETWEEN_LOOKS)


def together(looks):
    """For each crate and kind of work the processor seconds, and when it began and ended."""
    found = {}
    for look in looks.values():
        seconds, first, last = found.get(look.task, (0.0, look.first, look.last))
        found[look.task] = (seconds + look.seconds, min(first, look.first), max(last, look.last))
    return found


def lines_of_edits(looks):
    """What each edit took, the dearest first, one a line; a crate with several edits is proved once more, and checked, without one."""
    found = {}
    for look in looks.values():
        if look.edit:
            found[look.task[0], look.edit] = found.get((look.task[0], look.edit), 0.0) + look.seconds
    return [f"{seconds:.0f} s: {crate}, {edit}" for (crate, edit), seconds in sorted(found.items(), key=lambda one: -one[1])]


def longest_chain(found):
    """The chain of crates, lowest first, whose proofs took the most together, and the seconds of the processor that they took."""
    crates, chains = build.stands_on(), {}

    def chain(name):
        if name not in chains:
            below = max((chain(one) for one in crates[name]), default=(0.0, []))
            seconds = found.get((name, "proof"), (0.0, 0.0, 0.0))[0]
            chains[name] = (below[0] + seconds, below[1] + [name] * (seconds > 0))
        return chains[name]

    return max(chain(name) for name in crates)


def table(found, minutes, processor):
    """The table as lines of a page."""
    rows = ["| Crate | Proof | Tests | Edits | From, to |", "|---|---|---|---|---|"]
    sums = dict.fromkeys(KINDS, 0.0)
    for crate in build.stands_on():
        mine = {kind: found[crate, kind] for kind in KINDS if (crate, kind) in found}
        if mine:
            cells = [f"{mine[kind][0]:.0f}" if kind in mine else "" for kind in KINDS]
            first, last = min(one[1] for one in mine.values()), max(one[2] for one in mine.values())
            rows.append(f"| `{crate}` | {' | '.join(cells)} | {first / 60:.1f}, {last / 60:.1f} |")
        for kind in mine:
            sums[kind] += mine[kind][0]
    rows.append(f"| together | {' | '.join(f'{sums[kind]:.0f}' for kind in KINDS)} | 0.0, {minutes:.1f} |")
    length, chain = longest_chain(found)
    told = subprocess.run(["git", "rev-parse", "--short", "HEAD"], cwd=build.HOME, capture_output=True, text=True, check=False).stdout.strip()
    return rows + ["", f"Measured at commit {told} on {len(os.sched_getaffinity(0))} processors: {minutes:.0f} minutes by the clock, "
                   f"{processor / 60:.0f} of the processors. The longest chain of proofs, {length:.0f} seconds: {', '.join(f'`{one}`' for one in chain)}."]


def write(lines):
    """Puts the table into the page."""
    path = os.path.join(build.HOME, PAGE)
    with open(path, encoding="utf-8") as stream:
        before, _, rest = stream.read().partition(BEGIN)
    with open(path, "w", encoding="utf-8") as stream:
        stream.write(before + BEGIN + "\n\n" + "\n".join(lines) + "\n\n" + END + rest.partition(END)[2])


def main(words):
    is_written = words[:1] == ["write"]
    words = words[is_written:]
    if not words:
        sys.exit(__doc__)
    begun, looks = time.monotonic(), {}
    process = subprocess.Popen(words)
    watcher = threading.Thread(target=watch, args=(process, looks))
    watcher.start()
    status = process.wait()
    watcher.join()
    used = resource.getrusage(resource.RUSAGE_CHILDREN)
    lines = table(together(looks), (time.monotonic() - begun) / 60, used.ru_utime + used.ru_stime)
    print("\n".join(lines_of_edits(looks) + lines))
    if is_written:
        write(lines)
    return status


if __name__ == "__main__":
    sys.exit(main(sys.argv[1:]))
