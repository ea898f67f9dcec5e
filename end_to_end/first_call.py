#!/usr/bin/env python3
"""The first call of `./pq`, which proves and builds the program: that it goes on after an interruption, waits for another such call, tells
what is not proved, and leaves words, streams and status alone.

Usage: end_to_end/first_call.py

It is tried in a copy of what the call reads, with a stand-in for the toolchain: scripts of which one notes when a crate begins and ends,
and stays at a crate as long as a check holds it there. So the checks take seconds, depend on no pace, and say nothing of proofs.
The last line is `N passed, N failed`; the status is 0 where nothing failed.
"""

import os
import shlex
import shutil
import signal
import subprocess
import sys
import tempfile
import time

from program import HOME

sys.path.append(os.path.join(HOME, "scripts"))
import build  # noqa: E402  (it lies in the other folder)

SECONDS = 60
# The crates of the copy, each with those that it stands on: two chains that meet.
CRATES = {"low": [], "left": ["low"], "right": ["low"], "far": ["right"], "pq": ["left", "far", "csv"]}
LISTED = "# Each crate with those that it stands on.\n" + "".join(f"{name}: {' '.join(below)}\n" for name, below in CRATES.items())
PROVER = """#!/usr/bin/env python3
import os, sys, time
words = sys.argv[1:]
crate, made = words[words.index("--crate-name") + 1], words[words.index("-o") + 1]
top = os.path.dirname(os.path.dirname(os.getcwd()))

def note(what):
    with open(os.path.join(top, "notes"), "a") as notes:
        notes.write(f"{what} {crate}\\n")

def is_held():
    with open(os.path.join(top, "held")) as held:
        return crate in held.read().split()

if os.path.basename(os.getcwd()) != crate:
    sys.exit(f"{crate} is not in this folder")
for name, _, place in [word.partition("=") for at, word in enumerate(words) if words[at - 1] == "--extern"]:
    if name not in ("std", "csv") and not os.path.exists(os.path.join(place, "kept")):
        sys.exit(f"{name} is not built")
if "unproved" in open("src/lib.rt").read():
    print("error: the clause `sorted` is not proved\\nlogic=not-proved")
    sys.exit(1)
note("begins")
while is_held():
    time.sleep(0.01)
if "--statements" in words:
    os.makedirs(made)
    made = os.path.join(made, "kept")
open(made, "w").write("")
note("ends")
"""
LINKER = """#!/usr/bin/env python3
import os, sys
words = sys.argv[1:]
made = words[words.index("-o") + 1]
if not os.path.exists(words[words.index("-o") + 2]):
    sys.exit("the program is not built")
with open(made, "w") as program:
    program.write('#!/bin/sh\\nprintf "%s." "$@"; cat; echo to errors >&2; exit 7\\n')
os.chmod(made, 0o755)
"""
# Stand-ins for a C compiler: one by whose program `cc` is told, and one without the library that it needs.
COMPILERS = {"linked": LINKER.replace("to errors", "by cc, to errors"),
             "fails": "#!/bin/sh\necho cannot find -lc\nexit 1\n"}
WAITS = "pq: another call is building the program; waiting for it\n"
# What `./pq` runs besides the toolchain.
TOOLS = ["sh", "cat", "dirname", "find", "python3", "readlink"]


def heard():
    """Has a call hear the signals that it is sent, also where these checks were started with some ignored, as by `nohup`."""
    for number in (signal.SIGHUP, signal.SIGINT, signal.SIGTERM):
        signal.signal(number, signal.SIG_DFL)


class Copy:
    """A copy of what the first call reads, in a folder, with the stand-in for the toolchain."""

    def __init__(self, folder):
        self.folder = folder
        os.makedirs(self.path("scripts"))
        shutil.copy(os.path.join(HOME, "pq"), self.path("pq"))
        shutil.copy(os.path.join(HOME, "scripts", "build.py"), self.path("scripts", "build.py"))
        self.write("crates.txt", LISTED)
        self.hold()
        self.write("notes", "")
        for name in CRATES:
            os.makedirs(self.path("crates", name, "src"))
            self.write_source(name, f"{name}\n")
        os.mkdir(self.path("bin"))
        for tool in TOOLS:
            os.symlink(shutil.which(tool), self.path("bin", tool))
        for name, text in {"rt": "#!/bin/sh\n", "rattle": PROVER, "rattle-link": LINKER}.items():
            self.write(os.path.join("bin", name), text)
            os.chmod(self.path("bin", name), 0o755)

    def path(self, *names):
        """A path in the folder."""
        return os.path.join(self.folder, *names)

    def write(self, name, text):
        """Writes a file of the folder."""
        with open(self.path(name), "w", encoding="utf-8") as stream:
            stream.write(text)

    def write_source(self, crate, text):
        """Writes the source of a crate."""
        self.write(os.path.join("crates", crate, "src", "lib.rt"), text)

    def hold(self, *crates):
        """Has the stand-in stay at these crates, and at no other."""
        self.write("held", " ".join(crates))

    def notes(self):
        """What the stand-in noted so far."""
        with open(self.path("notes"), encoding="utf-8") as stream:
            return stream.read().splitlines()

    def start(self, *words):
        """A call that is begun. It leads a group of its own, as at a terminal."""
        return self.start_as([self.path("pq"), *words])

    def start_as(self, command):
        """A command that is begun, by which only the tools of the folder are found."""
        return subprocess.Popen(command, bufsize=0, env={**os.environ, "PATH": self.path("bin")}, stdin=subprocess.PIPE,
                                stdout=subprocess.PIPE, stderr=subprocess.PIPE, start_new_session=True, preexec_fn=heard)

    def wait_for(self, *notes):
        """Waits until the stand-in has noted all of these."""
        end = time.monotonic() + SECONDS
        while not set(notes) <= set(self.notes()) and time.monotonic() < end:
            time.sleep(0.01)

    def works_on(self):
        """The crates that the stand-in works on."""
        notes = [note.split() for note in self.notes()]
        return sorted(name for name in CRATES if [what for what, of in notes if of == name][-1:] == ["begins"])


def ended(call, content=b"in"):
    """What a call gave: its status, its output, and its errors."""
    output, errors = call.communicate(content, timeout=SECONDS)
    return call.returncode, output, (errors or b"").decode()


def answer_problem(given, words):
    """What is wrong with what a call gave whose program ran on these words, or None. What it told before is in the errors."""
    status, output, errors = given
    wanted = (7, b"".join(os.fsencode(word) + b"." for word in words) + b"in", True)
    return None if (status, output, errors.endswith("to errors\n")) == wanted else f"{given}"


def told_problem(errors, crates):
    """What is wrong with the lines about these crates, or None: one line for each, each after those that it stands on, with what is left."""
    lines = [line for line in errors.splitlines() if line.startswith("pq: proving ")]
    names = [line.split()[2] for line in lines]
    left = range(len(CRATES) - len(crates) + 1, len(CRATES) + 1)
    fits = sorted(names) == sorted(crates) and all(f"({number} of {len(CRATES)}), " in line and line.endswith(" left") for number, line in zip(left, lines))
    in_turn = all(names.index(below) < names.index(name) for name in names for below in CRATES[name] if below in names)
    return None if fits and in_turn else errors


def begun_problem(errors, words):
    """What is wrong with the first line, or None: it names what runs the program at once."""
    first = errors.splitlines()[0]
    fits = first.startswith("pq: the program is proved before its first run, ") and first.endswith("scripts/try.py " + shlex.join(words).encode(errors="backslashreplace").decode())
    return None if fits else errors


def once_problem(copy):
    """What is wrong with the work that was done in all, or None: each crate was proved once to its end."""
    ends = sorted(note for note in copy.notes() if note.startswith("ends "))
    return None if ends == sorted(f"ends {name}" for name in CRATES) else f"{copy.notes()}"


def from_nothing(copy):
    """A first call tells each crate, builds two side by side, and runs the program; a second one runs it at once."""
    words = ["solve", "a b", "", os.fsdecode(b"\xff")]
    if build.processors() > 1:
        copy.hold("left", "right")
    call = copy.start(*words)
    if build.processors() > 1:
        copy.wait_for("begins left", "begins right")
    both = copy.works_on()
    copy.hold()
    given = ended(call)
    again = ended(copy.start("-"))
    return (answer_problem(given, words) or begun_problem(given[2], words) or told_problem(given[2], CRATES) or once_problem(copy)
            or (None if build.processors() == 1 or both == ["left", "right"] else f"one after another: {copy.notes()}")
            or (None if again == (7, b"-.in", "to errors\n") else f"the second call: {again}"))


def interrupted(number, is_whole_group, copy):
    """A call that is ended by a signal while it builds, and then a second one, which goes on."""
    copy.hold("left", "right")
    first = copy.start("a")
    copy.wait_for("ends low", "begins right")
    (os.killpg if is_whole_group else os.kill)(first.pid, number)
    status, output, errors = ended(first)
    copy.hold()
    second = ended(copy.start("a"))
    wanted = -signal.SIGKILL if number == signal.SIGKILL else 130
    return ((None if (status, output) == (wanted, b"") else f"the first call: {status} {output} {errors}")
            or (None if number == signal.SIGKILL or errors.endswith("pq: stopped; the next call goes on from here\n") else errors)
            or (None if not copy.works_on() else f"at work after both calls: {copy.works_on()}")
            or answer_problem(second, "a") or left_problem(second[2]) or twice_problem(copy, ["low"]))


def left_problem(errors):
    """What is wrong with the lines of a call that goes on where one stopped which had built a crate, or None: no line tells of that crate."""
    told = {line.split()[2] for line in errors.splitlines() if line.startswith("pq: proving ")}
    return told_problem(errors, [name for name in CRATES if name in told]) or (None if "low" not in told else errors)


def twice_problem(copy, done):
    """What is wrong with the work that was done in all, or None: what was done when the first call ended was not done again."""
    begun = [name for name in done if copy.notes().count(f"begins {name}") != 1]
    return f"done twice: {begun}" if begun else once_problem(copy)


def one_waits(copy):
    """Two calls, of which the first is at work on a crate where it is held, and the second has said on a line, which is given, that it waits."""
    copy.hold("low")
    first = copy.start("a")
    copy.wait_for("begins low")
    second = copy.start("b")
    return first, second, second.stderr.readline().decode()


def two_at_once(copy):
    """Two first calls at the same time: each crate is proved once, and both run the program on their own words."""
    first, second, line = one_waits(copy)
    copy.hold()
    given = [ended(first), ended(second)]
    return (answer_problem(given[0], "a") or answer_problem(given[1], "b") or once_problem(copy)
            or (None if copy.notes().count("begins low") == 1 else f"{copy.notes()}")
            or (None if line == WAITS and WAITS not in given[0][2] else f"{line} {given}"))


def first_of_two_killed(copy):
    """A call that waits for another one builds the program itself where that one is killed."""
    first, second, line = one_waits(copy)
    os.kill(first.pid, signal.SIGKILL)
    ended(first)
    copy.hold()
    given = ended(second)
    return answer_problem(given, "b") or once_problem(copy) or (None if line == WAITS else line)


def not_proved(copy):
    """A crate that is not proved is named after the prover's own words; once it is mended the next call goes on."""
    copy.write_source("right", "unproved\n")
    copy.hold("left")
    status, output, errors = ended(copy.start("a"))
    copy.write_source("right", "right\n")
    copy.hold()
    second = ended(copy.start("a"))
    tail = "error: the clause `sorted` is not proved\nlogic=not-proved\npq: the crate right could not be proved and built\n"
    return ((None if (status, output) == (70, b"") and errors.endswith(tail) else f"{status} {output} {errors}")
            or (None if not copy.works_on() else f"at work: {copy.works_on()}")
            or answer_problem(second, "a") or twice_problem(copy, ["low"]))


def edited(copy):
    """After an edit the next call proves the crate that changed and those above it, and no other."""
    ended(copy.start("a"))
    time.sleep(0.05)
    copy.write_source("far", "far again\n")
    given = ended(copy.start("a"))
    again = [note for note in copy.notes() if note.startswith("begins")][len(CRATES):]
    return answer_problem(given, "a") or told_problem(given[2], ["far", "pq"]) or (None if again == ["begins far", "begins pq"] else f"{again}")


def edited_meanwhile(copy):
    """A source that changes while the call builds is proved by the next call."""
    copy.hold("right")
    first = copy.start("a")
    copy.wait_for("begins right")
    copy.write_source("low", "low again\n")
    copy.hold()
    ended(first)
    given = ended(copy.start("a"))
    return answer_problem(given, "a") or told_problem(given[2], CRATES)


def linked_by(compiler, copy):
    """The program is linked by the C compiler where this can do it, and else by the toolchain."""
    copy.write(os.path.join("bin", "cc"), COMPILERS[compiler])
    os.chmod(copy.path("bin", "cc"), 0o755)
    given = ended(copy.start("a"))
    is_by_cc = given[2].endswith("by cc, to errors\n")
    return answer_problem(given, "a") or (None if is_by_cc == (compiler == "linked") and "-lc" not in given[2] else given[2])


def no_toolchain(copy):
    """Without the toolchain the status is 70, with one line."""
    os.remove(copy.path("bin", "rt"))
    status, output, errors = ended(copy.start("a"))
    fits = (status, output) == (70, b"") and errors.splitlines()[-1].startswith("pq: the toolchain of Rattle is missing")
    return None if fits and "Traceback" not in errors else f"{status} {output} {errors}"


def no_folder(copy):
    """Where the folder of the program can't be made the status is 70, with one line."""
    copy.write(os.path.join("crates", "pq", "out"), "a file")
    status, output, errors = ended(copy.start("a"))
    fits = (status, output) == (70, b"") and errors.splitlines()[-1].startswith("pq: the program could not be built")
    return None if fits and "Traceback" not in errors else f"{status} {output} {errors}"


def elsewhere(copy):
    """A copy of `./pq` outside its checkout ends with status 70 and says to make a link, and a link runs the program."""
    away = copy.path("away")
    os.mkdir(away)
    shutil.copy(copy.path("pq"), os.path.join(away, "copy"))
    os.symlink(copy.path("pq"), os.path.join(away, "link"))
    status, output, errors = ended(copy.start_as([os.path.join(away, "copy"), "a"]))
    fits = (status, output, errors) == (70, b"", "pq: this copy of ./pq is not in its checkout: make a link to it instead\n")
    return answer_problem(ended(copy.start_as([os.path.join(away, "link"), "a"])), "a") if fits else f"{status} {output} {errors}"


def closed(number, copy):
    """One of the three streams is closed: nothing that is told goes to another one, and the program finds it closed."""
    status, output, errors = ended(copy.start_as(["sh", "-c", f'exec "$@" {number}>&-', "", copy.path("pq"), "a"]))
    wanted = {0: (7, b"a."), 1: (7, b""), 2: (7, b"a.in")}[number]
    tells = number == 2 or errors.count("pq: proving ") == len(CRATES)
    return None if (status, output) == wanted and tells else f"{status} {output} {errors}"


def named(check):
    """What a check shows, in the words of its first line."""
    return check.__doc__.split(":")[0].split(".")[0]


def checks():
    """Each check, with its name."""
    for check in [from_nothing, two_at_once, first_of_two_killed, not_proved, edited, edited_meanwhile, no_toolchain, no_folder, elsewhere]:
        yield named(check), check
    for number in (signal.SIGINT, signal.SIGTERM, signal.SIGHUP, signal.SIGKILL):
        for is_whole_group in (False, True):
            name = f"{number.name} to {'the group of the call' if is_whole_group else 'the call alone'}"
            yield name, lambda copy, given=(number, is_whole_group): interrupted(*given, copy)
    for compiler, name in [("linked", "a C compiler"), ("fails", "a C compiler without a static library")]:
        yield f"linked with {name} at hand", lambda copy, compiler=compiler: linked_by(compiler, copy)
    for number, stream in enumerate(["standard input", "standard output", "standard error"]):
        yield f"{stream} is closed", lambda copy, number=number: closed(number, copy)


def problems():
    """Each check with what is wrong, or None."""
    for name, check in checks():
        with tempfile.TemporaryDirectory() as folder:
            try:
                problem = check(Copy(os.path.join(folder, "copy")))
            except subprocess.TimeoutExpired:
                problem = f"no end within {SECONDS} seconds"
        yield f"first call: {name}", problem


def main():
    found = list(problems())
    for name, problem in found:
        if problem is not None:
            print(f"FAILED {name}: {problem}")
    failed = sum(problem is not None for _, problem in found)
    print(f"{len(found) - failed} passed, {failed} failed")
    return 1 if failed else 0


if __name__ == "__main__":
    sys.exit(main())
