#!/usr/bin/env python3
"""Proves and builds the program: each crate as soon as those that it uses are built, with all processors.

Usage: scripts/build.py [run WORDS]     `./pq` calls it where the program is missing or older than a source, and has it run afterwards

A library is built by its statements, as in the gate: all of it is proved, and what a crate above reads of it is what can be cited. So no
proof is read twice. The longest chain of crates, of which each uses the one before, is begun first, by the seconds that their proofs took when they
were last measured (the table of docs/WORKING.md).

It names each crate on standard error as it begins, with the minutes that are left. What was built stays: a call after an interrupted one
goes on with the crates that are left, and a second call at the same time waits for the first. The status is that of the run, or 0 without
one; 70 where a crate isn't proved, after the prover's own words, or where the toolchain is missing or the disk refuses; 130 where it was
interrupted.
"""

import contextlib
import ctypes
import fcntl
import hashlib
import os
import re
import shlex
import shutil
import signal
import subprocess
import sys
import tempfile
import time

HOME = os.path.dirname(os.path.dirname(os.path.abspath(__file__)))
PROGRAM = "pq"
LISTED = os.path.join(HOME, "crates.txt")
MEASURED = os.path.join(HOME, "docs", "WORKING.md")
TRY = os.path.join(HOME, "scripts", "try.py")
PARTS = ("src", "specs", "proofs")
FAILED = 70
INTERRUPTED = 130
# A terminal that is closed sends the first, Ctrl-C the second, and `kill` the third.
INTERRUPTIONS = [signal.SIGHUP, signal.SIGINT, signal.SIGTERM]
BYTES_A_CRATE = 3 << 30
MOST_JOBS = 4
SECONDS_BETWEEN_LOOKS = 0.05
# The number of Linux's `prctl` by which a process asks for a signal at the end of the one that started it.
PR_SET_PDEATHSIG = 1
# The prover's allocator keeps what is freed for the next use. To give it back and take it anew cost some 5 % of the processor's time, measured
# on one crate that was proved four times side by side.
PROVER_KEEPS_MEMORY = {"MIMALLOC_PURGE_DELAY": "-1"}
# For a crate whose proof wasn't measured yet.
SECONDS_A_CRATE, LINES_A_SECOND = 6, 27


def folder_of(crate):
    """The folder of a crate."""
    return os.path.join(HOME, "crates", crate)


def made(*names):
    """The path of a file that is made, in the program's folder."""
    return os.path.join(folder_of(PROGRAM), "out", *names)


def lines_of_list():
    """Each crate of the repository with the crates and libraries that it stands on."""
    listed = {}
    with open(LISTED, encoding="utf-8") as stream:
        for line in stream:
            name, colon, below = line.split("#")[0].partition(":")
            if colon:
                listed[name.split()[0]] = below.split()
    return listed


def stands_on():
    """Each crate of the repository with the crates of the repository that it stands on."""
    listed = lines_of_list()
    return {name: [one for one in below if one in listed] for name, below in listed.items()}


def needed(crates, top):
    """The crates that a crate stands on, near or far, and the crate itself as the last."""
    found = []
    for one in crates[top]:
        found.extend(name for name in needed(crates, one) if name not in found)
    return found + [top]


def sources(crate):
    """The files of a crate's sources, definitions and proofs."""
    for part in PARTS:
        for place, folders, names in os.walk(os.path.join(folder_of(crate), part)):
            folders.sort()
            yield from (os.path.join(place, name) for name in sorted(names))


def sum_of_texts(crate):
    """A sum of a crate's sources, definitions and proofs."""
    found = hashlib.sha256()
    for path in sources(crate):
        found.update(repr((os.path.relpath(path, HOME), text_of(path))).encode())
    return found.hexdigest()


def seconds_of(names):
    """The seconds of one processor that the proof of each crate took when it was last measured, or a guess by its lines."""
    table = ""
    if os.path.exists(MEASURED):
        with open(MEASURED, encoding="utf-8") as stream:
            table = stream.read()
    found = {name: int(seconds) for name, seconds in re.findall(r"^\| `(\w+)` \| (\d+) \|", table, re.M)}
    for name in names:
        if name not in found:
            found[name] = SECONDS_A_CRATE + sum(text_of(path).count(b"\n") for path in sources(name)) // LINES_A_SECOND
    return found


def text_of(path):
    """The bytes of a file."""
    with open(path, "rb") as stream:
        return stream.read()


def chains(crates, names, seconds):
    """For each crate the seconds of the longest chain of crates that stand on one another from it up: the longest is begun first."""
    found = {}
    for name in reversed(names):
        found[name] = seconds[name] + max((found[one] for one in names if name in crates[one]), default=0)
    return found


def processors():
    """How many processors prove at a time: fewer where the memory is small."""
    memory = os.sysconf("SC_PAGE_SIZE") * os.sysconf("SC_PHYS_PAGES")
    return max(1, min(len(os.sched_getaffinity(0)), memory // BYTES_A_CRATE))


class Toolchain:
    """Where the toolchain lies."""

    def __init__(self):
        command = shutil.which("rt")
        if command is None:
            raise FileNotFoundError(2, "there is no command", "rt")
        self.kit = os.path.dirname(os.path.dirname(os.path.realpath(command)))
        self.prover = os.path.join(self.kit, "bin", "rattle")
        self.linker = os.path.join(self.kit, "bin", "rattle-link")

    def path(self, *names):
        """A path in its folder."""
        return os.path.join(self.kit, *names)

    def linking(self, program, new):
        """The command by which the toolchain links a program, which loads the C library at its start."""
        return [self.linker, "--target", "x86_64-unknown-linux-gnu", "--toolchain", self.path("toolchain"), "-o", new, *self.parts(program)]

    def linking_alone(self, program, new):
        """The command by which a C compiler links a program that has the C library in it."""
        return ["cc", "-static", "-no-pie", "-Wl,-z,noseparate-code", "-o", new, *self.parts(program)]

    def parts(self, program):
        """What is linked into a program besides the C library."""
        return [program, self.path("c", "libos_c.a"), self.path("c", "liblibc_c.a")]

    def sum(self):
        """A sum that tells one toolchain from another."""
        what = self.path("WHAT")
        return text_of(what) if os.path.exists(what) else b""


class House:
    """The crates of the repository that the program needs, or another top, and what is built of each."""

    def __init__(self, top=PROGRAM):
        self.top = top
        self.listed = lines_of_list()
        self.crates = stands_on()
        self.names = needed(self.crates, top)
        self.toolchain = Toolchain()
        self.begun = time.time()
        self.texts, self.stamps = {}, {}
        for name in self.names:
            self.texts[name] = sum_of_texts(name)
            self.stamps[name] = self.stamp(name)

    def rlib(self, crate):
        """Where the built library of a crate lies."""
        return made("statements", f"{crate}.rlib")

    def new_rlib(self, crate):
        """Where the library of a crate lies until it is whole. The folder is this call's own."""
        return made("new", str(os.getpid()), f"{crate}.rlib")

    def stamp_file(self, crate):
        """Where it is noted of which texts the crate was built."""
        return made("statements", f"{crate}.stamp")

    def stamp(self, crate):
        """A sum of all that the crate is built of, as it was when the call began; those of the crates below are there."""
        told = repr((self.toolchain.sum(), self.listed[crate], self.texts[crate], [self.stamps[one] for one in self.crates[crate]]))
        return hashlib.sha256(told.encode()).hexdigest()

    def is_built(self, crate):
        """Whether the crate was built of the texts as they are."""
        path = self.stamp_file(crate)
        return os.path.exists(path) and text_of(path).decode() == self.stamps[crate]

    def take_over(self, crate):
        """Whether the gate left a library of the crate after all that it is built of was written; it is then taken. The gate makes the
        folder anew in each run, also where it keeps what is in it."""
        left = os.path.join(folder_of(crate), "out", "rlib", f"{crate}.rlib")
        if not os.path.exists(os.path.join(left, "format")) or os.path.getmtime(left) < self.newest(crate):
            return False
        shutil.rmtree(self.rlib(crate), ignore_errors=True)
        shutil.copytree(left, self.rlib(crate), copy_function=os.link)
        with open(self.stamp_file(crate), "w", encoding="utf-8") as stream:
            stream.write(self.stamps[crate])
        return True

    def newest(self, crate):
        """When the newest file was written of those that the crate is built of, or that a crate below is."""
        files = [path for one in needed(self.crates, crate) for path in sources(one)]
        return max(map(os.path.getmtime, [LISTED, *files]))

    def keep(self, crate):
        """Puts a crate that was built in its place, and notes of which texts it was built, unless they changed since the call began."""
        if crate == self.top:
            return
        os.rename(self.new_rlib(crate), self.rlib(crate))
        if sum_of_texts(crate) != self.texts[crate]:
            return
        with open(self.stamp_file(crate), "w", encoding="utf-8") as stream:
            stream.write(self.stamps[crate])

    def words(self, crate, jobs):
        """The command that proves and builds a crate."""
        kit = self.toolchain.path
        found = [self.toolchain.prover, "build", "--crate-name", crate, "src/main.rt" if crate == PROGRAM else "src/lib.rt"]
        for one in ["std", *self.listed[crate]]:
            found += ["--extern", f"{one}={self.rlib(one) if one in self.crates else kit('rlibs', one + '.rlib')}"]
        found += ["-L", f"dependency={kit('rlibs')}", "-L", f"dependency={made('statements')}"]
        found += ["--antt-project", kit("rattle", "logic", "antt-project.json"), "--logic-built", kit("logic_built"), "--links", f"{crate}="]
        found += ["--jobs", str(jobs)]
        if crate == PROGRAM:
            return [*found, "--toolchain", kit("toolchain"), "--backend", "llvm", "-o", made(f"{PROGRAM}.o")]
        if crate == self.top:
            return [*found, *self.as_top()]
        return [*found, "--statements", "-o", self.new_rlib(crate)]

    def as_top(self):
        """The words by which another top than the program is built."""
        raise NotImplementedError

    def link(self):
        """Links the program, which takes the place of an older one at once: with the C library in it, so that no loader runs at its start,
        where a C compiler has that, and else as the toolchain does."""
        program, new = made(f"{PROGRAM}.o"), made(f"{PROGRAM}.new")
        alone, usual = self.toolchain.linking_alone(program, new), self.toolchain.linking(program, new)
        if told_by(alone) and (why_not := told_by(usual)):
            raise OSError(why_not)
        # A source that changed since the call began is newer than the program.
        os.utime(new, (self.begun, self.begun))
        os.rename(new, program_file())


def told_by(command):
    """What a command told that failed, or why it could not be begun, or None where it did its work."""
    try:
        done = subprocess.run(command, stdin=subprocess.DEVNULL, stdout=subprocess.PIPE, stderr=subprocess.STDOUT, check=False)
    except OSError as error:
        return str(error)
    return done.stdout.decode(errors="replace") or f"{command[0]} ended with {done.returncode}" if done.returncode else None


def ends_with_its_caller():
    """Has a process that is begun end when this one does, also where this one is killed."""
    ctypes.CDLL(None).prctl(PR_SET_PDEATHSIG, signal.SIGTERM)


class Building:
    """A crate that is being built: its process, and what the prover prints."""

    def __init__(self, house, crate, jobs):
        self.crate, self.jobs, self.begun = crate, jobs, time.monotonic()
        self.log = tempfile.TemporaryFile()
        with contextlib.suppress(FileNotFoundError):
            os.remove(house.stamp_file(crate))
        shutil.rmtree(house.rlib(crate), ignore_errors=True)
        self.process = subprocess.Popen(house.words(crate, jobs), cwd=folder_of(crate), env={**PROVER_KEEPS_MEMORY, **os.environ},
                                        stdin=subprocess.DEVNULL, stdout=self.log, stderr=subprocess.STDOUT, start_new_session=True,
                                        preexec_fn=ends_with_its_caller)

    def has_ended(self):
        """Whether the prover is done."""
        return self.process.poll() is not None

    def is_built(self):
        """Whether the crate is proved and built."""
        return self.process.returncode == 0

    def seconds(self):
        """How long it has taken so far."""
        return time.monotonic() - self.begun

    def words(self):
        """What the prover printed."""
        self.log.seek(0)
        return self.log.read().decode(errors="replace")

    def stop(self):
        """Ends it and what it started."""
        with contextlib.suppress(ProcessLookupError):
            os.killpg(self.process.pid, signal.SIGTERM)
        self.process.wait()


class Plan:
    """Which crate comes next, and how long all of them take."""

    def __init__(self, crates, names):
        self.crates, self.names = crates, names
        self.seconds = seconds_of(names)
        self.chain = chains(crates, names, self.seconds)
        # What the crates took that are built, by the clock, and what was expected of them.
        self.took, self.expected = 0.0, 0.0

    def ready(self, waiting, built):
        """The crates that can begin, that of the longest chain first."""
        return sorted((one for one in waiting if built.issuperset(self.crates[one])), key=self.chain.get, reverse=True)

    def note(self, crate, seconds):
        """Notes how long a crate took."""
        self.took += seconds
        self.expected += self.seconds[crate]

    def left(self, waiting, running):
        """The seconds that are left: what would happen if each crate took what is expected at the pace so far."""
        pace = self.took / self.expected if self.expected > 60 else 1.0
        at_work = {one.crate: max(self.seconds[one.crate] * pace - one.seconds(), 1.0) for one in running}
        waiting, now = set(waiting), 0.0
        built = set(self.names) - waiting - set(at_work)
        while waiting or at_work:
            for crate in self.ready(waiting, built)[:processors() - len(at_work)]:
                waiting.remove(crate)
                at_work[crate] = now + self.seconds[crate] * pace
            crate = min(at_work, key=at_work.get)
            now = at_work.pop(crate)
            built.add(crate)
        return now


def tell(text):
    """A line for the user, where standard error is open and takes it."""
    if sys.stderr is not None:
        with contextlib.suppress(OSError):
            print(text, file=sys.stderr, flush=True)


def in_minutes(seconds):
    """A time in words."""
    minutes = round(seconds / 60)
    return "less than a minute" if minutes == 0 else "about a minute" if minutes == 1 else f"about {minutes} minutes"


def build(house, running, words):
    """Builds the crates, and says which one could not be built, or None."""
    plan = Plan(house.crates, house.names)
    built = set()
    for one in house.names:
        if one != house.top and (house.is_built(one) or built.issuperset(house.crates[one]) and house.take_over(one)):
            built.add(one)
    waiting = set(house.names) - built
    if len(waiting) > 1 and house.top == PROGRAM:
        told = shlex.join(words) if words else "WORDS"
        tell(f"pq: the program is proved before its first run, {in_minutes(plan.left(waiting, []))}; at once, not proved: {shlex.quote(os.path.relpath(TRY))} {told}")
    elif len(waiting) > 1:
        tell(f"pq: the library is proved first, {in_minutes(plan.left(waiting, []))}")
    while len(built) < len(house.names):
        ready = plan.ready(waiting, built)
        free = processors() - sum(one.jobs for one in running)
        while ready and free > 0:
            crate = ready.pop(0)
            # Processors that no other crate can use now are lent to this one, but not to the top: its functions are too few.
            jobs = 1 if crate == house.top else max(1, min(MOST_JOBS, free // (len(ready) + 1)))
            free -= jobs
            left = in_minutes(plan.left(waiting, running))
            waiting.remove(crate)
            running.append(Building(house, crate, jobs))
            tell(f"pq: proving {crate} ({len(built) + len(running)} of {len(house.names)}), {left} left")
        ended = [one for one in running if one.has_ended()]
        for one in ended:
            running.remove(one)
            if not one.is_built():
                return one
            plan.note(one.crate, one.seconds())
            house.keep(one.crate)
            built.add(one.crate)
        if not ended:
            time.sleep(SECONDS_BETWEEN_LOOKS)
    return None


def end(running):
    """Ends what still runs; a second interruption doesn't keep it from that."""
    if running:
        for number in INTERRUPTIONS:
            signal.signal(number, signal.SIG_IGN)
    for one in running:
        one.stop()


def build_all(words, house_of=House, finish=House.link):
    """Builds the program, or another top, and gives the status. What still runs at the end is ended, whatever the end is."""
    running = []
    try:
        os.makedirs(made("statements"), exist_ok=True)
        # what a call left that was killed
        shutil.rmtree(made("new"), ignore_errors=True)
        os.makedirs(made("new", str(os.getpid())))
        house = house_of()
        os.makedirs(os.path.join(folder_of(house.top), "out"), exist_ok=True)
        failed = build(house, running, words)
        if not failed:
            finish(house)
    except OSError as error:
        told = "the toolchain of Rattle is missing" if error.filename == "rt" else "the program could not be built"
        tell(f"pq: {told}: {error}")
        return FAILED
    finally:
        end(running)
        shutil.rmtree(made("new"), ignore_errors=True)
    if failed:
        tell(failed.words().rstrip("\n"))
        tell(f"pq: the crate {failed.crate} could not be proved and built")
        return FAILED
    return 0


def program_file():
    """The built program."""
    return made(PROGRAM)


def in_turn():
    """Waits until no other call builds. The turn lasts as long as the file is open; besides it, whether there was another call."""
    os.makedirs(made(), exist_ok=True)
    turn = open(made("building"), "w", encoding="utf-8")
    try:
        fcntl.flock(turn, fcntl.LOCK_EX | fcntl.LOCK_NB)
        return turn, False
    except BlockingIOError:
        tell("pq: another call is building the program; waiting for it")
        fcntl.flock(turn, fcntl.LOCK_EX)
        return turn, True


def run_instead(program, words):
    """Runs a program in the place of this one, with the signals as they are by default."""
    signal.signal(signal.SIGPIPE, signal.SIG_DFL)
    for number in INTERRUPTIONS:
        if signal.getsignal(number) is not signal.SIG_IGN:
            signal.signal(number, signal.SIG_DFL)
    os.execv(program, [program, *words])


def main(words):
    for number in INTERRUPTIONS:
        if signal.getsignal(number) is not signal.SIG_IGN:
            signal.signal(number, signal.default_int_handler)
    try:
        turn, has_waited = in_turn()
        with turn:
            status = 0 if has_waited and words else build_all(words[1:])
    except OSError as error:
        tell(f"pq: the program could not be built: {error}")
        return FAILED
    except KeyboardInterrupt:
        tell("pq: stopped; the next call goes on from here")
        return INTERRUPTED
    if status == 0 and words:
        # Where another call built the program, or was interrupted, `./pq` looks whether something is left to do.
        run_instead(os.path.join(HOME, PROGRAM) if has_waited else program_file(), words[1:])
    return status


if __name__ == "__main__":
    sys.exit(main(sys.argv[1:]))
