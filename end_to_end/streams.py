"""Files, streams and devices that fail, come in pieces, or are closed: each check says what is wrong, or None.

Each is handed a folder of its own and a copy of the program that every user may run.
"""

import fcntl
import os
import resource
import shutil
import subprocess

from cases import CHAIN, LIMIT, count, yes
from program import HOME, SECONDS

CHAIN_VERDICT = yes(3, "[1 2 3]", "1 2 3")
READ_FAULT = (4, b"", b"pq: read fault\n")
# A text that is longer than a small pipe holds.
MANY = 2_048
MANY_VERDICT = yes(MANY, f"({count(MANY)})", count(MANY))
PIPE_BYTES = 4_096
ADDRESS_BYTES = 64 << 20


def difference(what, wanted, given):
    """How two values differ, or None."""
    return None if wanted == given else f"{what} {shown(given)}, wanted {shown(wanted)}"


def shown(value):
    """A value for a message, cut to a readable length."""
    text = repr(value)
    return text if len(text) <= 300 else f"{text[:300]}.. ({len(text)} characters)"


def ran(words, folder, **how):
    """A run: its status, its output and its errors, where these are not handed elsewhere."""
    how = {"stdout": subprocess.PIPE, "stderr": subprocess.PIPE, **how}
    done = subprocess.run(words, cwd=folder, timeout=SECONDS, check=False, **how)
    return done.returncode, done.stdout, done.stderr


def write(folder, name, content):
    """Makes a file."""
    with open(os.path.join(folder, name), "wb") as stream:
        stream.write(content)


def full_device(folder, program):
    """Standard output on a device that is full: status 5 and its line."""
    with open("/dev/full", "wb") as full:
        given = ran([program, "solve", "matrix", "-"], folder, input=CHAIN, stdout=full)
    return difference("run", (5, None, b"pq: write fault\n"), given)


def full_device_for_errors(folder, program):
    """Standard error on a full device: the status stays, and nothing is written elsewhere."""
    with open("/dev/full", "wb") as full:
        for words, content, status in [([], b"", 2), (["solve", "matrix", "-"], b"2\n", 3), (["solve", "matrix", "file"], b"", 4)]:
            given = ran([program, *words], folder, input=content, stderr=full)
            problem = difference("run", (status, b"", None), given)
            if problem:
                return problem
    return None


def closed_pipe(folder, program):
    """Standard output on a pipe that nobody reads: status 5, and no signal's death."""
    reader, writer = os.pipe()
    os.close(reader)
    with open(writer, "wb") as pipe:
        given = ran([program, "solve", "matrix", "-"], folder, input=CHAIN, stdout=pipe)
    return difference("run", (5, None, b"pq: write fault\n"), given)


def pipe_closed_after(taken, folder, program):
    """A pipe whose reader leaves after the first bytes: status 5, and the bytes are the first of the text."""
    reader, writer = os.pipe()
    fcntl.fcntl(writer, fcntl.F_SETPIPE_SZ, PIPE_BYTES)
    write(folder, "file", b"0" * MANY + b"\n")
    call = subprocess.Popen([program, "solve", "matrix", "file"], cwd=folder, stdout=writer, stderr=subprocess.PIPE)
    os.close(writer)
    with open(reader, "rb", buffering=0) as pipe:
        first = b""
        while len(first) < taken:
            first += pipe.read(taken - len(first)) or b"nothing more came"
    _, errors = call.communicate(timeout=SECONDS)
    return (difference("run", (5, b"pq: write fault\n"), (call.returncode, errors))
            or difference("first bytes", MANY_VERDICT[:taken], first))


def vanished_file(folder, program):
    """The second file vanishes while the first is awaited: status 4, and nothing is written."""
    os.mkfifo(os.path.join(folder, "first"))
    write(folder, "second", CHAIN_VERDICT)
    call = subprocess.Popen([program, "check", "matrix", "first", "second"], cwd=folder, stdout=subprocess.PIPE, stderr=subprocess.PIPE)
    with open(os.path.join(folder, "first"), "wb") as first:
        os.remove(os.path.join(folder, "second"))
        first.write(CHAIN)
    output, errors = call.communicate(timeout=SECONDS)
    return difference("run", READ_FAULT, (call.returncode, output, errors))


def pieces_of_a_pipe(size, folder, program):
    """Both files come through pipes with names, a few bytes at a time: the answers are those of whole files."""
    names = ["first", "second"]
    for name in names:
        os.mkfifo(os.path.join(folder, name))
    for command, contents, wanted in [("solve", [CHAIN], CHAIN_VERDICT), ("check", [CHAIN, CHAIN_VERDICT], b"valid\n")]:
        call = subprocess.Popen([program, command, "matrix", *names[:len(contents)]], cwd=folder, stdout=subprocess.PIPE, stderr=subprocess.PIPE)
        for name, content in zip(names, contents):
            with open(os.path.join(folder, name), "wb", buffering=0) as pipe:
                for start in range(0, len(content), size):
                    pipe.write(content[start:start + size])
        output, errors = call.communicate(timeout=SECONDS)
        problem = difference(command, (0, wanted, b""), (call.returncode, output, errors))
        if problem:
            return problem
    return None


def endless_input(folder, program):
    """Input that does not end: it is read no further than its limit."""
    given = ran([program, "solve", "matrix", "/dev/zero"], folder)
    return difference("run", (3, b"", b"pq: refused 1 code 7 line 0\n"), given)


def closed_streams(folder, program):
    """Standard input, output and errors closed, alone and together: a closed one fails as a broken device does, and is no file's."""
    write(folder, "file", CHAIN)
    write(folder, "bad", b"2\n")
    write(folder, "verdict", CHAIN_VERDICT)
    fault, refusal = b"pq: write fault\n", b"pq: refused 1 code 2 line 1\n"
    for closed, words, wanted in [
            ("<&-", ["solve", "matrix", "-"], READ_FAULT),
            ("<&-", ["solve", "matrix", "file"], (0, CHAIN_VERDICT, b"")),
            ("<&-", ["check", "matrix", "file", "verdict"], (0, b"valid\n", b"")),
            ("<&-", ["check", "matrix", "file", "-"], READ_FAULT),
            ("<&-", ["check", "matrix", "-", "verdict"], READ_FAULT),
            (">&-", ["solve", "matrix", "file"], (5, b"", fault)),
            (">&-", ["solve", "matrix", "bad"], (3, b"", refusal)),
            ("2>&-", ["solve", "matrix", "file"], (0, CHAIN_VERDICT, b"")),
            ("2>&-", ["solve", "matrix", "bad"], (3, b"", b"")),
            ("2>&-", [], (2, b"", b"")),
            (">&- 2>&-", ["solve", "matrix", "file"], (5, b"", b"")),
            (">&- 2>&-", ["solve", "matrix", "bad"], (3, b"", b"")),
            ("<&- >&- 2>&-", ["check", "matrix", "file", "verdict"], (5, b"", b"")),
            ("<&- >&- 2>&-", ["solve", "matrix", "-"], (4, b"", b""))]:
        given = ran(["sh", "-c", f'exec "$@" {closed}', "", program, *words], folder, input=CHAIN)
        problem = difference(f"{words} {closed}", wanted, given)
        if problem:
            return problem
    kept = [open(os.path.join(folder, name), "rb").read() for name in ("file", "verdict")]
    return difference("files", [CHAIN, CHAIN_VERDICT], kept)


def limited(size):
    """Lets a run have no more than so many bytes of addresses."""
    return lambda: resource.setrlimit(resource.RLIMIT_AS, (size, size))


def little_memory(folder, program):
    """Addresses of 64 MiB and large files, whose answers need more: status 6 and its line, and nothing is written."""
    row = b"1" * MANY + b"\n"
    write(folder, "ones", row * (LIMIT // len(row)))
    write(folder, "clones", b'{"probes":["a"],"clones":[' + b",".join([b"{}"] * 4_000_000) + b"]}")
    write(folder, "verdict", b"1 2 flip\n" * 12_000_000)
    write(folder, "file", CHAIN)
    for words in [["solve", "matrix", "ones"], ["solve", "circular", "ones"], ["solve", "clones", "clones"],
                  ["check", "matrix", "file", "verdict"], ["extend", "matrix", "ones", "file"]]:
        given = ran([program, *words], folder, preexec_fn=limited(ADDRESS_BYTES))
        problem = difference(f"{words}", (6, b"", b"pq: no memory\n"), given)
        if problem:
            return problem
    return None


def memory_by_steps(folder, program):
    """Ever fewer addresses, down to those that the program itself takes: the right answer, or status 6 and nothing written."""
    row = b"10" * (MANY // 2) + b"\n"
    write(folder, "file", row * 1_000)
    wanted = ran([program, "solve", "matrix", "file"], folder)
    seen = set()
    for size in range(64 << 20, 4 << 20, -(1 << 20)):
        given = ran([program, "solve", "matrix", "file"], folder, preexec_fn=limited(size))
        if given not in (wanted, (6, b"", b"pq: no memory\n")):
            return f"{size} bytes of addresses: {shown(given)}"
        seen.add(given[0])
    return difference("statuses", {0, 6}, seen)


def script_runs(folder, program):
    """The script at the root hands words, input, output and status through."""
    del program
    script = os.path.join(HOME, "pq")
    nested = os.path.join(HOME, "examples", "nested.txt")
    with open(nested, "rb") as file:
        content = file.read()
    with open(os.path.join(HOME, "crates", "pq", "stdout"), "rb") as file:
        wanted = file.read()
    return (difference("run on the file", (0, wanted, b""), ran([script, "solve", "matrix", nested], folder))
            or difference("run on standard input", (0, wanted, b""), ran([script, "solve", "matrix", "-"], folder, input=content))
            or difference("run on a missing file", READ_FAULT, ran([script, "solve", "matrix", "missing file"], folder)))


def odd_path(folder, program):
    """A program whose own path is no UTF-8, and one that is called through a link: only the words after the name count."""
    place = os.path.join(os.fsencode(folder), b"\xff")
    os.mkdir(place)
    copied = shutil.copy(program, os.path.join(place, b"p\xfeq"))
    linked = os.path.join(place, b"-q")
    os.symlink(copied, linked)
    for path in [copied, linked]:
        problem = difference("run", (0, yes(1, "1", "1"), b""), ran([path, "solve", "matrix", "-"], folder, input=b"1\n"))
        if problem:
            return problem
    return None


def streams():
    """Each check with its name."""
    for check in [full_device, full_device_for_errors, closed_pipe, vanished_file, endless_input, closed_streams, little_memory, memory_by_steps,
                  script_runs, odd_path]:
        yield check.__name__.replace("_", " "), check
    for taken in (0, 1, 2, 7, 75, 5_000):
        yield f"a pipe that is closed after {taken} bytes", lambda *given, taken=taken: pipe_closed_after(taken, *given)
    for size in (1, 2, 7, LIMIT):
        yield f"pipes that hand over {size} bytes at a time", lambda *given, size=size: pieces_of_a_pipe(size, *given)
