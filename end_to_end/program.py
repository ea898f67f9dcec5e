"""The built program, and calls of it."""

import os
import select
import signal
import subprocess
import tempfile
import time

HOME = os.path.dirname(os.path.dirname(os.path.abspath(__file__)))
PROGRAM = os.path.join(HOME, "crates", "pq", "out", "pq")
SECONDS = 60
ENVIRONMENT = dict(os.environ)
# The most bytes that are read from a pipe at once.
PIECE = 1 << 16
# The first line of the verdicts that the program writes.
HEADER = "pq-verdict 2"


class Answering:
    """What answers: the program, or a library in its place."""

    library = None


def run(words, content=b""):
    """A call of the program with these bytes on standard input, or of the library that was put in its place."""
    if Answering.library is not None:
        return run_by_library(Answering.library, words, content)
    if len(content) > select.PIPE_BUF:
        return subprocess.run([PROGRAM, *words], input=content, capture_output=True, timeout=SECONDS, check=False)
    return run_on_few([PROGRAM, *words], content)


def run_on_few(words, content):
    """What `subprocess.run` gives, in two thirds of its time. The bytes are so few that the pipe has room for all before the program begins."""
    (given, giving), (out, to_out), (errors, to_errors) = os.pipe(), os.pipe(), os.pipe()
    try:
        os.write(giving, content)
        streams = [(os.POSIX_SPAWN_DUP2, end, number) for number, end in enumerate((given, to_out, to_errors))]
        process = os.posix_spawn(words[0], words, ENVIRONMENT, file_actions=streams, setsigdef=[signal.SIGPIPE, signal.SIGXFSZ])
    finally:
        for end in (given, giving, to_out, to_errors):
            os.close(end)
    try:
        written = read_to_ends([out, errors], time.monotonic() + SECONDS)
    except BaseException:
        os.kill(process, signal.SIGKILL)
        raise
    finally:
        os.close(out)
        os.close(errors)
        _, status = os.waitpid(process, 0)
    return subprocess.CompletedProcess(words, os.waitstatus_to_exitcode(status), *written)


def read_to_ends(streams, until):
    """The bytes of each stream, which have to end before this time."""
    read, poll = {stream: [] for stream in streams}, select.poll()
    for stream in streams:
        poll.register(stream, select.POLLIN)
    unended = len(streams)
    while unended:
        ready = poll.poll(max(until - time.monotonic(), 0) * 1000)
        if not ready:
            raise subprocess.TimeoutExpired(PROGRAM, SECONDS)
        for stream, _ in ready:
            read[stream].append(os.read(stream, PIECE))
            if not read[stream][-1]:
                poll.unregister(stream)
                unended -= 1
    return [b"".join(read[stream]) for stream in streams]


def run_by_library(library, words, content):
    """The same call of the library. A word that is a whole path names a file, and `-` names these bytes."""
    asked, contents = [], []
    for word in words:
        if word == "-" or os.path.isabs(word):
            contents.append(content if word == "-" else bytes_in(word))
            word = str(len(contents))
        asked.append(word)
    status, reply, line = library.ask(asked, *contents)
    return subprocess.CompletedProcess(words, status, reply, f"{line}\n".encode() if line else b"")


def bytes_in(name):
    """The bytes of a file."""
    with open(name, "rb") as stream:
        return stream.read()


def run_over(words, *contents):
    """A call of the program whose last words are the names of files with these contents."""
    with tempfile.TemporaryDirectory() as folder:
        names = [os.path.join(folder, str(number)) for number in range(len(contents))]
        for name, content in zip(names, contents):
            with open(name, "wb") as stream:
                stream.write(content)
        return run([*words, *names])


def verdict(kind, columns, *body):
    """The text of a verdict, by its lines after those of the kind and the columns."""
    return "".join(f"{line}\n" for line in [HEADER, f"kind {kind}", f"columns {columns}", *body, "end"]).encode()
