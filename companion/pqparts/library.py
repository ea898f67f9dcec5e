"""The solver in this process, by the library that scripts/library.py builds."""

import ctypes
import functools
import mmap
import os
import sys

from .program import CHECKOUT, Calls, Program, found_program, version
from .stops import NO_MEMORY, READ_FAULT, Stop

POINTERS = 64
NAMES = ["1", "2"]
# Room takes no memory before it is written to. A reply that is longer makes another call, with more room; few are.
FIRST_ROOM, MORE, LINE_ROOM = 1 << 24, 16, 64


class Bytes(ctypes.Structure):
    """Bytes that the library reads."""

    _fields_ = [("at", ctypes.c_char_p), ("length", ctypes.c_size_t)]


class Room(ctypes.Structure):
    """Room in which the library writes, and how much it wrote."""

    _fields_ = [("at", ctypes.c_void_p), ("room", ctypes.c_size_t), ("length", ctypes.c_size_t)]


def bytes_of(content):
    """Bytes as the library reads them."""
    return Bytes(content, len(content))


def memory_of(room):
    """A piece of memory with so many bytes."""
    try:
        return mmap.mmap(-1, room)
    except (OSError, OverflowError) as error:
        raise Stop(NO_MEMORY, "pq: no memory") from error


def room_in(memory):
    """The room in a piece of memory."""
    return Room(ctypes.addressof(ctypes.c_char.from_buffer(memory)), len(memory), 0)


class Library(Calls):
    """Calls of the library, which has to be of the version that lies here. Several threads may call at a time."""

    def __init__(self, path):
        self.path = path
        try:
            found = ctypes.CDLL(path)
            self.entry, told = found.pq_run, found.pq_version
        except (OSError, AttributeError) as error:
            raise Stop(READ_FAULT, f"{path}: this is no library of pq {version()}: {error}") from error
        told.argtypes, told.restype = [], ctypes.c_char_p
        if told().decode() != version():
            raise Stop(READ_FAULT, f"{path}: this is a library of pq {told().decode()}, and not of {version()}")
        self.entry.argtypes = [Bytes, Bytes, Bytes, ctypes.POINTER(Room), ctypes.POINTER(Room)]
        self.entry.restype = ctypes.c_uint8

    def run(self, words, contents, after):
        return self.ask([*words, *NAMES[: len(contents)], *after], *contents)

    def ask(self, asked, first=b"", second=b""):
        """The status, the reply and the line of a run of words that name the files `1` and `2` themselves."""
        if any("\n" in word or "\r" in word for word in asked):
            return 2, b"", "pq: words"
        text = "".join(f"{word}\n" for word in asked).encode("utf-8", "surrogateescape")
        first, second = bytes(first), bytes(second)
        room = FIRST_ROOM
        while True:
            reply, line = memory_of(room), ctypes.create_string_buffer(LINE_ROOM)
            answer, why = room_in(reply), room_in(line)
            status = self.entry(bytes_of(text), bytes_of(first), bytes_of(second), ctypes.byref(answer), ctypes.byref(why))
            if status == POINTERS:
                raise ValueError("the library was handed pointers that overlap")
            if status != 5:
                return status, reply[: answer.length], line.raw[: why.length].decode().strip()
            room *= MORE


@functools.cache
def own_library(folder=CHECKOUT):
    """The library of a checkout, or of what was handed out. None where there is none that can be taken: of one that lies there it is said."""
    paths = (os.path.join(folder, *names, "libpq.so") for names in (["dist"], []))
    path = next(filter(os.path.exists, paths), None)
    if path is None:
        return None
    try:
        return Library(path)
    except Stop as stop:
        print(f"pq: {stop}; the program is called in its place", file=sys.stderr, flush=True)
        return None


def calls(program=None):
    """How `pq` is called: by the program that is named, here or as $PQ; else by the library that $PQ_LIBRARY names; else by the library that
    lies here; else by the program."""
    if program or os.environ.get("PQ"):
        return Program(found_program(program))
    asked = os.environ.get("PQ_LIBRARY")
    if asked:
        return Library(os.path.abspath(asked))
    return own_library() or Program(found_program())
