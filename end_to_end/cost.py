#!/usr/bin/env python3
"""Runs a command, and writes what it cost into a file: its status, the seconds of the processor, and the peak of its memory in bytes.

Usage: end_to_end/cost.py FILE SECONDS COMMAND ..

It is a small program of its own, since the peak of a new process begins at the size of the one that starts it. A command that takes more
than so many seconds of the processor is ended.
"""

import os
import resource
import sys


def main(file, seconds, *command):
    resource.setrlimit(resource.RLIMIT_CPU, (int(seconds), int(seconds)))
    _, status, usage = os.wait4(os.posix_spawn(command[0], command, os.environ), 0)
    with open(file, "w", encoding="utf-8") as stream:
        stream.write(f"{os.waitstatus_to_exitcode(status)} {usage.ru_utime + usage.ru_stime} {usage.ru_maxrss * 1024}")


if __name__ == "__main__":
    main(*sys.argv[1:])
