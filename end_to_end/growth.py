"""How the instructions of each command grow with the bytes that it reads and writes: the small form of bench/growth.py, where valgrind is there."""

import os
import shutil
import subprocess
import sys

from program import HOME

BENCH = os.path.join(HOME, "bench", "growth.py")


def problems():
    """Each series and command with its exponent where that is above the greatest, unless it is known to be."""
    if shutil.which("valgrind") is None:
        return
    done = subprocess.run([sys.executable, BENCH, "--small"], capture_output=True, text=True, check=False)
    lines = done.stdout.splitlines()
    yield "bench/growth.py --small", None if done.returncode == 0 and lines else f"status {done.returncode}, {done.stderr}"
    for line in lines[:-1]:
        name, _, found = line.partition(": exponent ")
        yield f"growth of {name}", f"exponent {found}" if "above" in found and "as is known" not in found else None
