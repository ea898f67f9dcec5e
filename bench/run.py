#!/usr/bin/env python3
"""Measures the built program against plain Rust programs on the same files, and prints ratios of time and peak memory.

Usage: bench/run.py [--csv PROGRAM] [--json PROGRAM] [NAME ..]     after `./pq` has built the program; needs rustc.

NAMEs pick benches, default all. PROGRAMs are the yardsticks of `table` and `clones`, which YARDSTICKS.md describes; without them those
two are passed over. So is `bubble`, unless `rt run` in crates/bubble_bench has built its program.

Inputs are made from a fixed seed in a temporary folder. Both programs run in turn; the figure is the least processor time of the rounds.
The time of reading and judging alone is that of a file whose last row is refused, so that nothing is solved.
"""

import argparse
import os
import random
import subprocess
import sys
import tempfile

from inputs import (
    bigraph_file,
    clone_file,
    cycle_verdict,
    dense_file,
    distance_file,
    every_pair,
    generated_file,
    heavy_files,
    interval_file,
    nested_file,
    random_edges,
    repeated_edges,
    sparse_file,
    steps_round,
    table_file,
    window_file,
    yes_verdict,
)

HOME = os.path.dirname(os.path.dirname(os.path.abspath(__file__)))
PROGRAM = os.path.join(HOME, "crates", "pq", "out", "pq")
# The program that asks the bubble pass alone, and how many rows it asks in a round.
BUBBLE = os.path.join(HOME, "crates", "bubble_bench", "out", "bubble_bench")
BUBBLE_ROWS = 100_000
SEED = 20261127
ROUNDS = 7
# The memory that no file within the limits may take: so many times its bytes, and so many bytes beside.
TIMES = 12
BESIDE = 256 << 20


def measure(words):
    """Prints the processor's seconds and the peak kibibytes of one run, and its status."""
    process = subprocess.Popen(words, stdout=subprocess.DEVNULL, stderr=subprocess.DEVNULL)
    _, status, usage = os.wait4(process.pid, 0)
    print(usage.ru_utime + usage.ru_stime, usage.ru_maxrss, os.waitstatus_to_exitcode(status))


def measured(words):
    """The processor's seconds and the peak kibibytes of one run, and its status.

    A small process of its own starts the run, since the peak of a new process begins at the size of the one that starts it.
    """
    told = subprocess.run([sys.executable, __file__, "--measure"] + words, capture_output=True, text=True, check=True)
    seconds, peak, status = told.stdout.split()
    return float(seconds), int(peak), int(status)


def best(words, wanted, rounds):
    """The least seconds and the peak of several runs, each of which ends with the status that is wanted."""
    runs = [measured(words) for _ in range(rounds)]
    for _, _, status in runs:
        if status != wanted:
            sys.exit(f"{words[0]} ended with {status}, wanted {wanted}")
    return min(seconds for seconds, _, _ in runs), max(peak for _, peak, _ in runs)


def compiled(name, folder):
    """A plain Rust program, built by rustc alone."""
    program = os.path.join(folder, name)
    subprocess.run(["rustc", "-O", "-o", program, os.path.join(HOME, "bench", "plain", name + ".rs")], check=True)
    return program


def compare(title, files, words, yardstick, statuses, name="plain Rust"):
    """One line: the program and the yardstick, each by its first words, on the same files, and their ratio."""
    size = sum(os.path.getsize(file) for file in files)
    ours, peak = best([PROGRAM] + words + files, statuses[0], ROUNDS)
    theirs, other_peak = best(yardstick + files, statuses[1], ROUNDS)
    print(f"{title}, {size / 2**20:.1f} MiB: {ours * 1000:.1f} ms, {name} {theirs * 1000:.1f} ms, ratio {ours / theirs:.2f}; "
          f"peak {peak / 1024:.1f} MiB, {peak * 1024 / size:.2f} times the files ({name} {other_peak / 1024:.1f} MiB)", flush=True)


def whole_call(title, words, status):
    """One line: a whole call, which has no yardstick."""
    ours, peak = best([PROGRAM] + words, status, 3)
    print(f"{title}: {ours * 1000:.1f} ms, peak {peak / 1024:.1f} MiB")


def nanoseconds_a_row(program):
    """The processor's time for a row of the bubble pass: that of 20 rounds more, so that building the tree and the rows is out of it."""
    few, _ = best([program, "1"], 0, ROUNDS)
    many, _ = best([program, "21"], 0, ROUNDS)
    return (many - few) / (20 * BUBBLE_ROWS) * 1e9


def write(folder, name, content):
    """A new file in the folder."""
    file = os.path.join(folder, name)
    with open(file, "wb") as stream:
        stream.write(content)
    return file


def bench_dense(folder, rng, _yardsticks):
    """Reading and judging a dense file of the greatest length."""
    plain = compiled("dense", folder)
    for columns, density in [(1000, 0.5), (1000, 0.25), (1000, 0.02), (255, 0.5)]:
        file = write(folder, "dense.txt", dense_file(columns, density, rng))
        title = f"dense, {columns} columns, {density:.0%} ones"
        compare(title, [file], ["solve", "matrix"], [plain], (3, 3))


def bench_rows(folder, rng, _yardsticks):
    """Reading and judging a file of named columns of the greatest length."""
    plain = compiled("sparse", folder)
    for ones in [64, 500]:
        file = write(folder, "sparse.txt", sparse_file(1000, ones, rng))
        compare(f"rows, {ones} of 1000 columns a row", [file], ["solve", "rows"], [plain], (3, 3))


def bench_bigraph(folder, rng, _yardsticks):
    """Reading a bipartite graph of the greatest length, in order, shuffled, and repeated.

    The program checks a verdict of another kind, which it finds invalid as soon as the graph is read: nothing is derived or solved.
    """
    plain = compiled("bigraph", folder)
    edges = random_edges(131_072, 2_048, 10, rng)
    mixed = rng.sample(edges, len(edges))
    repeated = repeated_edges(3_000, 30, 2_500_000, rng)
    few = repeated_edges(2, 3, 4_200_000, rng)
    for what, left, right, listed in [
        ("in order", 131_072, 2_048, edges),
        ("shuffled", 131_072, 2_048, mixed),
        ("repeated", 131_072, 2_048, repeated),
        ("6 edges repeated", 2, 3, few),
    ]:
        file = write(folder, "bigraph.txt", bigraph_file(left, right, listed))
        verdict = write(folder, "other.txt", yes_verdict("rows", [1]))
        compare(f"bipartite graph, {left} and {right}, {what}", [file, verdict], ["check", "convex"], [plain], (1, 0))


def bench_table(folder, rng, yardsticks):
    """Reading and judging a table of the greatest length, against going through its records alone."""
    if not yardsticks.csv:
        return
    for what, cells in [("0 and 1", [b"0", b"1"]), ("a cross in 10 %", [b""] * 9 + [b"x"])]:
        file = write(folder, "table.csv", table_file(1000, cells, rng))
        compare(f"table, 1000 columns, {what}", [file], ["solve", "table"], [yardsticks.csv], (3, 0), "csv alone")


def bench_clones(folder, rng, yardsticks):
    """Reading and judging a long clone file, against reading its JSON alone."""
    if not yardsticks.json:
        return
    file = write(folder, "clones.json", clone_file(1000, 30, rng))
    title = "clones, 30 of 1000 probes each"
    compare(title, [file], ["solve", "clones"], [yardsticks.json], (3, 0), "serde_json alone")


def bench_bubble(folder, _rng, _yardsticks):
    """The bubble pass alone, on rows of 2 to 60 neighbours among 2,048 columns in line. Both programs draw the same rows."""
    if not os.access(BUBBLE, os.X_OK):
        return
    plain = compiled("bubble", folder)
    if len({subprocess.run([one, "1"], capture_output=True, check=True).stdout for one in (BUBBLE, plain)}) > 1:
        sys.exit("the two programs of `bubble` differ in their answers")
    ours, theirs = nanoseconds_a_row(BUBBLE), nanoseconds_a_row(plain)
    print(f"bubble, rows of 2 to 60 of 2048 columns in line: {ours:.0f} ns a row, plain Rust {theirs:.0f} ns, ratio {ours / theirs:.2f}")


def bench_solve(folder, rng, _yardsticks):
    """Whole calls of `solve matrix`."""
    for columns, rows in [(100, 1000), (1000, 1000)]:
        file = write(folder, "nested.txt", nested_file(columns, rows, rng))
        whole_call(f"solve, {rows} nested rows over {columns} columns", ["solve", "matrix", file], 0)
        file = write(folder, "intervals.txt", interval_file(columns, rows, rng))
        whole_call(f"solve, {rows} runs in a hidden order over {columns} columns", ["solve", "matrix", file], 0)


def bench_check(folder, rng, _yardsticks):
    """Checking a long yes and a long no; the plain program reads the same files into lists and judges nothing."""
    plain = compiled("verdict", folder)
    for columns, rows in [(1000, 1000), (250, 60_000)]:
        file = write(folder, "intervals.txt", interval_file(columns, rows, rng))
        told = subprocess.run([PROGRAM, "solve", "matrix", file], capture_output=True, check=True).stdout
        verdict = write(folder, "yes.txt", told)
        compare(f"check, yes, {rows} rows over {columns} columns", [file, verdict], ["check", "matrix"], [plain, "matrix"], (0, 0))
    matrix, order = window_file(2048, 131_072, 40, rng)
    files = [write(folder, "windows.txt", matrix), write(folder, "yes.txt", yes_verdict("rows", order))]
    compare("check, yes, 131072 short rows over 2048 columns", files, ["check", "rows"], [plain, "rows"], (0, 0))
    matrix, number = every_pair(317)
    walk = steps_round(317)
    files = [write(folder, "pairs.txt", matrix), write(folder, "no.txt", cycle_verdict(317, walk, number))]
    compare(f"check, no, a cycle of {len(walk)} lines", files, ["check", "matrix"], [plain, "matrix"], (0, 0))


def bench_balls(folder, rng, _yardsticks):
    """Reading a table of distances and deriving its balls, 65,536 rows with 8,421,376 ones.

    The program checks a verdict whose order parts the second row. So it derives every row, and the test of the order ends at the second:
    neither a reduction nor a search is in the figure. Calling `solve` on the table would put both in.
    """
    plain = compiled("balls", folder)
    table, order = distance_file(256, rng)
    file = write(folder, "distances.txt", table)
    verdict = write(folder, "order.txt", yes_verdict("robinson", order))
    compare("balls, 256 items", [file, verdict], ["check", "robinson"], [plain], (1, 0))


def bench_gen(folder, _rng, _yardsticks):
    """Whole calls of `gen`, and of `solve rows` on the same matrices, which a script makes by the rule of `gen`."""
    for seed, columns, rows in [(7, 100, 500), (7, 1000, 1000), (7, 1000, 20_000), (11, 2048, 131_072)]:
        words = ["gen", str(seed), str(columns), str(rows)]
        whole_call(" ".join(words), words, 0)
        file = write(folder, "generated.txt", generated_file(seed, columns, rows))
        whole_call(f"solve, the rows of {' '.join(words)}", ["solve", "rows", file], 0)


def bench_memory(folder, rng, _yardsticks):
    """The peak of `solve`, and of `check` on what it wrote, on files of each kind that take much memory for their bytes."""
    past = []
    for what, kind, content in heavy_files(rng):
        file, verdict = write(folder, "heavy", content), os.path.join(folder, "verdict")
        with open(verdict, "wb") as stream:
            status = subprocess.run([PROGRAM, "solve", kind, file], stdout=stream, check=False).returncode
        most = TIMES * len(content) + BESIDE
        for words in [["solve", kind, file], ["check", kind, file, verdict]]:
            if words[0] == "check" and status > 1:
                continue
            seconds, peak, _ = measured([PROGRAM] + words)
            told = f"{words[0]} {kind}, {what}, {len(content) / 2**20:.1f} MiB, status {status}"
            print(f"{told}: peak {peak / 1024:.1f} MiB, {peak * 1024 / len(content):.1f} times the file, {seconds:.2f} s", flush=True)
            if peak * 1024 > most:
                past.append(told)
    if past:
        sys.exit(f"past {TIMES} times the bytes and {BESIDE >> 20} MiB: {'; '.join(past)}")


BENCHES = {
    "dense": bench_dense,
    "rows": bench_rows,
    "bigraph": bench_bigraph,
    "table": bench_table,
    "clones": bench_clones,
    "bubble": bench_bubble,
    "solve": bench_solve,
    "gen": bench_gen,
    "check": bench_check,
    "balls": bench_balls,
    "memory": bench_memory,
}


def main():
    """Runs the benches of the command line."""
    if sys.argv[1:2] == ["--measure"]:
        measure(sys.argv[2:])
        return
    parser = argparse.ArgumentParser(description="Measures the built program against yardsticks.")
    parser.add_argument("--csv", metavar="PROGRAM", help="goes through the records of a table")
    parser.add_argument("--json", metavar="PROGRAM", help="reads a file of JSON")
    parser.add_argument("names", nargs="*", metavar="NAME", help="a bench: " + ", ".join(BENCHES))
    given = parser.parse_args()
    if not os.access(PROGRAM, os.X_OK):
        sys.exit(f"{PROGRAM} is missing: run `./pq` first")
    with tempfile.TemporaryDirectory() as folder:
        for name in given.names or BENCHES:
            BENCHES[name](folder, random.Random(SEED), given)


if __name__ == "__main__":
    main()
