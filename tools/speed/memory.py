#!/usr/bin/env -S python3 -B
"""Runs what bench measures in memory at a small and a large size in turn, and prints medians and their ratios.

memory.py BENCH [ROUNDS]: the built binary of bench. Each figure is the nanoseconds of one operation: a key that is put or listed, an append
or a write of 212 bytes, a write of 8 KiB, a place below a folder, a move in a world; of a move also its ratio to the same step on a disk
alone. Behind them stand the bytes that one operation asks of malloc, counted in one run more (hostile/refused.c): they are the same on a
busy machine, and tell of memory that is asked for and never touched.
"""
import os
import pathlib
import re
import statistics
import subprocess
import sys
import tempfile
import time

from versus import begun, spent

# The kind, its small and its large size, and the most that the ratio of their costs should be.
KINDS = [("memory-put", 1000, 64000, 3), ("memory-list", 1000, 64000, 3), ("memory-append", 1000, 10000, 2),
         ("memory-write", 1000, 10000, 2), ("memory-pieces", 6, 64, 2), ("paths", 250, 4000, 16), ("world", 7000, 70000, 2)]
# How many operations there are, where that isn't the size: pieces of a MiB, and places below a folder whose path has so many bytes.
OPERATIONS = {"memory-pieces": lambda size: 128 * size, "paths": lambda _: 3000}
# The most that a move should cost, over its step.
STEPS = 3
SHIM = pathlib.Path(__file__).resolve().parent.parent / "hostile/refused.c"


def nanos(bench, kind, size):
    """The nanoseconds of one operation, the most memory in KiB that the process had, and the nanoseconds of its step alone, if told."""
    _, used, errors = spent([bench, kind, str(size)])
    told, step = (re.search(rf"{it} (\d+)", errors) for it in ("ns", "step"))
    if not told:
        sys.exit(f"{kind} {size}: no time: {errors}")
    return int(told[1]), used.ru_maxrss, int(step[1]) if step else None


def asked(bench, kind, size, library):
    """The bytes that one operation asks of malloc, what the program asks for at its start and to begin included."""
    told = library.with_name("told")
    env = {**os.environ, "LD_PRELOAD": str(library), "REFUSE_TELL": str(told)}
    subprocess.run([bench, kind, str(size)], env=env, stdout=subprocess.DEVNULL, stderr=subprocess.DEVNULL, check=True)
    return int(told.read_text().split()[1]) / OPERATIONS.get(kind, lambda it: it)(size)


def main():
    """Measures each kind at both sizes so many times, and prints what came."""
    begun(__doc__)
    bench = os.path.realpath(sys.argv[1])
    rounds = int(sys.argv[2]) if len(sys.argv) > 2 else 5
    print(f"{time.strftime('%F %T')}, {os.cpu_count()} processors, load {os.getloadavg()[0]:.2f}, {rounds} rounds")
    for kind, small, large, most in KINDS:
        pairs = [(nanos(bench, kind, small), nanos(bench, kind, large)) for _ in range(rounds)]
        few, many = ([pair[at][0] for pair in pairs] for at in (0, 1))
        each = [b / a for a, b in zip(few, many)]
        peak = max(pair[1][1] for pair in pairs) / 1024
        ratio = statistics.median(many) / statistics.median(few)
        print(f"{kind:14} {small:5}: {statistics.median(few):9.0f} ns  {large:5}: {statistics.median(many):9.0f} ns  "
              f"ratio {ratio:.2f} ({min(each):.2f} to {max(each):.2f}), at most {most}  peak memory {peak:.0f} MiB", flush=True)
        if pairs[0][0][2]:
            over = [statistics.median(pair[at][0] / pair[at][2] for pair in pairs) for at in (0, 1)]
            print(f"  over its step: {over[0]:.2f} and {over[1]:.2f}, at most {STEPS}", flush=True)
    with tempfile.TemporaryDirectory() as folder:
        library = pathlib.Path(folder, "refused.so")
        subprocess.run(["cc", "-O1", "-shared", "-fPIC", "-o", library, SHIM], check=True)
        for kind, small, large, most in KINDS:
            few, many = (asked(bench, kind, size, library) for size in (small, large))
            print(f"{kind:14} {small:5}: {few:9.0f} bytes asked for  {large:5}: {many:9.0f}  ratio {many / few:.2f}, at most {most}", flush=True)


main()
