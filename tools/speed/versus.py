#!/usr/bin/env -S python3 -B
"""Runs the bench and the same words of the Rust crate in turn on tmpfs, and prints least times and ratios.

versus.py BENCH OTHER [ROUNDS]: BENCH is a built bench. If OTHER is a folder, cargo builds the program in rust/ there twice, with link-time
optimization: as it comes, and with the feature `force-soft`, by which its digests use no instructions of the processor. If OTHER is
a program, such as an older bench, it is compared alone. Each round runs every word of all, each in turn first. A ratio is BENCH's time
over the other's: of the least times, and in brackets the median of those within a round. The first line names the processor, and
says whether it has SHA instructions.
"""
import os
import pathlib
import re
import shutil
import statistics
import subprocess
import sys
import tempfile
import time

sys.path.insert(0, str(pathlib.Path(__file__).resolve().parent.parent / "edits"))
from edits import begun

SMALL = [["put", "2000", "1024"], ["put-again", "2000", "1024"], *([it, "2000"] for it in "get get-hash find exists ls remove".split())]
LARGE = [[word, "64"] for word in ("put-large", "get-large", "writer", "reader")]
RUST = pathlib.Path(__file__).resolve().parent / "rust"
BUILDS = {"as it comes": [], "force-soft": ["--features", "force-soft"]}  # the columns of the Rust crate, with what cargo is given

times = {}  # (who, word) -> nanoseconds of one operation, a round each


def processor(text):
    """The processor of a text that has the form of /proc/cpuinfo, and whether it has SHA instructions."""
    name = re.search(r"(?m)^model name\s*: (.*)$", text)
    flags = re.search(r"(?m)^(?:flags|Features)\s*: (.*)$", text)
    has = bool({"sha_ni", "sha2"} & set(flags[1].split())) if flags else False
    return f"{name[1] if name else 'unknown processor'}, {'with' if has else 'without'} SHA instructions"


def spent(words, stdin=None, stdout=subprocess.DEVNULL):
    """What a run of a program took by the clock, in nanoseconds, what it used, and its standard error; it must end well."""
    start = time.monotonic_ns()
    child = subprocess.Popen(words, stdin=stdin, stdout=stdout, stderr=subprocess.PIPE)
    errors = child.stderr.read().decode()
    _, status, used = os.wait4(child.pid, 0)
    child.returncode = os.waitstatus_to_exitcode(status)
    took = time.monotonic_ns() - start
    if child.returncode != 0:
        sys.exit(f"{words}: status {child.returncode}: {errors}")
    return took, used, errors


def built(folder):
    """The programs of the Rust crate, built into folders below this one, each with its column."""
    programs = {}
    for number, (column, words) in enumerate(BUILDS.items()):
        target = folder / f"rust-{number}"
        command = ["cargo", "build", "--release", "--target-dir", str(target), *words]
        if subprocess.run(command, cwd=RUST).returncode != 0:
            sys.exit(f"versus: cargo doesn't build it: {' '.join(command)}")
        programs[column] = str(target / "release/bench")
    return programs


def run(program, who, folder, word, *numbers):
    ran = subprocess.run([program, word, folder, *numbers], capture_output=True, text=True)
    took = re.search(r"ns (\d+)", ran.stderr)
    if ran.returncode != 0 or not took:
        sys.exit(f"{program} {word}: status {ran.returncode}: {ran.stderr}")
    times.setdefault((who, word), []).append(int(took[1]))


def play_round(programs, number):
    order = list(programs)[number % len(programs):] + list(programs)[:number % len(programs)]
    with tempfile.TemporaryDirectory(dir="/dev/shm" if os.path.isdir("/dev/shm") else None) as at:
        for word, *numbers in SMALL + LARGE:
            for who in order:
                run(programs[who], who, f"{at}/{list(programs).index(who)}", word, *numbers)


def line(word, others):
    """The least times of a word, and the ratios, a column for each other program."""
    ours, cells = times["ours", word], []
    for who in others:
        theirs = times[who, word]
        within = statistics.median(a / b for a, b in zip(ours, theirs))
        cells.append(f"{who} {min(theirs):10} {min(ours) / min(theirs):5.2f} ({within:.2f})")
    return f"{word:10} ours {min(ours):10}  " + "  ".join(cells)


def main():
    begun(__doc__, len(sys.argv) in (3, 4))
    bench, other = (pathlib.Path(word).resolve() for word in sys.argv[1:3])
    if other.is_dir() and not shutil.which("cargo"):
        sys.exit("versus: there is no cargo to build the Rust crate with")
    others = built(other) if other.is_dir() else {"other": str(other)}
    print(processor(pathlib.Path("/proc/cpuinfo").read_text()), flush=True)
    for number in range(int(sys.argv[3]) if len(sys.argv) > 3 else 9):
        play_round({"ours": str(bench), **others}, number)
    for word, *_ in SMALL + LARGE:
        print(line(word, others))


if __name__ == "__main__":
    main()
