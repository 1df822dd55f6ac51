#!/usr/bin/env -S python3 -B
"""Runs bench and the program in turn on tmpfs, and prints the processor, medians and ratios.

compare.py BENCH PROGRAM [ROUNDS]: the built binaries of bench and cacache_cli. Figures are by the clock, the programs' own,
or of the whole process for the program cacache.
"""
import os
import re
import shutil
import statistics
import subprocess
import sys
import tempfile
import time

from versus import begun, processor, spent

MIB = 64
KEYS, SIZE = 2000, 1024
DEPTHS = [(100, 1000), (1000, 100), (10000, 10)]
SMALL = ["put", "get", "put-again", "get-hash", "find", "remove", "exists"]
LISTED = [1000, 100000]
# What the kit itself takes is measured too: the bench's word floor-KIND makes the same system calls and digests through the kit alone.
THROUGH_KIT = ["put", "put-again", "get", "find", "remove", "exists"]
# These are made as futures too, by the bench's word future-KIND.
AS_FUTURE = ["find", "get"]
# Calls that look after a cache, each over a new one that the word makes first; the bench's word floor-KIND does the same by the kit alone.
KEPT = {it: ["10000", *["10"] * (it == "compact")] for it in "sweep compact repair plan verify collect prune".split()}

figures = {}  # name -> list of ns
peaks = {}  # name -> KiB
buckets = {}  # depth -> bytes of the bucket


def run(name, words, **streams):
    took, used, errors = spent(words, **streams)
    told = re.search(r"ns (\d+)", errors)
    figures.setdefault(name, []).append(int(told[1]) if told else took)
    peaks[name] = max(peaks.get(name, 0), used.ru_maxrss)


def run_small(bench, at):
    for kind in SMALL:
        # get, get-hash, find and exists read what put wrote; put-again and remove write first what they need
        folder = "put" if kind in ("get", "get-hash", "find", "exists") else kind
        more = [str(SIZE)] if kind.startswith("put") else []
        run(f"{kind} ours", [bench, kind, f"{at}/{folder}-ours", str(KEYS)] + more)
        if kind in AS_FUTURE:
            run(f"{kind} future", [bench, f"future-{kind}", f"{at}/put-ours", str(KEYS)])
        if kind in THROUGH_KIT:
            # floor-get, floor-find and floor-exists read what put wrote; floor-put-again and floor-remove write first what they need
            where = f"{at}/{kind}-kit" if folder == kind else f"{at}/{folder}-ours"
            run(f"{kind} kit", [bench, f"floor-{kind}", where, str(KEYS)] + more)


def run_handles(bench, at):
    """The same by open handles: each links to the contents of a cache of its own, since a link is made once."""
    run("put-writer", [bench, "put-writer", f"{at}/put-writer", str(KEYS), str(SIZE)])
    run("link", [bench, "link", f"{at}/put-ours", str(KEYS)])
    run("linker", [bench, "linker", f"{at}/put-writer", str(KEYS)])


def run_listing(bench, at):
    for keys in LISTED:
        folder = f"{at}/listed-{keys}"
        subprocess.run([bench, "put", folder, str(keys), "8"], check=True, capture_output=True)
        run(f"ls {keys} ours", [bench, "ls", folder, str(keys)])
        run(f"ls {keys} kit", [bench, "floor-ls", folder, str(keys)])
        shutil.rmtree(folder)


def run_kept(bench, at):
    for kind, words in KEPT.items():
        for who, word in (("ours", kind), ("kit", f"floor-{kind}")):
            run(f"{kind} {who}", [bench, word, f"{at}/kept", *words])
            shutil.rmtree(f"{at}/kept")


def run_large(bench, at):
    for kind in ["put-large", "get-large", "reader", "copy", "writer"]:
        run("digest", [bench, "digest", str(MIB)])
        run(kind, [bench, kind, f"{at}/large", str(MIB)])


def run_deep(bench, at):
    for depth, reads in DEPTHS:
        folder = f"{at}/deep-{depth}"
        run(f"get-deep {depth}", [bench, "get-deep", folder, str(depth), str(reads)])
        files = [os.path.join(top, name) for top, _, names in os.walk(folder + "/index-v5") for name in names]
        buckets[depth] = sum(map(os.path.getsize, files))


def run_program(bench, program, at):
    given, back = f"{at}/given", f"{at}/back"
    with open(given, "wb") as file:
        for _ in range(MIB):  # not at once, since the memory of this process counts as that of each program that it starts
            file.write(os.urandom(1 << 20))
    run("digest", [bench, "digest", str(MIB)])
    run("digest-sha1", [bench, "digest-sha1", str(MIB)])
    with open(given, "rb") as file:
        run("write < file", [program, "write", f"{at}/program", "large"], stdin=file)
    run("read > /dev/null", [program, "read", f"{at}/program", "large"])
    with open(back, "wb") as file:
        run("read > file", [program, "read", f"{at}/program", "large"], stdout=file)
    if subprocess.run(["cmp", given, back]).returncode != 0:
        sys.exit("the program gave other bytes back")
    with subprocess.Popen(["cat", given], stdout=subprocess.PIPE) as cat:
        run("write < pipe", [program, "write", f"{at}/program-2", "large"], stdin=cat.stdout)


def median(name):
    return statistics.median(figures[name])


def ratio(over, under):
    above, below = figures[over], figures[under]
    if len(above) != len(below):
        below = [median(under)] * len(above)
    each = [a / b for a, b in zip(above, below)]
    return f"{median(over) / median(under):.2f} ({min(each):.2f} to {max(each):.2f})"


def ratios(over, under):
    return f"{ratio(over, under)}, of the least times {min(figures[over]) / min(figures[under]):.2f}"


def tell_small(kind):
    """Prints what a call takes, and its floor through the kit if there is one."""
    ours, kit = f"{kind} ours", f"{kind} kit"
    over = f"  kit's floor {median(kit) / 1e3:6.2f}  over it {ratios(ours, kit)}" if kit in figures else ""
    print(f"  {kind:10} ours {median(ours) / 1e3:6.2f}{over}")


def tell():
    print(processor(open("/proc/cpuinfo").read()))
    block, key_block = (median(name) / (MIB << 14) for name in ("digest", "digest-sha1"))
    print(f"small calls, us; a block of SHA-256 takes {block / 1e3:.3f} us, one of SHA-1 {key_block / 1e3:.3f} us")
    for kind in SMALL:
        tell_small(kind)
    for kind in AS_FUTURE:
        print(f"  {kind} as a future, over the call {ratios(f'{kind} future', f'{kind} ours')}")
    for handle, call in (("put-writer", "put ours"), ("linker", "link")):
        print(f"  {handle} over the call {ratios(handle, call)}")
    print("ls, us an entry")
    for keys in LISTED:
        tell_small(f"ls {keys}")
    print("calls that look after a cache, us a file, bucket or content")
    for kind in KEPT:
        tell_small(kind)
    print(f"{MIB} MiB, ms; over the digest")
    for it in [it for it in figures if it in ("digest", "digest-sha1", "reader", "copy", "writer") or re.search("large|<|>", it)]:
        print(f"  {it:16} {median(it) / 1e6:7.1f}  {ratio(it, 'digest')}  peak memory {peaks[it] / 1024 / MIB:.2f} times the content")
    print(f"get-deep, ns a byte of the bucket; the digest alone {block / 64:.2f}")
    for depth, bytes_ in buckets.items():
        each = [figure / bytes_ for figure in figures[f"get-deep {depth}"]]
        print(f"  depth {depth:5}, {bytes_:7} bytes: median {statistics.median(each):.2f}, best {min(each):.2f}")


def main():
    begun(__doc__)
    bench, program = (os.path.realpath(word) for word in sys.argv[1:3])
    rounds = int(sys.argv[3]) if len(sys.argv) > 3 else 5
    load = os.getloadavg()[0]
    for _ in range(rounds):
        with tempfile.TemporaryDirectory(prefix="compare-", dir="/dev/shm") as at:
            for part in (run_small, run_handles, run_listing, run_kept, run_large, run_deep):
                part(bench, at)
            run_program(bench, program, at)
    loads = f"load before {load:.2f} and after {os.getloadavg()[0]:.2f}"
    print(f"{time.strftime('%F %T')}, {os.cpu_count()} processors, {loads}, {rounds} rounds")
    tell()


main()
