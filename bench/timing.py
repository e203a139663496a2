#!/usr/bin/env python3
"""Times two programs on the big scripts, and prints a table of the wall times in milliseconds, the best of some runs.

usage: bench/timing.py PROGRAM OTHER [--runs N] [--sizes] [--null] [--word WORD] [KIND..]

--runs N  N runs of each program on each script, in turns (7 where nothing is said)
--sizes   scripts of 2^17 to 2^20 bytes, and how the time grows with the size: the exponent is near 1 where it is linear
--null    the output goes to /dev/null, and not into a file
--word    the word of the program, `session` or `trace`
KIND      the kinds of bench/big_script.py, all where none is named

The file of the output is in memory (/dev/shm), where the system has that. An empty script's time is subtracted where
the growth is told, so that the program's start counts for nothing. The outputs are compared.
"""
import argparse
import hashlib
import math
import os
import sys
import tempfile
import time

sys.dont_write_bytecode = True  # (no folder __pycache__ beside the scripts)
import big_script

SIZES = [1 << power for power in range(17, 21)]


class Bench:
    def __init__(self, room, programs, runs, null, word):
        self.programs, self.runs, self.word = programs, runs, word
        self.script, self.output = f"{room}/script", "/dev/null" if null else f"{room}/output"

    def run(self, program):
        """The milliseconds of one run, and a sum of its output."""
        with open(self.script, "rb") as script, open(self.output, "wb") as output:
            streams = [(os.POSIX_SPAWN_DUP2, end.fileno(), at) for at, end in enumerate((script, output))]
            start = time.perf_counter()
            _, status = os.waitpid(os.posix_spawn(program, [program, self.word], os.environ, file_actions=streams), 0)
            took = 1000 * (time.perf_counter() - start)
        if status:
            sys.exit(f"{program}: status {os.waitstatus_to_exitcode(status)}")
        with open(self.output, "rb") as output:
            return took, hashlib.file_digest(output, "sha256").digest()

    def best(self, text):
        """The least time of each program on a script."""
        with open(self.script, "w", encoding="ascii") as script:
            script.write(text)
        least = [math.inf] * len(self.programs)
        sums = set()
        for _ in range(self.runs):
            for at, program in enumerate(self.programs):
                took, digest = self.run(program)
                least[at] = min(least[at], took)
                sums.add(digest)
        if len(sums) > 1:
            print("the outputs differ", file=sys.stderr)
        return least


def ratios(bench, kinds):
    print("| script | lines | proved, ms | plain, ms | proved / plain |\n|---|---|---|---|---|")
    found = {}
    for kind in kinds:
        text = big_script.script(kind)
        one, two = bench.best(text)
        found[kind] = one / two
        print(f"| {kind} | {text.count(chr(10)):,} | {one:.1f} | {two:.1f} | {one / two:.2f} |", flush=True)
    mean = math.exp(sum(map(math.log, found.values())) / len(found))
    worst = max(found, key=found.get)
    print(f"\ngeometric mean {mean:.2f}, greatest {found[worst]:.2f} ({worst})")


def growth(bench, kinds):
    print("| script | program | " + " | ".join(f"{size:,} bytes, ms" for size in SIZES) + " | exponent | of the last doubling |")
    print("|---|---|" + "---|" * (len(SIZES) + 2))
    starts = bench.best("")
    for kind in kinds:
        times = [bench.best(big_script.script(kind, size)) for size in SIZES]
        for at, name in enumerate(("proved", "plain")):
            shown = " | ".join(f"{it[at]:.1f}" for it in times)
            # (a time that is no more than the start's has no logarithm)
            logs = [math.log2(max(it[at] - starts[at], 0.01)) for it in times]
            whole, last = (logs[-1] - logs[0]) / (len(SIZES) - 1), logs[-1] - logs[-2]
            print(f"| {kind} | {name} | {shown} | {whole:.2f} | {last:.2f} |", flush=True)


def main():
    words = argparse.ArgumentParser(usage=__doc__.partition("usage: ")[2], add_help=False)
    words.add_argument("programs", nargs=2)
    words.add_argument("kinds", nargs="*")
    words.add_argument("--runs", type=int, default=7)
    words.add_argument("--sizes", action="store_true")
    words.add_argument("--null", action="store_true")
    words.add_argument("--word", choices=["session", "trace"], default="session")
    given = words.parse_intermixed_args()
    kinds = given.kinds or list(big_script.KINDS)
    if unknown := set(kinds) - set(big_script.KINDS):
        sys.exit(f"no such kind: {', '.join(sorted(unknown))}")
    with tempfile.TemporaryDirectory(dir="/dev/shm" if os.path.isdir("/dev/shm") else None) as room:
        bench = Bench(room, [os.path.abspath(it) for it in given.programs], given.runs, given.null, given.word)
        (growth if given.sizes else ratios)(bench, kinds)


main()
