#!/usr/bin/env python3
"""Runs `live N` of two programs under load, and tells what one transfer costs.

usage: bench/live.py PROGRAM OTHER [--runs N]

--runs N  so many runs one after another (100 where nothing is said)

Each run has to end in time with its line, status 0 and nothing on standard error. First `live 1000` one run after
another, of both programs in turns; then 8 runs side by side on 2 processors, a tenth as often. The cost of a transfer
is the difference between a run of 1000 and a run of 1, in the best and in the middle one of the runs.
"""
import argparse
import os
import statistics
import subprocess
import sys
import time

LINE = "live {0} submitted {0} taken {0} dropped 0 reclaimed 0\n"
SIDE_BY_SIDE = 8
SECONDS = 120


class Counts:
    """What the runs of one program came to."""

    def __init__(self, program):
        self.program, self.wrong = program, 0
        self.one, self.many, self.beside = [], [], []

    def start(self, transfers):
        return subprocess.Popen([self.program, "live", str(transfers)], stdin=subprocess.DEVNULL,
                                stdout=subprocess.PIPE, stderr=subprocess.PIPE, text=True)

    def end(self, running, transfers):
        """Waits for a run, and notes whether it ended as it has to."""
        try:
            output, report = running.communicate(timeout=SECONDS)
        except subprocess.TimeoutExpired:
            running.kill()
            output, report = running.communicate()
        if (running.returncode, output, report) != (0, LINE.format(transfers), ""):
            self.wrong += 1
            print(f"{self.program} live {transfers}: status {running.returncode}, {output!r}, {report!r}")

    def timed(self, transfers):
        """The milliseconds of one run."""
        start = time.perf_counter()
        self.end(self.start(transfers), transfers)
        return 1000 * (time.perf_counter() - start)

    def alone(self):
        self.one.append(self.timed(1))
        self.many.append(self.timed(1000))

    def crowded(self):
        """Runs on two processors, side by side."""
        all_processors = os.sched_getaffinity(0)
        os.sched_setaffinity(0, sorted(all_processors)[:2])
        start = time.perf_counter()
        for running in [self.start(1000) for _ in range(SIDE_BY_SIDE)]:
            self.end(running, 1000)
        self.beside.append(1000 * (time.perf_counter() - start))
        os.sched_setaffinity(0, all_processors)

    def report(self):
        def row(name, times):
            print(f"  {name}: best {min(times):.1f} ms, middle {statistics.median(times):.1f}, worst {max(times):.1f}")

        print(f"{self.program}: {len(self.many)} runs one after another, {len(self.beside)} times {SIDE_BY_SIDE} side by "
              f"side, {self.wrong} wrong")
        row("live 1", self.one)
        row("live 1000", self.many)
        row(f"{SIDE_BY_SIDE} times live 1000 on 2 processors", self.beside)
        costs = [(pick(self.many) - pick(self.one)) / 999 * 1000 for pick in (min, statistics.median)]
        print(f"  a transfer: {costs[0]:.1f} µs in the best run, {costs[1]:.1f} in the middle one")


def main():
    words = argparse.ArgumentParser(usage=__doc__)
    words.add_argument("programs", nargs=2)
    words.add_argument("--runs", type=int, default=100)
    words = words.parse_args()
    counts = [Counts(program) for program in words.programs]
    for _ in range(words.runs):
        for each in counts:
            each.alone()
    for _ in range(max(words.runs // 10, 1)):
        for each in counts:
            each.crowded()
    for each in counts:
        each.report()
    sys.exit(any(each.wrong for each in counts))


main()
