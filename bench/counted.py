#!/usr/bin/env python3
"""Times the words `generate N` and `disk N` of two programs, for growing N: the best of some runs in turns, in milliseconds.

usage: bench/counted.py PROGRAM OTHER [RUNS]

The last column tells how the time of PROGRAM grows from the second N to the greatest, less that of the first: the exponent is near 1
where it is linear.
"""
import math
import os
import sys
import time

COUNTS = {"generate": [1, 200, 500, 1000, 2000], "disk": [1, 50, 125, 250, 500]}


def run(program, word, count):
    quiet = [(os.POSIX_SPAWN_OPEN, 1, os.devnull, os.O_WRONLY, 0)]
    start = time.perf_counter()
    _, status = os.waitpid(os.posix_spawn(program, [program, word, str(count)], os.environ, file_actions=quiet), 0)
    took = 1000 * (time.perf_counter() - start)
    if status:
        sys.exit(f"{program} {word} {count} failed")
    return took


def best(programs, word, runs):
    """The least time of each program for each count."""
    least = {(program, count): math.inf for program in programs for count in COUNTS[word]}
    for _ in range(runs):
        for program, count in least:
            least[program, count] = min(least[program, count], run(program, word, count))
    return least


def exponent(times, counts):
    few, many = (max(times[count] - times[0], 0.01) for count in (1, -1))
    return math.log(many / few) / math.log(counts[-1] / counts[1])


def main():
    programs, runs = sys.argv[1:3], int(sys.argv[3]) if len(sys.argv) > 3 else 25
    print("| word | proved, ms | plain, ms | proved / plain | exponent |\n|---|---|---|---|---|")
    for word, counts in COUNTS.items():
        least = best(programs, word, runs)
        for count in counts:
            proved, plain = (least[program, count] for program in programs)
            grows = f"{exponent([least[programs[0], it] for it in counts], counts):.2f}" if count == counts[-1] else ""
            print(f"| {word} {count} | {proved:.1f} | {plain:.1f} | {proved / plain:.2f} | {grows} |")


if __name__ == "__main__":
    main()
