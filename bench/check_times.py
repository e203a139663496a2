#!/usr/bin/env python3
"""Times `check` of two programs on big traces, and tells how the time grows with the size.

usage: bench/check_times.py PROGRAM OTHER [--runs N] [KIND..]

--runs N  N runs of each program on each trace, in turns (5 where nothing is said)
KIND      one of transfers, flight, refusals, bytes (all where none is named)

Each trace is written for 2^20 and for 2^24 bytes. The table has the best times in milliseconds, how many times the other
program's time the first takes, and the exponent from 2^20 to 2^24: near 1 is linear. Both have to say `yes`.
"""
import argparse
import itertools
import math
import os
import subprocess
import sys
import tempfile
import time

SIZES = [1 << 20, 1 << 24]


def transfers():
    """a transfer, its packet and its reap, again and again"""
    for number in itertools.count():
        yield f"submit {number} 0 81 64 in 64 -\npkt 0 81 010203\nreap {number}\n", f"fate {number} ok 3\n"


def flight():
    """the same with 32 transfers in flight"""
    for number in itertools.count():
        done = f"pkt 0 81 010203\nreap {number - 32}\n" if number >= 32 else ""
        yield f"submit {number} 0 81 64 in 64 -\n{done}", f"fate {number} ok 3\n"


def refusals():
    """refused submissions"""
    for number in itertools.count():
        yield f"refuse {number} 0 81 64 in 64 19\n", f"fate {number} disconnected 0\n"


def received():
    """transfers of 4096 bytes in packets of 512"""
    packets = f"pkt 0 81 {'5a' * 512}\n" * 8
    for number in itertools.count():
        yield f"submit {number} 0 81 512 in 4096 -\n{packets}reap {number}\n", f"fate {number} ok 4096\n"


KINDS = {"transfers": transfers, "flight": flight, "refusals": refusals, "bytes": received}


def trace(kind, size):
    """A trace of this kind of at most so many bytes."""
    # (the fate of a ticket that is open is two bytes longer)
    events, fates, room = ["nusb-trace 1\n"], [], size - len("nusb-trace 1\nend\n") - 2 * 32
    for event, fate in KINDS[kind]():
        room -= len(event) + len(fate)
        if room < 0:
            break
        events.append(event)
        fates.append(fate)
    text = "".join(events + fates)
    if kind == "flight":
        # (what is in flight at the end is not reaped)
        count = len(fates)
        fates = [f"fate {number} ok 3\n" if number < count - 32 else f"fate {number} open 0\n" for number in range(count)]
        text = "".join(events + fates)
    return text + "end\n"


def took(program, path):
    """The milliseconds of one check."""
    with open(path, "rb") as source:
        start = time.perf_counter()
        ran = subprocess.run([program, "check"], stdin=source, capture_output=True)
        end = time.perf_counter()
    if ran.returncode or ran.stdout != b"yes\n":
        sys.exit(f"{program}: status {ran.returncode}, {ran.stdout}, {ran.stderr}")
    return 1000 * (end - start)


def best(programs, runs, text, room):
    """The least time of each program on a trace."""
    path = f"{room}/trace"
    with open(path, "w", encoding="ascii") as file:
        file.write(text)
    return [min(times) for times in zip(*[[took(it, path) for it in programs] for _ in range(runs)])]


def main():
    words = argparse.ArgumentParser(usage=__doc__.partition("usage: ")[2], add_help=False)
    words.add_argument("programs", nargs=2)
    words.add_argument("kinds", nargs="*")
    words.add_argument("--runs", type=int, default=5)
    given = words.parse_intermixed_args()
    if unknown := set(given.kinds) - set(KINDS):
        sys.exit(f"no such kind: {', '.join(sorted(unknown))}")
    programs = [os.path.abspath(it) for it in given.programs]
    print("| trace | bytes | proved, ms | plain, ms | proved / plain | exponent |\n|---|---|---|---|---|---|")
    with tempfile.TemporaryDirectory(dir="/dev/shm" if os.path.isdir("/dev/shm") else None) as room:
        start = best(programs, given.runs, "nusb-trace 1\nend\n", room)[0]
        for kind in given.kinds or KINDS:
            before = None
            for size in SIZES:
                one, two = best(programs, given.runs, trace(kind, size), room)
                now = max(one - start, 0.01)
                grows = f"{math.log2(now / before) / 4:.2f}" if before else ""
                print(f"| {kind} | {size:,} | {one:.1f} | {two:.1f} | {one / two:.2f} | {grows} |", flush=True)
                before = now


main()
