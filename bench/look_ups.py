#!/usr/bin/env python3
"""Times the kernel on many unreaped tickets: N of one endpoint, each with its packet, that are reaped from the last to the first.

usage: bench/look_ups.py [N..]

N  how many tickets (50000, 100000 and 200000 where none is given)

It runs the tests of a copy of crates/test_hosts, unproved (`rt try --test`, some two minutes for each N), and prints the seconds
between the line of the test before and that of `each_of_many_tickets_is_found_without_a_search`. With look-ups they grow as N does;
with a search of the open tickets at each packet they would grow as its square.
"""
import pathlib
import shutil
import subprocess
import sys
import tempfile
import time

TOP = pathlib.Path(__file__).resolve().parent.parent
TEST = "kernel::each_of_many_tickets_is_found_without_a_search"


def seconds(folder, count):
    """How long the test takes with this many tickets."""
    file = folder / "crates/test_hosts/src/kernel.rt"
    text = file.read_text(encoding="utf-8")
    if text.count("200_000") != 1:
        sys.exit("crates/test_hosts/src/kernel.rt has the count of tickets in another form")
    file.write_text(text.replace("200_000", str(count)), encoding="utf-8")
    words = ["rt", "try", "--test"]
    with subprocess.Popen(words, cwd=folder / "crates/test_hosts", stdout=subprocess.PIPE, stderr=subprocess.STDOUT, text=True) as run:
        last = time.perf_counter()
        for line in run.stdout:
            now = time.perf_counter()
            if line.startswith(f"test {TEST} ... "):
                run.kill()
                return now - last if line.endswith("ok\n") else None
            last = now
    return None


def main():
    for count in map(int, sys.argv[1:] or ["50000", "100000", "200000"]):
        with tempfile.TemporaryDirectory() as folder:
            folder = pathlib.Path(folder)
            shutil.copytree(TOP / "crates", folder / "crates", ignore=shutil.ignore_patterns("out"))
            shutil.copy(TOP / "crates.txt", folder)
            shutil.copy(TOP / "HANDLES", folder)
            took = seconds(folder, count)
            print(f"{count} tickets: " + ("the test failed" if took is None else f"{took:.2f} s"), flush=True)


main()
