#!/usr/bin/env python3
"""Runs the gate, and prints a table of the processor minutes that each crate took.

usage: bench/gate_times.py [WORD..]

The words go to `rt ci`, which is run at the top of the repository, and whose lines are passed through. Its log has no
times, so the checks that it starts are looked at once a second, in /proc: the processor time of each with all that it
started. What a check took after the last look is missing; the last line tells how much that and rt's own work is.
"""
import collections
import os
import pathlib
import re
import resource
import signal
import subprocess
import sys
import time

TOP = pathlib.Path(__file__).resolve().parent.parent
TICKS = os.sysconf("SC_CLK_TCK")
PARTS = ["crate", "tests", "edits"]


def table_of_processes():
    """Of each process its parent, its start and the ticks of it and of those that it waited for."""
    found = {}
    for name in filter(str.isdigit, os.listdir("/proc")):
        try:
            stat = pathlib.Path(f"/proc/{name}/stat").read_text()
        except OSError:  # it has ended
            continue
        # (the name in parentheses may have spaces and parentheses)
        words = stat.rpartition(")")[2].split()
        found[int(name)] = int(words[1]), int(words[19]), sum(map(int, words[11:15]))
    return found


def check_of(pid):
    """The crate that a process checks or tests, and the part of the gate that this is."""
    try:
        words = pathlib.Path(f"/proc/{pid}/cmdline").read_text(errors="replace").split("\0")
        folder = os.readlink(f"/proc/{pid}/cwd")
    except OSError:
        return None
    if "--crate-name" in words[:-1]:
        # an edit is tried in a copy of the crate's folder
        is_edit = os.path.basename(folder).startswith("rt-edit")
        part = "edits" if is_edit else "tests" if "--test" in words else "crate"
        return words[words.index("--crate-name") + 1], part
    # the proved program or the tests, which run in a folder of their own
    if run := re.search(r"/rt-run-[^/]*/bin/(\w+?)(_tests)?$", words[0]):
        return run[1], "tests" if run[2] else "crate"
    return None


class Times:
    """The ticks of each check that was seen below a process."""

    def __init__(self, root):
        self.root = root
        self.checks = {}  # by number and start of the process
        self.ticks = collections.Counter()

    def look(self):
        processes = table_of_processes()
        children = collections.defaultdict(list)
        for pid, (parent, _, _) in processes.items():
            children[parent].append(pid)

        def ticks(pid):
            return processes[pid][2] + sum(ticks(child) for child in children[pid])

        waiting = list(children[self.root])
        while waiting:
            pid = waiting.pop()
            key = pid, processes[pid][1]
            check = self.checks.get(key) or check_of(pid)
            if check:
                self.checks[key] = check
                self.ticks[key] = max(self.ticks[key], ticks(pid))
            else:
                waiting += children[pid]

    def minutes(self):
        """By crate and part."""
        sums = collections.Counter()
        for key, check in self.checks.items():
            sums[check] += self.ticks[key] / TICKS / 60
        return sums


def show(minutes, whole, crates):
    def row(name, values):
        return f"| {name} | " + " | ".join(f"{value:.1f}" if value else "" for value in values) + " |"

    print("\nProcessor minutes:\n")
    print(f"| crate | {' | '.join(PARTS)} | all |\n|{'---|' * (len(PARTS) + 2)}")
    for crate in crates:
        values = [minutes[crate, part] for part in PARTS]
        print(row(f"`{crate}`", [*values, sum(values)]))
    sums = [sum(minutes[crate, part] for crate in crates) for part in PARTS]
    print(row("all", [*sums, sum(sums)]))
    print(f"\n{whole:.1f} minutes in all, of which {whole - sum(sums):.1f} in none of these")


def main():
    words = sys.argv[1:]
    if "-h" in words or "--help" in words:
        sys.exit(__doc__)
    order = re.findall(r"^\w+", (TOP / "crates.txt").read_text(), re.MULTILINE)
    # (the terminal's interrupt reaches the gate too, which ends then, and the table tells what it took so far)
    signal.signal(signal.SIGINT, lambda *_: None)
    gate = subprocess.Popen(["rt", "ci", *words], cwd=TOP)
    times = Times(gate.pid)
    while gate.poll() is None:
        times.look()
        time.sleep(1)
    used = resource.getrusage(resource.RUSAGE_CHILDREN)
    minutes = times.minutes()
    seen = {crate for crate, _ in minutes}
    show(minutes, (used.ru_utime + used.ru_stime) / 60, [it for it in order if it in seen] + sorted(seen - set(order)))
    sys.exit(gate.returncode)


if __name__ == "__main__":
    main()
