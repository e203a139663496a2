#!/usr/bin/env python3
"""Counts a program's instructions on scripts of 2^17 bytes, and compares them with those of bench/instructions.txt.

usage: bench/instructions.py PROGRAM [--write] [--most PERCENT]

--write         writes the counts to bench/instructions.txt in place of comparing them
--most PERCENT  how much more than the count that stands there is let pass (2 where nothing is said)

`valgrind` counts, so that it doesn't matter what else the machine does. The status is 1 where a kind takes more. A count
that fell is told and passes: write it down with the commit that brought it.
"""
import argparse
import os
import pathlib
import re
import subprocess
import sys
import tempfile

sys.dont_write_bytecode = True  # (no folder __pycache__ beside the scripts)
import big_script

KINDS = ["polls", "cycles", "flight", "cancels", "owners", "control", "framed64", "written64", "messages", "deadlines"]
COUNTS = pathlib.Path(__file__).parent / "instructions.txt"
SIZE = 1 << 17


def instructions(program, text):
    """The instructions of one run on a script."""
    with tempfile.TemporaryFile() as script:
        script.write(text.encode())
        script.seek(0)
        words = ["valgrind", "--tool=cachegrind", "--cache-sim=no", "--cachegrind-out-file=/dev/null", program]
        ran = subprocess.run(words, stdin=script, stdout=subprocess.DEVNULL, stderr=subprocess.PIPE, text=True)
    found = re.search(r"I +refs: +([\d,]+)", ran.stderr)
    if ran.returncode or not found:
        sys.exit(f"{program}: status {ran.returncode}\n{ran.stderr}")
    return int(found[1].replace(",", ""))


def counts_of(program):
    """What each kind takes beside an empty script."""
    start = instructions(program, "")
    return {kind: instructions(program, big_script.script(kind, SIZE)) - start for kind in KINDS}


def main():
    words = argparse.ArgumentParser(usage=__doc__.partition("usage: ")[2], add_help=False)
    words.add_argument("program")
    words.add_argument("--write", action="store_true")
    words.add_argument("--most", type=float, default=2)
    given = words.parse_args()
    found = counts_of(os.path.abspath(given.program))
    if given.write:
        COUNTS.write_text("".join(f"{kind} {count}\n" for kind, count in found.items()), encoding="ascii")
        return
    before = {kind: int(count) for kind, count in map(str.split, COUNTS.read_text(encoding="ascii").splitlines())}
    changes = {kind: 100 * (count / before[kind] - 1) for kind, count in found.items()}
    for kind, change in changes.items():
        print(f"{kind:10} {before[kind]:14,} {found[kind]:14,} {change:+7.1f} %")
    sys.exit(any(change > given.most for change in changes.values()))


main()
