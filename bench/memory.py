#!/usr/bin/env python3
"""Tells how much memory two programs hold at most on big scripts.

usage: bench/memory.py PROGRAM OTHER [KIND..]

KIND is one of bench/big_script.py, all where none is named. The figures are megabytes of 10^6 bytes: the greatest resident size that
the system tells while the program runs (`VmHWM`, looked at again and again). Scripts and outputs are files in memory, where the system
has such.
"""
import math
import os
import subprocess
import sys
import tempfile

sys.dont_write_bytecode = True  # (no folder __pycache__ beside the scripts)
import big_script


def peak_of(pid):
    """The greatest resident size of a process so far, in bytes; 0 once it has ended."""
    try:
        with open(f"/proc/{pid}/status", encoding="ascii") as lines:
            return next((1024 * int(line.split()[1]) for line in lines if line.startswith("VmHWM:")), 0)
    except OSError:
        return 0


def most_memory(program, text, room):
    """The greatest resident size of three runs on a script, in bytes."""
    with open(f"{room}/script", "w", encoding="ascii") as script:
        script.write(text)
    most = 0
    for _ in range(3):
        with open(f"{room}/script", "rb") as script, open(f"{room}/output", "wb") as output:
            ran = subprocess.Popen([program], stdin=script, stdout=output)
            while ran.poll() is None:
                most = max(most, peak_of(ran.pid))
        if ran.returncode:
            sys.exit(f"{program}: status {ran.returncode}")
    return most


def main():
    programs, kinds = [os.path.abspath(it) for it in sys.argv[1:3]], sys.argv[3:] or list(big_script.KINDS)
    if len(programs) < 2 or set(kinds) - set(big_script.KINDS):
        sys.exit(__doc__)
    print("| script | proved, MB | plain, MB | proved / plain |\n|---|---|---|---|")
    found = []
    with tempfile.TemporaryDirectory(dir="/dev/shm" if os.path.isdir("/dev/shm") else None) as room:
        for kind in kinds:
            one, two = (most_memory(it, big_script.script(kind), room) for it in programs)
            found.append(one / two)
            print(f"| {kind} | {one / 1e6:.1f} | {two / 1e6:.1f} | {one / two:.2f} |", flush=True)
    mean = math.exp(sum(map(math.log, found)) / len(found))
    print(f"\ngeometric mean {mean:.2f}, greatest {max(found):.2f}")


if __name__ == "__main__":
    main()
