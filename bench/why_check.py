#!/usr/bin/env python3
"""Compares bench/why.py with a program on mutated random scripts: both have to find the same line, or none.

usage: bench/why_check.py PROGRAM [COUNT [SEED]]

A script of bench/compare.py is changed in one to three places: a word is dropped, doubled, moved, cut, or another takes its place;
a byte is changed; a line is moved. It stops at the first script on which the two differ."""
import random
import re
import subprocess
import sys

import compare
import why

WORDS = (
    "0x81 81 e07 e64 k0 d0 d1 i0 e0 r0 w0 f0 max : ; ! # - 0 1 255 256 65535 65536 65537 4294967295 4294967296 1000000000000000000 "
    "1000000000000000001 0123 00000000000000000001 8g 818 =a = bulk-in standard device . .. / // /a/. /a/b open submit reap timer clock vid vidpid serial class"
).split()


def mutated(r, text):
    """A script with one to three changes."""
    lines = text.split(b"\n")
    for _ in range(r.randint(1, 3)):
        at = r.randrange(len(lines))
        words = lines[at].split(b" ")
        place = r.randrange(len(words))
        kind = r.randrange(8)
        if kind == 0:
            del words[place]
        elif kind == 1:
            words.insert(place, words[r.randrange(len(words))])
        elif kind in (2, 3):
            words[place] = r.choice(WORDS).encode()
        elif kind == 4:
            words.insert(place, r.choice(WORDS).encode())
        elif kind == 5:
            words[place] = words[place][: r.randint(0, len(words[place]))] + r.choice([b"", b"0", b"a", b"\t", b"\x7f", b"\r", b"#"])
        elif kind == 6:
            lines.insert(r.randrange(len(lines) + 1), lines.pop(at))
            continue
        else:
            lines.insert(at, r.choice(lines))
            continue
        lines[at] = b" ".join(words)
    return b"\n".join(lines)


def line_of(program, text):
    """The line that the program finds malformed, or None."""
    ran = subprocess.run([program], input=text, capture_output=True, timeout=120)
    found = re.search(rb"malformed line (\d+)", ran.stderr)
    return int(found[1]) if found else None


def main(program, count=2000, seed=1):
    malformed = 0
    for number in range(int(seed), int(seed) + int(count)):
        text = mutated(random.Random(number), compare.script(number))
        found, wanted = why.first_fault(text), line_of(program, text)
        if (found[0] if found else None) != wanted:
            sys.stdout.buffer.write(text)
            print(f"\nseed {number}: the program finds line {wanted}, and why.py {found}")
            return 1
        malformed += wanted is not None
    print(f"{count} scripts, of which {malformed} are malformed: the same line each time")
    return 0


if __name__ == "__main__":
    sys.exit(main(*sys.argv[1:]))
