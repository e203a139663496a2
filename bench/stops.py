#!/usr/bin/env python3
"""Stops runs of a built program in the middle, and prints how many runs there were.

usage: bench/stops.py PROGRAM [--allocations]

The device goes before each line; three tickets are reaped in each order; each close comes a line earlier; the first, the second or
the third read fails, of at most 100 bytes each; and standard output takes only so many bytes, for each number of them. Each run has to
end with the status that docs/SCRIPT.md says. With status 0 each ticket has its end, with 6 the beginning of the whole output was
written, with 5 nothing. (The program writes what it gathered in one piece, so writes of single lines fail in its tests alone.)

With --allocations one allocation fails after the other, each in a run of its own, on four of the scripts. The status is 7 then, or 0
where the allocation was not needed, and what was written is the beginning of the whole output. This takes `cc`, and a program that
takes its memory by the C library's malloc and realloc.
"""
import array
import collections
import fcntl
import itertools
import os
import re
import resource
import signal
import socket
import subprocess
import sys
import tempfile
import termios
import time

DEVICE = "1201000200000040aaaabbbb000100000001" "090220000101008032" "0904000002ff000000" "07058102400000" "07050202400000"
OPENED = [f"device k0 1 6 3 1 {DEVICE}", "open d0 1 6", "claim d0 0 i0"]
IN, OUT = "endpoint e0 i0 81 bulk-in", "endpoint e0 i0 02 bulk-out"


def packets(*sizes):
    return " ; ".join(f"pkt k0 81 {f'{17 * (at + 1):02x}' * size or '-'}" for at, size in enumerate(sizes))


def framed(size):
    """Five packets, of which two are short, are read with transfers of this size."""
    reads = ["sread r0 64"] * 4 + ["isend r0", "endmsg r0"] + ["sread r0 64"] * 2 + ["endmsg r0"] * 2
    return [IN, f"reader r0 e0 {size}", "num r0 6", f"! {packets(64, 64, 10, 64, 0)}", *reads]


SCRIPTS = {
    "two transfers": [
        IN, "submitin e0 64", "submitin e0 64", "! pkt k0 81 01 ; pkt k0 81 0203 ; reap 1", "poll e0", "! reap 0", *["poll e0"] * 3,
    ],
    "framed reads of 64 bytes": framed(64),
    "framed reads of 128 bytes": framed(128),
    "a close with tickets on their way": [
        IN, *["submitin e0 64"] * 3, "! pkt k0 81 01 ; reap 0", "close e0", IN, "! reap 1", IN, "! reap 2", IN,
    ],
    "messages that are written": [
        OUT, "writer w0 e0 128", "wend w0", "! ack k0 02", f"write w0 {'11' * 128}", "wend w0",
        "flush w0 : ack k0 02 ; ack k0 02 ; ack k0 02", f"write w0 {'22' * 100}", "wend w0", *["flush w0 : ack k0 02"] * 2,
    ],
    "requests and responses": [
        OUT, "endpoint e1 i0 81 bulk-in", "msg m0 e0 e1", "mreq m0 aabb", f"mreq m0 {'11' * 60} : ack k0 02", "mcount m0",
        "mresp m0 : pkt k0 81 00000000cc", "mresp m0", f"mresp m0 : {packets(64)}", "mreq m0 -", "close m0",
    ],
    "control transfers on their way": [
        "fin f0 d0 vendor device 30 0000 0000 64 100", "fin f1 d0 vendor device 30 0000 0000 64 200", "! clock 100 ; timer", "fpoll f0",
        "! reap", "fpoll f0", "fpoll f1", "fwait f1", "now",
    ],
    "blocking transfers": [
        IN, "xferin e0 128 0", f"xferin e0 128 100 : {packets(64)} ; clock 100", "xferin e0 64 100 : pkt k0 81 05 ; clock 200 ; reap",
        "xferin e0 64 100 : clock 300 ; pkt k0 81 05 ; reap",
    ],
    "a control transfer, a write and a read": [
        "ctlout i0 vendor device 10 0000 0000 01020304 100000000 : ack k0 00", OUT, "writer w0 e0 4096", "write w0 00ff",
        "flush w0 : ack k0 02", "endpoint e1 i0 81 bulk-in", "reader r0 e1 4096", "read r0 64 : pkt k0 81 0a0b0c",
    ],
}
FATE = re.compile(rb"^ticket \d+ \S+ \S+ \S+ \d+ (taken|dropped|reclaimed)$")


def text_of(lines):
    return "".join(f"{it}\n" for it in [*OPENED, *lines]).encode()


def run(program, script, **how):
    return subprocess.run([program], input=script, stdout=subprocess.PIPE, stderr=subprocess.PIPE, timeout=60, **how)


def expect(is_so, name, what):
    if not is_so:
        sys.exit(f"{name}: {what}")


def ends(program, name, lines):
    """A run that nothing stops: each ticket that was handed in has one fate, with its end."""
    ran = run(program, text_of(lines))
    expect(ran.returncode == 0 and not ran.stderr, name, f"status {ran.returncode}")
    fates = [it for it in ran.stdout.splitlines() if it.startswith(b"ticket ")]
    expect(all(FATE.match(it) for it in fates), name, "a ticket without an end")
    expect([int(it.split()[1]) for it in fates] == list(range(len(fates))), name, "a ticket without a fate")
    return ran.stdout


def unplugged(lines):
    return [[*lines[:at], "! unplug k0", *lines[at:]] for at in range(len(lines))]


def closed_earlier(lines):
    places = [at for at, it in enumerate(lines) if it.startswith("close ") and at]
    return [[*lines[: at - 1], lines[at], lines[at - 1], *lines[at + 1 :]] for at in places]


def reaped():
    """Three tickets, reaped in each order, with a poll behind each reap."""
    front = [IN, *["submitin e0 64"] * 3, "! pkt k0 81 01 ; pkt k0 81 02 ; pkt k0 81 03"]
    orders = itertools.permutations(range(3))
    return [[*front, *[it for t in order for it in (f"! reap {t}", "poll e0")]] for order in orders]


def unread(end):
    """How many bytes of a socket nobody has read yet."""
    count = array.array("i", [0])
    fcntl.ioctl(end, termios.FIONREAD, count)
    return count[0]


def fails_at_read(program, name, script, number):
    """A run whose standard input gives at most 100 bytes at a time, and whose read of this number, from 1, fails."""
    far, near = socket.socketpair()
    child = subprocess.Popen([program], stdin=near, stdout=subprocess.PIPE, stderr=subprocess.PIPE)
    for at in range(number - 1):
        far.sendall(script[100 * at : 100 * at + 100])
        while unread(near) and child.poll() is None:
            time.sleep(0.001)
    # A stream that is closed with bytes unread is reset: the other end's next read fails.
    near.send(b"x")
    far.close()
    output, report = child.communicate(timeout=60)
    near.close()
    expect(child.returncode == 5 and not output and report == b"nusb_sim: read fault\n", name, f"read {number}: status {child.returncode}")


def limited(room):
    def limit():
        signal.signal(signal.SIGXFSZ, signal.SIG_IGN)
        resource.setrlimit(resource.RLIMIT_FSIZE, (room, room))

    return limit


def fails_at_byte(program, name, script, output, room):
    """A run whose output may have this many bytes: what was written is the beginning of the whole output."""
    with tempfile.TemporaryFile() as file:
        ran = subprocess.run([program], input=script, stdout=file, stderr=subprocess.PIPE, timeout=60, preexec_fn=limited(room))
        file.seek(0)
        written = file.read()
    expect(ran.returncode == 6 and ran.stderr == b"nusb_sim: write fault\n", name, f"room {room}: status {ran.returncode}")
    expect(written == output[:room], name, f"room {room}: other bytes")


# Has the allocation fail whose number, from 1, is in FAIL_AT.
FAILING = r"""
#define _GNU_SOURCE
#include <dlfcn.h>
#include <stdlib.h>
static long left;
__attribute__((constructor)) static void begin(void) { const char *at = getenv("FAIL_AT"); left = at ? atol(at) : 0; }
void *malloc(size_t n) {
    static void *(*next)(size_t);
    if (!next) next = dlsym(RTLD_NEXT, "malloc");
    return left && !--left ? NULL : next(n);
}
void *realloc(void *p, size_t n) {
    static void *(*next)(void *, size_t);
    if (!next) next = dlsym(RTLD_NEXT, "realloc");
    return left && !--left ? NULL : next(p, n);
}
"""
LEAN = ["framed reads of 64 bytes", "messages that are written", "requests and responses", "control transfers on their way"]


def failed_allocations(program, shim, name, script, output):
    """How many allocations were had to fail, until one run made fewer."""
    whole, count = 0, 0
    while whole < 8:
        count += 1
        ran = run(program, script, env={**os.environ, "LD_PRELOAD": shim, "FAIL_AT": str(count)})
        if ran.returncode == 0:
            expect(ran.stdout == output, name, f"allocation {count}: other bytes")
            whole += 1
            continue
        whole = 0
        expect(ran.returncode == 7 and ran.stderr == b"nusb_sim: out of memory\n", name, f"allocation {count}: status {ran.returncode}")
        expect(output.startswith(ran.stdout), name, f"allocation {count}: other bytes")
    return count - whole


def allocations(program):
    with tempfile.TemporaryDirectory() as room:
        source, shim = f"{room}/failing.c", f"{room}/failing.so"
        with open(source, "w", encoding="utf-8") as file:
            file.write(FAILING)
        subprocess.run(["cc", "-shared", "-fPIC", "-O1", "-o", shim, source, "-ldl"], check=True)
        for name in LEAN:
            output = ends(program, name, SCRIPTS[name])
            print(f"{failed_allocations(program, shim, name, text_of(SCRIPTS[name]), output)} allocations of: {name}")


def main(program):
    runs = collections.Counter()
    for name, lines in SCRIPTS.items():
        output = ends(program, name, lines)
        for kind, changed in (("unplugs", unplugged(lines)), ("closes a line earlier", closed_earlier(lines))):
            for each in changed:
                ends(program, f"{name}, {kind}", each)
                runs[kind] += 1
        for number in (1, 2, 3):
            fails_at_read(program, name, text_of(lines), number)
            runs["reads that fail"] += 1
        for room in range(len(output)):
            fails_at_byte(program, name, text_of(lines), output, room)
            runs["rooms for the output"] += 1
    for each in reaped():
        ends(program, "reaps", each)
        runs["orders of reaps"] += 1
    for kind, count in runs.items():
        print(f"{count} {kind}")
    print(f"{sum(runs.values())} runs, each as it has to end")


if sys.argv[2:] not in ([], ["--allocations"]) or len(sys.argv) < 2:
    sys.exit(__doc__)
if sys.argv[2:]:
    allocations(sys.argv[1])
else:
    main(sys.argv[1])
