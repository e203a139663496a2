#!/usr/bin/env python3
"""Runs two programs on random scripts, and prints the first script on which their answers or their status differ.

usage: bench/compare.py PROGRAM OTHER [COUNT [SEED]]

In one script in five most calls are about a tree of attributes and packets of udev: the folders of a hub, of devices and of
interfaces, some of whose attributes are missing, denied or damaged. Each other script has a few simulated devices, and then
calls and steps over few names, so that names collide, endpoints are busy, tickets are reaped in any order and devices are
pulled out while transfers are open. In a quarter of the scripts most calls are control transfers, with deadlines that pass while
they wait, in another reads of readers, in a third transfers of endpoints; in some requests of clients and responses; in the others most are about owners: claims, clones,
closes, kernel drivers, configurations and alternate settings. In some, deadlines of transfers pass by steps of the timer, and in
some while a control transfer is waited for. In about a third of the scripts no refusal is armed. One in ten has a malformed line.
Some scripts print the descriptors of damaged devices, and in some more than 1,024 tickets are unreaped.
Of each script the traces of both are compared, too. Then as many random traces are checked by both, and the traces of the scripts. In most of
them one line was changed, left out, doubled or moved (traces.py). A trace of a script has to be checked `yes` as it is.
At the end stand the kinds of lines and steps of docs/SCRIPT.md, the answers and the statuses that didn't occur, and of the
calls about owners, of control transfers and of reads each answer that didn't: those that a script can have without an armed refusal are
counted there alone. Of `halt r` they say whether the read before it had failed. Of deadlines they say what discarded a transfer that was due.
"""
import collections
import pathlib
import random
import re
import subprocess
import sys

import traces

LANGUAGE = pathlib.Path(__file__).parent.parent / "docs/SCRIPT.md"
ANSWERS = [
    "ok", "condition", "error", "device", "desc", "count", "pending", "none", "done", "now", "ticket", "config", "noconfig", "speed",
    "alt", "if", "list", "buses", "info", "sysfs", "match", "connected", "disconnected", "data", "failed", "langs", "string",
    "read", "buf", "io", "end", "expected", "wrote", "request", "response", "msgerror",
]
STATUSES = ["ok", "cancelled", "stall", "disconnected", "fault", "invalid", "unknown"]
ENDS = ["taken", "dropped", "reclaimed"]
ERRORS = ["Disconnected", "Busy", "PermissionDenied", "NotFound", "Other"]

GONE = "error Disconnected device disconnected (errno 19)"
NO_INTERFACE = "error NotFound interface not found"
NO_ENDPOINT = "error NotFound specified endpoint does not exist on this interface"
SETTING_IN_USE = "error Busy can't change alternate setting while endpoints are in use"
FAILED = [f"failed {it}" for it in ("cancelled", "stall", "disconnected", "fault", "invalid", "unknown")]
UNTOLD = ["failed invalid-descriptor", *FAILED]
TIMED_OUT, ENDED_EARLY = "io TimedOut timeout waiting for read", "io UnexpectedEof ended without short packet"
NOT_WRITTEN = "io TimedOut write timeout"
NO_HALT = "error Other failed to clear halt"
FAULTS = [
    "io ConnectionReset endpoint stalled", "io ConnectionAborted device disconnected", "io Other hardware fault or protocol violation",
    "io InvalidInput invalid or unsupported argument", "io Other unknown",
]
WRITE_FAULTS = ["io Interrupted transfer was cancelled", *FAULTS]
# what ends a client of messages
ENDINGS = ["msgerror short", "msgerror too-long", "msgerror wrong-tag", *WRITE_FAULTS]
UNKNOWN_CONFIGURATION = "noconfig no descriptor found for active configuration 7"

# by call the answers that it gives without an armed refusal, and those that want one
OF_CALLS = {
    "now": (["now"], []),
    "clone d": (["ok"], []),
    "clone i": (["ok"], []),
    "close d": (["ok"], []),
    "close i": (["ok"], []),
    "close e": (["ok"], []),
    "active": (["config 0", "config 1", "config 2", "noconfig device is not configured", UNKNOWN_CONFIGURATION], []),
    "speed": ([f"speed {it}" for it in ("Low", "Full", "High", "Super", "SuperPlus", "none")], []),
    "setconfig": (
        ["ok", GONE, "error NotFound configuration not found (errno 22)", "error Busy device is busy (errno 16)"],
        ["error Other failed to set configuration"],
    ),
    "reset": (["ok", GONE], ["error Busy device is busy (errno 16)", "error Other failed to reset device"]),
    "claim": (
        ["ok", GONE, f"{NO_INTERFACE} (errno 2)", "error Busy interface is busy (errno 16)"],
        [f"{NO_INTERFACE} (errno 22)", "error Other failed to claim interface"],
    ),
    "detachclaim": (
        ["ok", GONE, f"{NO_INTERFACE} (errno 2)", "error Busy interface is busy (errno 16)"],
        [f"{NO_INTERFACE} (errno 22)", "error Other failed to claim interface"],
    ),
    "detach": (
        ["ok", GONE, f"{NO_INTERFACE} (errno 22)", "error Other no kernel driver attached (errno 61)"],
        ["error Other failed to detach kernel driver"],
    ),
    "attach": (
        ["ok", GONE, f"{NO_INTERFACE} (errno 22)", "error Busy kernel driver already attached (errno 16)"],
        ["error Other failed to attach kernel driver"],
    ),
    "alt": (
        ["ok", GONE, SETTING_IN_USE, "error NotFound alternate setting not found (errno 22)"],
        ["error Other failed to set alternate setting"],
    ),
    "getalt": (["alt 0", "alt 1", "alt 2"], []),
    "ifdesc": (["if 0.0", "if 0.1", "if 1.0", "if 1.2", "if 3.0"], ["none"]),
    "release": (["ok", "error Busy interface is still in use"], []),
    "endpoint": (["ok", NO_ENDPOINT, "error Busy endpoint already in use"], []),
    "halt e": (["ok", GONE], ["error Other failed to clear halt"]),
    "halt r": (["ok", GONE, "ok behind a fault", f"{GONE} behind a fault"], [NO_HALT, f"{NO_HALT} behind a fault"]),
    "dsubmitin": (["ok"], []),
    "dsubmitout": (["ok"], []),
    "ctlin": (["data", *FAILED], []),
    "ctlout": (["ok", *FAILED], []),
    "fin": (["ok"], []),
    "fout": (["ok"], []),
    "fpoll": (["pending", "data", *FAILED], []),
    "fwait": (["data", *FAILED], []),
    "getdesc": (["data", *FAILED], []),
    "langs": (["langs", *UNTOLD], []),
    "string": (["string", *UNTOLD], []),
    "close f": (["ok"], []),
    "reader": (["ok"], []),
    "inner": (["ok"], []),
    "num": (["ok"], []),
    "timeout": (["ok"], []),
    "cancel r": (["ok"], []),
    "close r": (["ok"], []),
    "read": (["read", "read 0 -", *FAULTS, TIMED_OUT], []),
    "sread": (["read", "read 0 -", *FAULTS, TIMED_OUT, ENDED_EARLY], []),
    "pollread": (["read", "read 0 -", *FAULTS, "pending"], []),
    "pollsread": (["read", "read 0 -", *FAULTS, "pending", ENDED_EARLY], []),
    "fill": (["buf", "buf 0 -", *FAULTS, TIMED_OUT], []),
    "sfill": (["buf", "buf 0 -", *FAULTS, TIMED_OUT, ENDED_EARLY], []),
    "pollfill": (["buf", "buf 0 -", *FAULTS, "pending"], []),
    "pollsfill": (["buf", "buf 0 -", *FAULTS, "pending", ENDED_EARLY], []),
    "consume": (["ok"], []),
    "sconsume": (["ok"], []),
    "isend": (["end true", "end false"], []),
    "endmsg": (["ok", "expected short packet"], []),
    "writer": (["ok"], []),
    "close w": (["ok"], []),
    "write": (["wrote", "wrote 0", *WRITE_FAULTS, NOT_WRITTEN], []),
    "pollwrite": (["wrote", "wrote 0", *WRITE_FAULTS, "pending"], []),
    "wsubmit": (["ok"], []),
    "wend": (["ok"], []),
    "flush": (["ok", *WRITE_FAULTS, NOT_WRITTEN], []),
    "flushend": (["ok", *WRITE_FAULTS, NOT_WRITTEN], []),
    "pollflush": (["ok", *WRITE_FAULTS, "pending"], []),
    "pollflushend": (["ok", *WRITE_FAULTS, "pending"], []),
    "msg": (["ok"], []),
    "mreq": (["request", *ENDINGS, NOT_WRITTEN], []),
    "mresp": (["response", "response -", *ENDINGS, TIMED_OUT], []),
    "mcount": (["count 0", "count 1", "count 16"], []),
    "close m": (["ok"], []),
}

CONFIGURATIONS = [
    # interface 0 with bulk IN 81 and bulk OUT 02 of 64 bytes
    "090220000101008032" "0904000002ff000000" "07058102400000" "07050202400000",
    # interface 0 with interrupt IN 81 of 8 bytes and interrupt OUT 01 of 16; interface 1 with bulk IN 82 of 0 bytes
    "090230000201008032" "0904000002030000000705810308000a" "0705010310000a" "09040100010800000007058202000000",
    # value 2: interface 3, twice, with bulk IN 83 of 512 bytes in the setting 1 alone
    "090222000102008032" "0904030000ff000000" "0904030101ff000000" "07058302000200",
]
# for the scripts about owners
MANY_SETTINGS = [
    # value 1: interface 0 with the settings 0 (bulk IN 81, bulk OUT 02) and 1 (interrupt IN 81), interface 1 with the
    # settings 0 (no endpoint) and 2 (bulk IN 82)
    "090249000201008032" "0904000002ff000000" "07058102400000" "07050202400000" "0904000101ff000000" "07058103080001"
    "090401000008000000" "090401020108000000" "07058202400000",
    # value 2: interface 0 with bulk OUT 02, and interface 3 with bulk IN 81
    "090229000202008032" "0904000001ff000000" "07050202400000" "0904030001ff000000" "07058102400000",
    # value 0: interface 1 with bulk IN 82
    "090219000100008032" "0904010001ff000000" "07058202400000",
]
DEVICE = "120100020000004{0}aaaabbbb00010000000{1}"


def descriptors(r):
    count = r.randint(1, 2)
    body = "".join(r.choice(CONFIGURATIONS) for _ in range(count))
    whole = DEVICE.format(r.randint(0, 9), count) + body
    if r.random() < 0.1:
        whole = whole[: 2 * r.randint(0, len(whole) // 2)]
    if whole and r.random() < 0.2:
        whole = damaged(r, bytearray.fromhex(whole)).hex()
    return whole or "-"


def damaged(r, data):
    """With some bytes changed, most of them to lengths and types of descriptors."""
    for _ in range(r.randint(1, 4)):
        data[r.randrange(len(data))] = r.choice([0, 1, 2, 3, 4, 5, 6, 7, 8, 9, 10, r.randrange(256)])
    return data


def name(r, letter, most):
    """A name, the low ones more often."""
    return f"{letter}{min(r.randrange(most) for _ in range(2 if r.random() < 0.8 else 1))}"


def hexes(r, lengths):
    return r.randbytes(r.choice(lengths)).hex() or "-"


def address(r):
    return r.choice(["81", "82", "83", "01", "02", "91"])


# by call of the kernel a line that makes it, d an open device, i an interface and e an endpoint
LINES_OF = {
    "open": "open {d} 1 6", "readdesc": "open {d} 1 6", "getconfig": "active {d}", "setconfig": "setconfig {d} 1",
    "reset": "reset {d}", "claim": "claim {d} 0 {i}", "detachclaim": "detachclaim {d} 0 {i}", "detach": "detach {d} 0",
    "attach": "attach {d} 0", "alt": "alt {i} 1", "halt": "halt {e}", "speed": "speed {d}", "submit": "submitin {e} 64",
}
ERRNOS = [2, 16, 19, 22, 61] * 2 + [1, 5, 13, 71, 4095]


def step(r):
    k = name(r, "k", 3)
    return r.choice([
        lambda: f"pkt {k} {address(r)} {hexes(r, [0, 1, 7, 8, 16, 63, 64, 64, 65, 512])}",
        lambda: f"pkt {k} 81 {hexes(r, [0, 1, 8, 64])}",
        lambda: f"ack {k} {address(r)}",
        lambda: f"ack {k} {r.choice(['01', '02'])}",
        lambda: f"echo {k} {r.choice(['01', '02', '02', address(r)])} {r.choice(['81', '81', '82', address(r)])}",
        lambda: f"fail {k} {address(r)} {r.choice([2, 5, 19, 22, 32, 62, 70, 71, 75, 84, 104, 108, 110, 4095])}",
        lambda: "timer",
        lambda: f"clock {r.randrange(4000)}",
        lambda: f"clock {r.randrange(5) * 10**9}",
        lambda: f"refuse {k} submit {r.choice([2, 12, 16, 19, 22, 28, 32, 71, 104, 108, 110])}",
        lambda: f"refuse {k} {r.choice(list(LINES_OF))} {r.choice(ERRNOS)}",
        lambda: "reap",
        lambda: "reap",
        lambda: f"reap {r.randrange(12)}",
        lambda: f"unplug {k}" if r.random() < 0.2 else "reap",
    ])()


def steps(r):
    return " ; ".join(step(r) for _ in range(r.randint(1, 4)))


def own(r):
    return f" : {steps(r)}" if r.random() < 0.6 else ""


def length(r):
    return r.choice([0, 1, 8, 16, 24, 63, 64, 128, 512])


def timeout(r):
    return r.choice(["0", "1", "50", "1000", "1000000000", "max"])


def names(r):
    return name(r, "d", 2), name(r, "i", 3), name(r, "e", 3)


def deadline(r):
    """How long a transfer with a deadline may take."""
    return r.choice(["0", "50", "500", "1000", "2000", "86400000000001", "max"])


def deadline_call(r, e):
    """Hands in a transfer with a deadline."""
    return r.choice([
        lambda: f"dsubmitin {e} {length(r)} {deadline(r)}",
        lambda: f"dsubmitin {e} 64 {deadline(r)}",
        lambda: f"dsubmitout {e} {hexes(r, [0, 1, 64, 130])} {deadline(r)}",
    ])()


def transfer_call(r):
    d, i, e = names(r)
    return r.choice([
        lambda: f"open {d} 1 {r.randint(6, 8)}",
        lambda: f"claim {d} {r.choice([0, 0, 1, 3])} {i}",
        lambda: f"endpoint {e} {i} {address(r)} {r.choice(['bulk-in', 'bulk-out', 'int-in', 'int-out'])}",
        lambda: f"endpoint {e} {i} 81 {r.choice(['bulk-in', 'int-in'])}",
        lambda: f"submitin {e} {length(r)}",
        lambda: f"submitin {e} 64",
        lambda: f"submitout {e} {hexes(r, [0, 1, 16, 63, 64, 130])}",
        lambda: f"submitout {e} {hexes(r, [1, 64])}",
        lambda: deadline_call(r, e),
        lambda: deadline_call(r, e),
        lambda: f"poll {e}",
        lambda: f"poll {e}",
        lambda: f"pending {e}",
        lambda: f"wait {e} {timeout(r)}{own(r)}",
        lambda: f"xferin {e} {length(r)} {timeout(r)}{own(r)}",
        lambda: f"xferout {e} {hexes(r, [0, 1, 64, 100])} {timeout(r)}{own(r)}",
        lambda: f"cancel {e}",
        lambda: f"close {e}" if r.random() < 0.4 else f"poll {e}",
        lambda: "now",
        lambda: f"{r.choice(['devdesc', 'descriptors'])} {d}",
    ])()


def owner_call(r):
    d, i, e = names(r)
    number = r.choice([0, 0, 1, 1, 3, 7])
    return r.choice([
        lambda: f"open {d} 1 {r.randint(6, 8)}",
        lambda: f"clone {name(r, 'd', 3)} {d}",
        lambda: f"clone {name(r, 'i', 4)} {i}",
        lambda: f"close {d}" if r.random() < 0.3 else f"active {d}",
        lambda: f"close {i}",
        lambda: f"close {e}",
        lambda: f"release {i}",
        lambda: f"claim {d} {number} {i}",
        lambda: f"claim {d} 0 {i}",
        lambda: f"detachclaim {d} {number} {i}",
        lambda: f"detachclaim {d} 0 {i}",
        lambda: f"detach {d} {number}",
        lambda: f"attach {d} {number}",
        lambda: f"setconfig {d} {r.choice([0, 1, 1, 1, 2, 2, 7])}",
        lambda: f"reset {d}" if r.random() < 0.15 else f"speed {d}",
        lambda: f"alt {i} {r.choice([0, 1, 2])}",
        lambda: f"alt {i} {r.choice([0, 1, 2])}",
        lambda: f"getalt {i}",
        lambda: f"ifdesc {i}",
        lambda: f"active {d}",
        lambda: f"endpoint {e} {i} {r.choice(['81 bulk-in', '02 bulk-out', '82 bulk-in', '81 int-in'])}",
        lambda: f"endpoint {e} {i} 81 bulk-in",
        lambda: f"submitin {e} 64",
        lambda: f"submitin {e} 64",
        lambda: f"submitout {e} {hexes(r, [1, 64])}",
        lambda: f"poll {e}",
        lambda: f"wait {e} {timeout(r)}{own(r)}",
        lambda: f"halt {e}",
    ])()


FAILURES = [5, 22, 32, 71] * 4 + [2, 5, 19, 22, 32, 62, 70, 71, 75, 84, 104, 108, 110, 4095]
# string descriptors, and bytes that are none
STRINGS = [
    "04030904", "06030904070c", "060341004200", "080341003dd800de", "0603410000d8", "040300dc", "0503410042", "0203", "0403ac20",
    "06034100", "040241ff", "02", "-",
]


def control_step(r):
    k = name(r, "k", 2)
    return r.choice([
        lambda: f"pkt {k} 80 {hexes(r, [0, 1, 7, 8, 63, 64, 65])}",
        lambda: f"pkt {k} 80 {r.choice(STRINGS)}",
        lambda: f"pkt {k} 80 {r.choice(STRINGS)}",
        lambda: f"ack {k} 00",
        lambda: f"ack {k} 00",
        lambda: f"fail {k} {r.choice(['80', '80', '00'])} {r.choice(FAILURES)}",
        lambda: control_failure(r),
        lambda: control_failure(r),
        lambda: "timer",
        lambda: "timer",
        lambda: f"clock {r.randrange(4000)}",
        lambda: f"refuse {k} submit {r.choice(FAILURES)}",
        lambda: "reap",
        lambda: f"reap {r.randrange(12)}",
        lambda: f"unplug {k}" if r.random() < 0.2 else "reap",
        lambda: step(r),
    ])()


def control_steps(r):
    return " ; ".join(control_step(r) for _ in range(r.randint(1, 3)))


def control_failure(r):
    return f"fail k0 {r.choice(['80', '80', '00'])} {r.choice(FAILURES)}"


def control_own(r):
    return r.choice(["", f" : {control_failure(r)}", f" : {control_steps(r)}", f" : {control_steps(r)}"])


def control_words(r):
    """Whom a control transfer goes to, and what it asks for."""
    kind, to = r.choice(["standard", "class", "vendor"]), r.choice(["device", "interface", "endpoint", "other"])
    numbers = f"{r.randrange(256):02x} {r.randrange(65536):04x} {r.randrange(65536):04x}"
    return f"{name(r, r.choice('ddi'), 2)} {kind} {to} {numbers}"


def control_call(r):
    d, f = name(r, "d", 2), name(r, "f", 3)
    wanted, data = r.choice([0, 1, 8, 64, 65535]), hexes(r, [0, 1, 8, 64])
    return r.choice([
        lambda: f"ctlin {control_words(r)} {wanted} {deadline(r)}{control_own(r)}",
        lambda: f"ctlout {control_words(r)} {data} {deadline(r)}{control_own(r)}",
        lambda: f"fin {f} {control_words(r)} {wanted} {deadline(r)}",
        lambda: f"fin {f} {control_words(r)} 64 {deadline(r)}",
        lambda: f"fout {f} {control_words(r)} {data} {deadline(r)}",
        lambda: f"fpoll {f}",
        lambda: f"fpoll {f}",
        lambda: f"fpoll {f}",
        lambda: f"fwait {f}{control_own(r)}",
        lambda: f"fwait {f} : {control_failure(r)}",
        lambda: f"close {f}",
        lambda: f"getdesc {d} {r.randrange(1, 8)} {r.randrange(3)} 0000 {deadline(r)}{control_own(r)}",
        lambda: f"langs {d} {deadline(r)}{control_own(r)}",
        lambda: f"langs {d} {deadline(r)} : pkt k0 80 {r.choice(STRINGS)}",
        lambda: f"string {d} {r.randint(1, 255)} 0409 {deadline(r)}{control_own(r)}",
        lambda: f"string {d} 1 0409 {deadline(r)} : pkt k0 80 {r.choice(STRINGS)}",
        lambda: deadline_call(r, name(r, "e", 2)),
        lambda: f"poll {name(r, 'e', 2)}",
        lambda: "now",
    ])()


def reader_step(r):
    k = name(r, "k", 2)
    return r.choice([
        lambda: f"pkt k0 81 {hexes(r, [0, 1, 5, 8, 63, 64, 64, 64])}",
        lambda: f"pkt k0 81 {hexes(r, [0, 1, 5, 8, 63, 64, 64, 64])}",
        lambda: f"pkt k0 81 {hexes(r, [64, 65])}",
        lambda: f"fail k0 81 {r.choice(FAILURES)}" if r.random() < 0.6 else "reap",
        lambda: f"refuse k0 submit {r.choice(FAILURES)}" if r.random() < 0.5 else "reap",
        lambda: f"refuse k0 halt {r.choice(ERRNOS)}" if r.random() < 0.3 else "reap",
        lambda: f"clock {r.randrange(4000)}",
        lambda: "timer",
        lambda: "reap",
        lambda: f"reap {r.randrange(12)}",
        lambda: f"unplug {k}" if r.random() < 0.1 else "reap",
    ])()


def reader_steps(r):
    return " ; ".join(reader_step(r) for _ in range(r.randint(1, 4)))


def reader_own(r):
    return f" : {reader_steps(r)}" if r.random() < 0.7 else ""


def reading_call(r):
    """A call that reads, of either kind."""
    x, short, most = name(r, "r", 3), r.choice(["", "s", "s"]), r.choice([1, 2, 5, 64, 64, 200, 65536])
    return r.choice([
        lambda: f"{short}read {x} {most}{reader_own(r)}",
        lambda: f"{short}read {x} {most}{reader_own(r)}",
        lambda: f"poll{short}read {x} {most}",
        lambda: f"{short}fill {x}{reader_own(r)}",
        lambda: f"poll{short}fill {x}",
        lambda: f"{short}consume {x} {r.choice([0, 1, 5, 64, 65536])}",
        lambda: f"isend {x}",
        lambda: f"endmsg {x}",
        lambda: f"endmsg {x}",
    ])()


def reader_call(r):
    e, x = name(r, "e", 3), name(r, "r", 3)
    if r.random() < 0.7:
        return reading_call(r)
    return r.choice([
        lambda: f"reader {x} {e} {r.choice([0, 1, 64, 65, 128, 512, 65536])}",
        lambda: f"reader {x} e0 64",
        lambda: f"endpoint {e} i0 {r.choice(['81 bulk-in', '81 int-in', '82 bulk-in', '02 bulk-out'])}",
        lambda: f"inner {e} {x}" if r.random() < 0.5 else f"timeout {x} {timeout(r)}",
        lambda: f"num {x} {r.choice([0, 1, 2, 2, 3, 8, 64, 65])}",
        lambda: f"num {x} {r.choice([1, 2, 4])}",
        lambda: f"cancel {x}\n! reap ; reap ; reap\n{r.choice(['read', 'pollread'])} {x} 8\n{r.choice(['', 'poll'])}{r.choice(['', 's'])}fill {x}",
        lambda: f"cancel {x}",
        lambda: f"halt {x}",
        lambda: f"halt {x}",
        lambda: f"close {x}" if r.random() < 0.6 else f"num {x} 2",
        lambda: transfer_call(r),
    ])()


def lines_of_readers(r):
    """Setup lines and the first calls of a script in which most calls read."""
    kind = r.randrange(2)
    lines = [f"device k0 1 6 3 1 {DEVICE.format(0, 1)}{CONFIGURATIONS[kind]}", "open d0 1 6", "claim d0 0 i0"]
    lines += [f"endpoint e0 i0 81 {['bulk-in', 'int-in'][kind]}", f"endpoint e1 i0 {['02 bulk-out', '01 int-out'][kind]}"]
    lines += ["submitin e0 64"] * (r.random() < 0.2)
    return lines + [f"reader r0 e0 {r.choice([8, 64, 64, 128, 512])}", f"num r0 {r.choice([1, 1, 2, 4])}"]



def crowd_steps(r):
    return r.choice([
        lambda: "clock 100 ; timer",
        lambda: " ; ".join(["reap"] * r.randint(1, 64)),
        lambda: " ; ".join(["clock 100", "timer", *["reap"] * r.randint(1, 64)]),
        lambda: steps(r),
        lambda: reader_steps(r),
        lambda: control_steps(r),
    ])()


def crowd_call(r):
    if r.random() < 0.1:
        return "now"
    return r.choice([transfer_call, owner_call, control_call, reader_call, reading_call, writer_call, tree_call, lambda r: client_call(r, {})])(r)


def lines_of_crowds(r):
    """Setup lines and the first calls of a script in which more than 1,024 tickets are unreaped: a read hands in a transfer for each
    packet of no bytes that was reaped before."""
    kind, depth = r.randrange(2), r.randint(2, 64)
    lines = [f"device k0 1 6 3 1 {DEVICE.format(0, 1)}{CONFIGURATIONS[kind]}", "open d0 1 6", "claim d0 0 i0"]
    lines += [f"endpoint e0 i0 81 {['bulk-in', 'int-in'][kind]}", f"endpoint e1 i0 {['02 bulk-out', '01 int-out'][kind]}"]
    lines += ["reader r0 e0 64", f"num r0 {depth}", "pollread r0 5", "writer w0 e1 64"]
    lines += ["! " + " ; ".join(["pkt k0 81 -"] * depth + ["reap"] * depth)]
    lines += ["fin f0 d0 vendor device 30 0000 0000 64 100\nclose f0"] * (1024 - r.randrange(depth))
    return lines + [r.choice(["pollread r0 5", "read r0 5", "pollfill r0", "fill r0 : reap"])]


def writer_step(r):
    return r.choice([
        lambda: "ack k0 02",
        lambda: "ack k0 02",
        lambda: "ack k0 02 ; ack k0 02 ; ack k0 01",
        lambda: f"echo k0 {r.choice(['02', '02', '01'])} 81",
        lambda: "echo k0 02 81 ; echo k0 02 81 ; echo k0 02 81",
        lambda: f"fail k0 02 {r.choice([*FAILURES, 2, 104, 110])}",
        lambda: f"refuse k0 submit {r.choice(FAILURES)}" if r.random() < 0.6 else "reap",
        lambda: f"clock {r.randrange(4000)}",
        lambda: "reap",
        lambda: "reap ; reap",
        lambda: f"unplug {name(r, 'k', 2)}" if r.random() < 0.1 else "reap",
    ])()


def writer_steps(r):
    return " ; ".join(writer_step(r) for _ in range(r.randint(1, 4)))


def writer_own(r):
    return f" : {writer_steps(r)}" if r.random() < 0.7 else ""


def writing_call(r):
    """A call that writes, submits or flushes."""
    x = name(r, "w", 3)
    data = hexes(r, [0, 1, 5, 16, 63, 64, 64, 65, 128, 200])
    return r.choice([
        lambda: f"write {x} {data}{writer_own(r)}",
        lambda: f"write {x} {data}{writer_own(r)}",
        lambda: f"write {x} {data}{writer_own(r)}",
        lambda: f"pollwrite {x} {data}",
        lambda: f"pollwrite {x} {data}",
        lambda: f"wsubmit {x}",
        lambda: f"wend {x}",
        lambda: f"flush {x}{writer_own(r)}",
        lambda: f"flushend {x}{writer_own(r)}",
        lambda: f"pollflush {x}",
        lambda: f"pollflush {x}",
        lambda: f"pollflushend {x}",
        lambda: f"pollflushend {x}",
    ])()


def writer_call(r):
    e, x = name(r, "e", 3), name(r, "w", 3)
    if r.random() < 0.75:
        return writing_call(r)
    return r.choice([
        lambda: f"writer {x} {e} {r.choice([0, 1, 64, 65, 128, 512, 65536])}",
        lambda: f"writer {x} e1 64",
        lambda: f"endpoint {e} i0 {r.choice(['02 bulk-out', '02 bulk-out', '01 int-out', '81 bulk-in'])}",
        lambda: f"inner {e} {x}" if r.random() < 0.5 else f"timeout {x} {timeout(r)}",
        lambda: f"inner e1 {x}\nsubmitout e1 {hexes(r, [1, 64, 64, 128])}\nwriter {x} e1 {r.choice([64, 64, 128])}",
        lambda: f"num {x} {r.choice([0, 1, 2, 2, 3, 8, 64, 65])}",
        lambda: f"num {x} {r.choice([1, 2, 4])}",
        lambda: f"close {x}" if r.random() < 0.6 else f"num {x} 2",
        lambda: transfer_call(r),
        lambda: reader_call(r),
    ])()


def lines_of_writers(r):
    """Setup lines and the first calls of a script in which most calls write."""
    kind = r.choice([0, 0, 0, 1])
    lines = [f"device k0 1 6 3 1 {DEVICE.format(0, 1)}{CONFIGURATIONS[kind]}", "open d0 1 6", "claim d0 0 i0"]
    lines += [f"endpoint e0 i0 81 {['bulk-in', 'int-in'][kind]}", f"endpoint e1 i0 {['02 bulk-out', '01 int-out'][kind]}"]
    lines += [f"submitout e1 {'5a' * r.choice([1, 64, 128])}"] * (r.random() < 0.2)
    if r.random() < 0.4:
        lines += [f"reader r0 e0 {r.choice([8, 64, 64, 128, 192])}", f"num r0 {r.choice([1, 2, 4])}", "pollsread r0 1"]
    return lines + [f"writer w0 e1 {r.choice([8, 64, 64, 128, 512])}", f"num w0 {r.choice([1, 1, 2, 4])}"]


def packets_of(message):
    """The steps by which a device sends these bytes as a message, in packets of 64 bytes."""
    packets = [message[at : at + 64].hex() or "-" for at in range(0, len(message) + 1, 64)]
    return " ; ".join(f"pkt k0 81 {it}" + " ; reap" * (at % 8 == 7) for at, it in enumerate(packets))


def response_steps(r, due):
    """What a device does where this tag is due to a client: mostly it sends a message with that tag."""
    tag = due.to_bytes(4, "little")
    body = r.randbytes(r.choice([0, 0, 1, 5, 59, 60, 61, 124, 508, 600, 4096]))
    other = r.choice([due + 1, 0, 256, 2**32 - 1]).to_bytes(4, "little")
    usual = [lambda: packets_of(tag + body)] * 24 + [lambda: "echo k0 02 81"] * 8
    ends = [lambda: packets_of(other + body), lambda: packets_of(tag[: r.randrange(4)]), lambda: packets_of(tag + bytes(4097))]
    return r.choice([*usual, *ends, lambda: f"fail k0 81 {r.choice(FAILURES)}", lambda: f"fail k0 81 {r.choice([2, 32, 108])}"])()


def client_steps(r):
    return " ; ".join(r.choice([writer_step, writer_step, reader_step])(r) for _ in range(r.randint(1, 4)))


def client_own(r):
    return r.choice(["", "", " : ack k0 02", f" : {client_steps(r)}"])


def request_call(r, x, due, body, own_steps):
    """Sends a request, where it can: it is counted among those of the client."""
    due.setdefault(x, [0, 0])[0] += 1
    return f"mreq {x} {body}{own_steps}"


def response_call(r, x, due):
    """Takes a response, and counts on it that it comes, where a request is outstanding."""
    requests, responses = due.setdefault(x, [0, 0])
    if r.random() < 0.15:
        return f"mresp {x}{client_own(r)}"
    due[x][1] = min(requests, responses + 1)
    return f"mresp {x} : {response_steps(r, responses)}"


def new_client(r, x, due):
    """Makes a client of endpoints that were used before, now and then."""
    due[x] = [0, 0]
    lines = ["endpoint e0 i0 81 bulk-in", "endpoint e1 i0 02 bulk-out"]
    lines += r.choice([[], [], ["submitin e0 64", "! pkt k0 81 0102 ; reap", "poll e0"], ["xferout e1 0102 50 : ack k0 02"], ["submitout e1 -", f"! {r.choice(['ack k0 02 ; ', ''])}reap", "poll e1"]])
    return "\n".join([*lines, f"msg {x} {r.choice(['e1 e0'] * 19 + ['e0 e1'])}"])


def many_requests(r, x, due):
    """More requests than may be outstanding, now and then."""
    count = r.choice([2, 5, 17])
    due.setdefault(x, [0, 0])[0] += count
    return "\n".join([f"mreq {x} - : ack k0 02"] * count + [f"mcount {x}"])


def client_call(r, due):
    x = "m0" if r.random() < 0.9 else name(r, "m", 3)
    return r.choice([
        lambda: request_call(r, x, due, hexes(r, [0, 1, 5, 59, 60, 61, 124, 200, 4096]), client_own(r)),
        lambda: request_call(r, x, due, hexes(r, [0, 1, 60]), " : ack k0 02 ; ack k0 02"),
        lambda: request_call(r, x, due, hexes(r, [0, 1, 60]), " : ack k0 02 ; ack k0 02"),
        lambda: f"mreq {x} {hexes(r, [4096, 4097])}",
        lambda: response_call(r, x, due),
        lambda: response_call(r, x, due),
        lambda: response_call(r, x, due),
        lambda: response_call(r, x, due),
        lambda: "\n".join([f"mreq {x} 01"] * 5 + [f"mreq {x} 02 : fail k0 02 {r.choice([*FAILURES, 2, 32, 108])}"]),
        lambda: f"mcount {x}",
        lambda: f"msg {name(r, 'm', 3)} {name(r, 'e', 3)} {name(r, 'e', 3)}",
        lambda: f"close {x}\n! {' ; '.join(['reap'] * 9)}\n{new_client(r, x, due)}",
        lambda: many_requests(r, x, due),
        lambda: r.choice([transfer_call, reader_call, writer_call])(r),
    ])()


def lines_of_clients(r, due):
    """Setup lines and the first calls of a script in which most calls send requests and take responses."""
    lines = [f"device k0 1 6 3 1 {DEVICE.format(0, 1)}{CONFIGURATIONS[0]}", "open d0 1 6", "claim d0 0 i0"]
    return [*lines, new_client(r, "m0", due)]


def deadline_step(r):
    return r.choice([
        lambda: f"pkt k0 81 {hexes(r, [0, 1, 8, 64])}",
        lambda: "ack k0 02",
        lambda: f"clock {r.randrange(4000)}",
        lambda: f"clock {r.randrange(4000)}",
        lambda: "reap",
        lambda: "reap ; reap",
    ])()


def deadline_steps(r):
    return " ; ".join(deadline_step(r) for _ in range(r.randint(1, 3)))


def timer_steps(r):
    return " ; ".join([deadline_steps(r), *r.choice([[], ["timer"], ["timer", "reap ; reap"]])])


def due_call(r):
    """A call on an endpoint whose transfers have deadlines, and which nothing else discards."""
    e = name(r, "e", 2)
    return r.choice([
        lambda: deadline_call(r, e),
        lambda: deadline_call(r, e),
        lambda: deadline_call(r, r.choice(["e0", "e1"])),
        lambda: f"poll {e}",
        lambda: f"poll {e}",
        lambda: f"wait {e} {timeout(r)}{r.choice(['', f' : {deadline_steps(r)}'])}",
        lambda: "now",
    ])()


def awaited_call(r):
    """The same, or a control transfer that is waited for."""
    own_steps = r.choice(["", f" : {deadline_steps(r)}"])
    return due_call(r) if r.random() < 0.7 else f"ctlin {control_words(r)} 64 {deadline(r)}{own_steps}"


def lines_of_deadlines(r):
    """Setup lines and the first calls of a script in which transfers have deadlines."""
    lines = [f"device k0 1 6 3 1 {DEVICE.format(0, 1)}{CONFIGURATIONS[0]}", "open d0 1 6", "claim d0 0 i0"]
    return lines + ["endpoint e0 i0 81 bulk-in", "endpoint e1 i0 02 bulk-out"]


CONTROLLER = "/sys/devices/pci0"
HUB = f"{CONTROLLER}/usb1"
FOLDERS = [HUB, f"{HUB}/1-6", f"{HUB}/1-7", "/sys/none", "/"]
ENTRIES = ["usb1", "usb2", "1-6", "1-7", "1-7.2", "1-6:1.0", "usbmon", "x"]
# by attribute the values that it has most of the time
DEVICE_VALUES = {
    "busnum": ["1"], "devnum": ["6", "7", "8", " 6\n"], "idVendor": ["aaaa", "1d6b", "0xAAAA"], "idProduct": ["bbbb", "+2"],
    "bcdDevice": ["0100"], "version": [" 2.00\n", "3.10", "2.0.1"], "bDeviceClass": ["00", "09", "ff"],
    "bDeviceSubClass": ["00"], "bDeviceProtocol": ["00", "01"],
}
OTHER_VALUES = {
    "devpath": ["0", "6", "1.4.2", "1..2", "256", ""], "speed": ["1.5", "12", "480", "5000", "10000", "high", "9"],
    "product": ["Box", "", "Gr\u00f6\u00dfe"], "manufacturer": ["Linux"], "serial": ["12", " 12\n"],
}
INTERFACE_VALUES = {
    "bInterfaceNumber": ["00", "01", "ff"], "bInterfaceClass": ["ff", "08", "00"], "bInterfaceSubClass": ["00", "06"],
    "bInterfaceProtocol": ["00", "50"],
}
ODD_VALUES = ["", "+", "0x", "0x+2a", "+0x2a", "100", "256", "10000", "2..0", ".", "-1", "1 2", "g", "\u00a06"]
DRIVERS = ["../bus/pci/drivers/xhci_hcd", "ehci-pci", "OHCI/.", "uhci_hcd/", "vhci", "hci_xhci", "a/..", "dwc2", "/"]
SELECTORS = [
    "vid aaaa", "vidpid AAAA bbbb", "vid 1d6b", "class ff", "class 00", "class 09", "classsub 08 06", "classsubproto ff 00 00",
    "classsubproto 08 06 50", "serial =12", "serial 3132", "serial -",
]


def value_word(r, data):
    """Bytes as a word of a script."""
    if data and all(0x21 <= byte <= 0x7E for byte in data) and r.random() < 0.7:
        return f"={data.decode()}"
    return data.hex() or r.choice(["-", "="])


def attribute(r, folder, name, values):
    if r.random() < 0.01:
        return f"deny {folder} {name} {r.choice(ERRNOS)}"
    value = r.choice(ODD_VALUES if r.random() < 0.02 else values).encode()
    value += b"\xff" if r.random() < 0.005 else b""
    return f"attr {folder} {name} {value_word(r, value)}"


def attributes(r, folder, values, share):
    return [attribute(r, folder, name, values[name]) for name in values if r.random() < share]


def lines_of_folder(r, folder):
    lines = attributes(r, folder, DEVICE_VALUES, 0.99) + attributes(r, folder, OTHER_VALUES, 0.6)
    for child in r.sample(["1-6:1.1", "1-6:1.0", "power", "b:2", "a:2"], r.randint(0, 4)):
        lines += [f"child {folder} {child}"] * (r.random() < 0.9)
        lines += attributes(r, f"{folder.rstrip('/')}/{child}", INTERFACE_VALUES, 0.97)
        lines += attributes(r, f"{folder.rstrip('/')}/{child}", {"interface": ["Disk", ""]}, 0.3)
    return lines


def packet(r):
    action = r.choice(["remove", "remove", "add", "add", "add", "change"])
    path = r.choice(["/devices/pci0/usb1/1-6", "devices/pci0/usb1/1-7", "///devices/pci0/usb1", "/none"])
    parts = [f"ACTION={action}", f"BUSNUM={r.choice(['001', '1', '256'])}", f"DEVNUM={r.choice(['006', '7', 'x'])}", f"DEVPATH={path}"]
    parts += [it for it in ("SUBSYSTEM=usb", "DEVTYPE=usb_device", "DEVTYPE=usb_interface", "SUBSYSTEM=net") if r.random() < 0.15]
    parts += [f"ACTION={r.choice(['add', 'remove'])}"] * (r.random() < 0.1) + ["NOTHING"] * (r.random() < 0.1)
    r.shuffle(parts)
    body = "\0".join(parts[: r.choice([9, 9, 9, 3])]).encode() + r.choice([b"", b"\0", b"\0\xff=1"])
    head = r.choice([b"libudev\0"] * 19 + [b"libudeW\0"]) + b"\xfe\xed\xca\xfe" + bytes(4)
    start, length = r.choice([24] * 9 + [20, 30]), len(body) + r.choice([0] * 9 + [1, -3])
    return head + start.to_bytes(4, "little") + length.to_bytes(4, "little") + body


def lines_of_trees(r):
    """Setup lines and the first calls of a script in which most calls are about a tree and packets."""
    lines = [f"device k0 1 6 3 1 {DEVICE.format(0, 1)}{CONFIGURATIONS[0]}"] if r.random() < 0.8 else []
    for folder in FOLDERS[: r.randint(2, 5)]:
        lines += lines_of_folder(r, folder)
    lines += [f"entry {it} {r.choice(FOLDERS)}" for it in r.choices(ENTRIES, k=r.randint(2, 8))]
    lines += [f"link {it} driver {r.choice(DRIVERS)}" for it in (CONTROLLER, HUB, "/") if r.random() < 0.8]
    lines += [f"uevent {r.choice([2] * 9 + [0, 1, 3, 4294967295])} {value_word(r, packet(r))}" for _ in range(r.randint(0, 6))]
    if r.random() < 0.1:
        lines.append(f"root {r.choice([1, 2, 5, 13])}")
    if r.random() < 0.3:
        r.shuffle(lines)
    return lines


def tree_call(r):
    folder = r.choice(FOLDERS)
    return r.choice([
        lambda: "list",
        lambda: "buses",
        lambda: f"probe {folder}",
        lambda: f"probe {folder}",
        lambda: " ".join([f"match {folder}", *r.choices(SELECTORS, k=r.choice([0, 1, 1, 2]))]),
        lambda: "hotplug",
        lambda: "hotplug",
        lambda: f"openpath {name(r, 'd', 3)} {folder}",
    ])()


def lines_of_controls(r):
    """Setup lines and the first calls of a script in which most calls are control transfers."""
    lines = lines_of_transfers(r)
    return lines + ["open d0 1 6", "claim d0 0 i0", *(["open d1 1 7"] if r.random() < 0.5 else [])]


def armed_call(r):
    """A refusal, and a line that makes its call."""
    call, line = r.choice(list(LINES_OF.items()))
    d, i, e = names(r)
    line = "halt {x}" if call == "halt" and r.random() < 0.5 else line
    return [f"! refuse {name(r, 'k', 2)} {call} {r.choice(ERRNOS)}", line.format(d=d, i=i, e=e, x=name(r, "r", 2))]


def lines_of_transfers(r):
    """Setup lines and the first calls of a script in which most calls are transfers."""
    lines = [f"device k{k} 1 {6 + k} 3 {r.choice([1, 1, 1, 2])} {descriptors(r)}" for k in range(r.randint(1, 3))]
    if r.random() < 0.8:
        kind = r.randrange(2)
        lines[0] = f"device k0 1 6 3 1 {DEVICE.format(0, 1)}{CONFIGURATIONS[kind]}"
        lines += ["open d0 1 6", "claim d0 0 i0", f"endpoint e0 i0 81 {['bulk-in', 'int-in'][kind]}"]
        lines += [f"endpoint e1 i0 {['02 bulk-out', '01 int-out'][kind]}"]
    return lines


FIRST_CALLS = [
    [],
    ["claim d0 0 i0", "endpoint e0 i0 81 bulk-in"],
    ["claim d0 0 i0", "alt i0 1", "getalt i0", "ifdesc i0", "claim d0 1 i1"],
    ["detachclaim d0 0 i0", "endpoint e0 i0 81 bulk-in", "submitin e0 64", "close i0"],
    ["detachclaim d0 0 i0", "! refuse k0 attach 5", "release i0", "detach d0 0"],
    ["clone d1 d0", "detachclaim d1 1 i0", "clone i1 i0", "alt i1 2", "ifdesc i0"],
    ["open d1 1 6", "setconfig d1 2", "clone d2 d0", "active d2", "! refuse k0 getconfig 5", "active d0"],
    # (the value that d0 keeps is no longer that of the kernel)
    ["open d1 1 6", "setconfig d1 2", "claim d0 3 i0", "! refuse k0 getconfig 5", "ifdesc i0"],
]


def lines_of_owners(r):
    """Setup lines and the first calls of a script in which most calls are about owners."""
    drivers = [f"driver k{k} {r.choice([0, 0, 1, 3, 255])}" for k in range(4)]
    lines = [r.choice(drivers)] if r.random() < 0.3 else []
    for k in range(r.randint(1, 3)):
        count = r.choice([2, 2, 3])
        whole = DEVICE.format(0, count) + "".join(MANY_SETTINGS[:count])
        value = r.choice([1, 1, 1, 1, 1, 1, 2, 0, 0, 7])
        lines.append(f"device k{k} 1 {6 + k} {r.randrange(8)} {value} {whole}")
    lines += [it for it in drivers if r.random() < 0.3]
    return lines + ["open d0 1 6", *r.choice(FIRST_CALLS)]


def spelled(r, line):
    """The same line in other bytes: more spaces, capital digits, a CR."""
    words = line.split(" ")
    if r.random() < 0.5:
        words = [word.upper() if re.fullmatch("(?![def][0-9]+$)[0-9a-f]{2,}", word) and words[0] not in SETUP[2:] else word for word in words]
    return " " * r.randrange(3) + (" " * r.randint(1, 2)).join(words) + r.choice(["", " ", "\r"])


def burst(r):
    """More transfers than an endpoint may have pending, or than may be unreaped."""
    if r.random() < 0.5:
        return [f"submitin {name(r, 'e', 2)} 64"] * r.randint(60, 70)
    return ["fin f2 d0 vendor device 30 0000 0000 64 1000\nclose f2"] * r.randint(1000, 1030)


MALFORMED = [
    "poll", "poll e64", "poll e00", "poll d0", "\tnow", "now\t", "! ", "!", "! reap ;", "! ; reap", "! now", "clock 1", "now x",
    "now # x", "# \x01", "poll e0 : reap", "wait e0 1 :", "wait e0 1 reap", "wait e0 1000000000000000001", "! clock max",
    "! fail k0 81 0", "! fail k0 81 4096", "! refuse k0 close 5", "! reap 4294967296", "submitin e0 65537", "submitin e0 +1",
    "submitout e0 1", "submitout e0 0g", "submitin e0 00000000000000000064", "dsubmitin e0 64", "dsubmitin e0 65537 1",
    "dsubmitin r0 64 1", "dsubmitin e0 64 1 : reap", "dsubmitin e0 64 1000000000000000001", "dsubmitout e0 00", "dsubmitout e0 0 1", "dsubmitout w0 00 1",
    "dsubmitout e0 00 1 2", "open d0 1 256", "endpoint e0 i0 8 bulk-in",
    "endpoint e0 i0 81 iso-in", "device k0 1 6 3 1 -", "device k5 9 9 3 1 -",
    "driver k0 256", "driver d0 0", "driver k0 0", "driver k0 0 : reap", "clone d0 i0", "clone i0 d0", "clone e0 e1", "clone d0",
    "close k0", "close d0 i0", "setconfig d0", "setconfig d0 256", "setconfig i0 1", "reset e0", "active i0", "speed d0 : reap",
    "attr / a", "attr a b =1", "attr /a/ b =1", "attr /a/.. b =1", "deny /a b 0", "child /a b/c", "link /a b", "entry /a /b",
    "entry a b", "root 4096", "uevent 4294967296 -", "uevent 2 0", "attr / a =", "root 5", "list 1", "probe", "probe a", "match",
    "match / vid", "match / vid 0", "match / serial ff", "match / x 00", "hotplug 1", "openpath d0", "openpath i0 /",
"ctlin d0 vendor device 30 0000 0000 65536 1", "ctlin d0 vendor device 30 0000 0000 64", "ctlin e0 vendor device 30 0000 0000 64 1",
    "ctlin d0 vendor host 30 0000 0000 64 1", "ctlin d0 vendor device 3 0000 0000 64 1", "ctlout d0 usb device 30 0000 0000 - 1",
    "ctlout d0 vendor device 30 0000 0000 0 1", "fin f0 d0 vendor device 30 0000 0000 64 1 : reap", "fin f64 d0 vendor device 30 0000 0000 64 1",
    "fin d0 vendor device 30 0000 0000 64 1", "fpoll f0 : reap", "fpoll e0", "fwait f0 :", "fwait f0 5", "close f0 : reap", "close f064",
    "getdesc d0 256 0 0000 1", "getdesc i0 1 0 0000 1", "langs d0", "langs i0 1", "string d0 0 0409 1", "string d0 1 409 1",
    "detachclaim d0 0", "detach i0 0", "attach d0", "alt i0 256", "alt i0", "getalt d0", "ifdesc i64", "release d0", "halt i0",
    "halt", "halt w0", "halt e64", "halt r64", "halt r0 1", "halt r0 : reap",
    "reader r0 e0", "reader e0 r0 64", "reader r0 e0 65537", "inner r0 e0", "num r0", "num e0 1", "timeout r0", "cancel i0",
    "read r0 0", "read r0 65537", "read e0 1", "sread r0", "pollread r0 1 : reap", "fill r0 1", "pollfill r0 : reap",
    "sconsume r0", "consume r0 1 : reap", "isend e0", "endmsg r0 1", "close r64",
    "writer w0 e0", "writer e0 w0 64", "writer w0 r0 64", "inner w0 e0", "num w0", "num w0 65537", "timeout w0", "cancel w0", "close w064",
    "write w0", "write w0 0", "write r0 00", "pollwrite w0 00 : reap", "wsubmit w0 : reap", "wsubmit r0", "wend", "wend w0 00", "flush",
    "! echo k0 02", "! echo k0 02 81 81", "! echo d0 02 81", "! echo k0 2 81", "flush w0 1", "flush w0 :", "flushend r0", "pollflush w0 : reap", "pollflushend w0 : reap", "pollflushend e0", "submit w0",
    "msg m0 e0", "msg e0 e1 m0", "msg m0 r0 e0", "msg m64 e0 e1", "msg m0 e0 e1 : reap", "mreq m0", "mreq m0 0", "mreq w0 00", "mreq m0 00 :",
    "mresp", "mresp m0 1", "mresp r0", "mcount w0", "mcount m0 : reap", "close m064", "close m0 : reap", "halt m0", "cancel m0", "num m0 1",
]


def walks(r):
    """A script that opens many damaged devices and prints their descriptors."""
    for k in range(32):
        body = "".join(MANY_SETTINGS[:2]) if r.random() < 0.5 else r.choice(CONFIGURATIONS)
        yield f"device k{k} 1 {k} 3 1 {damaged(r, bytearray.fromhex(DEVICE.format(0, 1) + body)).hex()}"
    for k in range(32):
        yield f"open d{k} 1 {k}\ndevdesc d{k}\ndescriptors d{k}\nactive d{k}\nsetconfig d{k} 2\nsetconfig d{k} 1"
        yield f"claim d{k} 0 i{k}\nifdesc i{k}\nalt i{k} 1\nifdesc i{k}\nendpoint e{k} i{k} 81 bulk-in"


REFUSAL = re.compile("refuse k[0-9]+ [a-z]+ [0-9]+")


def script(seed):
    r = random.Random(seed)
    if r.random() < 0.03:
        return "\n".join(walks(r)).encode()
    if r.random() < 0.03:
        return script_of(r, lines_of_crowds(r), lambda: crowd_call(r), 60, crowd_steps)
    if r.random() < 0.03:
        return script_of(r, lines_of_deadlines(r), lambda: due_call(r), 60, timer_steps)
    if r.random() < 0.03:
        return script_of(r, lines_of_deadlines(r), lambda: awaited_call(r), 60, deadline_steps)
    if r.random() < 0.2:
        return script_of(r, lines_of_trees(r), lambda: tree_call(r) if r.random() < 0.9 else owner_call(r), 40)
    if r.random() < 0.3:
        call = lambda: (control_call if r.random() < 0.85 else owner_call if r.random() < 0.3 else transfer_call)(r)
        return script_of(r, lines_of_controls(r), call, 60, control_steps)
    if r.random() < 0.2:
        due = {}
        call = lambda: client_call(r, due) if r.random() < 0.95 else owner_call(r)
        return script_of(r, lines_of_clients(r, due), call, 60, client_steps)
    if r.random() < 0.4:
        call = lambda: (reader_call if r.random() < 0.95 else owner_call)(r)
        return script_of(r, lines_of_readers(r), call, 80, reader_steps)
    if r.random() < 0.55:
        call = lambda: (writer_call if r.random() < 0.95 else owner_call)(r)
        return script_of(r, lines_of_writers(r), call, 100, writer_steps)
    is_of_owners = r.random() < 0.5
    lines = (lines_of_owners if is_of_owners else lines_of_transfers)(r)
    call = lambda: (owner_call if is_of_owners == (r.random() < 0.9) else transfer_call)(r)
    return script_of(r, lines, call, 90 if is_of_owners else 60)


def script_of(r, lines, call, most, steps=steps):
    """A script of these first lines, and then of steps and calls."""
    for _ in range(r.randint(5, most)):
        if r.random() < 0.3:
            lines.append(f"! {steps(r)}")
        elif r.random() < 0.12:
            lines += armed_call(r)
        else:
            lines.append(call())
        if r.random() < 0.002:
            lines += burst(r)
    if r.random() < 0.3:
        lines = [REFUSAL.sub("reap", line) for line in lines]
    if r.random() < 0.1:
        lines.insert(r.randrange(len(lines) + 1), r.choice(MALFORMED))
    if r.random() < 0.2:
        lines = [spelled(r, line) if r.random() < 0.3 else line for line in lines]
        lines.insert(r.randrange(len(lines) + 1), r.choice(["", "  ", "#", " # poll e0", "\r"]))
    return ("\n".join(lines) + r.choice(["", "\n", "\r\n"])).encode()


def answer(program, text, *words):
    ran = subprocess.run([program, *words], input=text, capture_output=True, timeout=120)
    return ran.returncode, ran.stdout, ran.stderr


def lines_of(text):
    """The words of each line that isn't skipped."""
    lines = (line.split() for line in text.decode().split("\n"))
    return [words for words in lines if words and not words[0].startswith("#")]


def kinds_of_script(text):
    """The first word of each line and of each step, and the call for which a refusal is armed."""
    for words in lines_of(text):
        yield words[0]
        yield from (words[at + 1] for at, word in enumerate(words[:-1]) if word in "!:;")
        yield from (f"refuse {words[at + 2]}" for at, word in enumerate(words) if word == "refuse")


def kind_of_call(words):
    """Its word, and where that doesn't tell the call the letter of its name."""
    return f"{words[0]} {words[1][0]}" if words[0] in ("clone", "close", "cancel", "halt") else words[0]


def kind_of_answer(call, line):
    """The answer without a number that a script can choose, and without the descriptors behind the first words."""
    if call == "ifdesc":
        return " ".join(line.split()[:2])
    line = re.sub(r"^(read|buf|wrote) [1-9].*$|^(io Other unknown) .*$", lambda found: found[1] or found[2], line)
    line = re.sub(r"^(request|response) [0-9a-f].*$|^(msgerror [a-z-]+) .*$", lambda found: found[1] or found[2], line)
    line = re.sub(r"^(now|data|langs|string) .*$|^langs$", lambda found: found[0].split()[0], line)
    return re.sub(r"^(error Other failed .*) \(errno [0-9]+\)$|^(failed unknown):[0-9]+$", lambda found: found[1] or found[2], line)


SETUP = ["device", "driver", "attr", "deny", "child", "link", "entry", "root", "uevent", "!"]


# what may cancel a transfer without a deadline, or wait for a control transfer, but for `ctlin`
OTHER_ENDS = {it.encode() for it in "cancel close reset xferin xferout fail refuse ctlout getdesc langs string fin fout fwait".split()}
DEADLINES = ["a deadline that passed by the step timer", "a deadline that passed in the wait for a control transfer"]


def kinds_of_calls(text, answers):
    """What each call about owners was answered, and whether a refusal is armed anywhere in the script."""
    calls = [words for words in lines_of(text) if words[0] not in SETUP]
    is_armed = b"refuse" in text
    faulty = set()
    for words, line in zip(calls, answers.decode().splitlines()):
        call, told = kind_of_call(words), kind_of_answer(kind_of_call(words), line)
        if call in OF_CALLS:
            yield call, told, is_armed
        if call == "halt r" and words[1] in faulty:
            yield call, f"{told} behind a fault", is_armed
        if told in FAULTS:
            faulty.add(words[1])
        elif call != "halt r" or told == "ok":
            faulty.discard(words[1] if len(words) > 1 else None)


def kinds_of_deadlines(text, answers):
    """What discarded a transfer that was due, in a script in which nothing else cancels one."""
    words = set(text.split())
    if b"done cancelled" in answers and words & {b"dsubmitin", b"dsubmitout"} and not words & OTHER_ENDS:
        if b"ctlin" not in words:
            yield "a deadline that passed by the step timer"
        if b"timer" not in words:
            yield "a deadline that passed in the wait for a control transfer"


def kinds_of_answers(text):
    for line in text.decode().splitlines():
        words = line.split()
        yield f"answer {words[0]}"
        if words[0] in ("done", "ticket"):
            yield f"status {words[1 if words[0] == 'done' else 4].partition(':')[0]}"
        if words[0] == "ticket":
            yield f"end {words[-1]}"
        if words[0] == "error":
            yield f"error {words[1]}"


def all_kinds():
    """The kinds of lines and steps that docs/SCRIPT.md has in its tables, those of refusals and those of answers."""
    scripts, _, _ = LANGUAGE.read_text().partition("## Rounds at a disk")
    yield from dict.fromkeys(re.findall(r"^\| `([a-z]+)", scripts, re.MULTILINE))
    for head, words in (("refuse", LINES_OF), ("answer", ANSWERS), ("error", ERRORS), ("status", STATUSES), ("end", ENDS)):
        yield from (f"{head} {word}" for word in words)
    yield from DEADLINES
    for call, (by_rules, by_refusals) in OF_CALLS.items():
        yield from ((call, answer, False) for answer in ["condition", *by_rules])
        yield from ((call, answer, True) for answer in by_refusals)


def show_difference(text, one, two):
    sys.stdout.write(text.decode("ascii", "replace"))
    print(f"\nstatus {one[0]} {one[2]}\nstatus {two[0]} {two[2]}")
    pairs = zip(one[1].split(b"\n"), two[1].split(b"\n"))
    for a, b in [pair for pair in pairs if pair[0] != pair[1]][:1]:
        print(f"  {a.decode()}\n  {b.decode()}")


def compare_checks(program, other, name, made_traces):
    seen, difference = traces.compare(answer, program, other, made_traces)
    if difference:
        seed, text, one, two = difference
        show_difference(text, one, two)
        sys.exit(f"{name}, {seed}: they differ")
    print(f"{len(made_traces)} {name}: the same ({', '.join(f'{kind} {number}' for kind, number in sorted(seen.items()))})")


def trace_of(program, other, seed, text):
    """The lines of a script's trace, which both have to write, and which has to be checked `yes`."""
    one, two = answer(program, text, "trace"), answer(other, text, "trace")
    if one != two:
        show_difference(text, one, two)
        sys.exit(f"the trace of script {seed}: they differ")
    if one[0] == 0 and answer(program, one[1], "check")[1] != b"yes\n":
        sys.exit(f"the trace of script {seed} isn't checked yes")
    return one[1].decode().splitlines()


def main():
    if len(sys.argv) not in (3, 4, 5):
        sys.exit(__doc__)
    program, other = sys.argv[1:3]
    count = int(sys.argv[3]) if len(sys.argv) > 3 else 1000
    first = int(sys.argv[4]) if len(sys.argv) > 4 else 0
    lines, seen, written = 0, collections.Counter(), []
    for seed in range(first, first + count):
        text = script(seed)
        one, two = answer(program, text), answer(other, text)
        if one != two:
            show_difference(text, one, two)
            sys.exit(f"script {seed}: they differ")
        lines += one[1].count(b"\n")
        if told := trace_of(program, other, seed, text):
            written.append((seed, told))
        seen.update(kinds_of_answers(one[1]))
        if one[0] == 0:
            seen.update(kinds_of_script(text))
            seen.update(kinds_of_calls(text, one[1]))
            seen.update(kinds_of_deadlines(text, one[1]))
    print(f"{count} scripts, {lines} lines of answers: the same")
    missing = [kind if isinstance(kind, str) else f"{kind[0]}: {kind[1]}" for kind in all_kinds() if not seen[kind]]
    print(f"the scripts that were answered have none of: {', '.join(missing)}" if missing else "each kind of line, step, answer and status occurred")
    compare_checks(program, other, "traces", [(seed, traces.trace(seed)) for seed in range(first, first + count)])
    compare_checks(program, other, "traces of scripts", written)


if __name__ == "__main__":
    main()
