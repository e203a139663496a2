#!/usr/bin/env python3
"""Runs two programs on words that they don't know, on scripts that they can't answer, and on streams that fail, and
compares the status, the output and the line on standard error with what docs/SCRIPT.md says.

usage: bench/faults.py PROGRAM OTHER
"""
import contextlib
import os
import subprocess
import sys
import tempfile
import threading
from dataclasses import dataclass

USAGE = "usage: nusb_sim [session|generate N|live N|disk N|trace|check]\n"
MALFORMED = "nusb_sim: malformed line {}\n"
TOO_LONG = "nusb_sim: script too long\n"
READ_FAULT = "nusb_sim: read fault\n"
WRITE_FAULT = "nusb_sim: write fault\n"

MOST = 1 << 20
MOST_TRACE = 1 << 24
TRACE = b"nusb-trace 1\nend\n"
POLL = b"poll e0\n"  # answered by 10 bytes, as e0 isn't open
MANY = POLL * (MOST // 10 + 1)  # answered by more than 2^20 bytes
OK = b"condition\n"
GENERATED = b"generate 1 calls 12 tickets 5 taken 2 dropped 0 reclaimed 3\n"
LIVE = b"live 3 submitted 3 taken 3 dropped 0 reclaimed 0\n"
DISK = b"disk 84 writes 83 reads 83 failed 2 sum 13447680\n"


@dataclass
class Case:
    """What is run, and what it must come to."""

    name: str
    status: int
    report: str
    output: bytes | None = b""  # None: any
    words: tuple = ()
    script: bytes | None = POLL  # None: a folder, of which nothing can be read
    into: str = "pipe"  # where standard output goes
    reports_into: str = "pipe"  # where standard error goes


def unknown(*words):
    return Case(f"the words {words}", 2, USAGE, words=words)


CASES = [
    Case("no word", 0, "", OK),
    Case("the word session", 0, "", OK, words=("session",)),
    unknown("nothing"),
    unknown(""),
    unknown("SESSION"),
    unknown("session", "session"),
    unknown("session", "1"),
    Case("three transfers between threads", 0, "", LIVE, words=("live", "3")),
    Case("three transfers and a full device", 6, WRITE_FAULT, words=("live", "3"), into="full"),
    unknown("live"),
    unknown("live", "0"),
    unknown("live", "1001"),
    unknown("live", "x"),
    unknown("live", "1", "1"),
    Case("rounds at a disk", 0, "", DISK, words=("disk", "84")),
    Case("rounds at a disk and a full device", 6, WRITE_FAULT, words=("disk", "1"), into="full"),
    Case("rounds at a disk and a closed pipe", 6, WRITE_FAULT, words=("disk", "1"), into="closed"),
    unknown("disk"),
    unknown("disk", "0"),
    unknown("disk", "501"),
    unknown("disk", "x"),
    unknown("disk", "1", "1"),
    Case("a generated script", 0, "", GENERATED, words=("generate", "1")),
    Case("a generated script and a full device", 6, WRITE_FAULT, words=("generate", "1"), into="full"),
    Case("a trace", 0, "", TRACE, words=("trace",)),
    Case("a trace of no script", 0, "", TRACE, words=("trace",), script=b""),
    Case("a trace of a malformed script", 3, MALFORMED.format(2), words=("trace",), script=POLL + b"poll\n"),
    Case("a trace of the longest script", 0, "", TRACE, words=("trace",), script=POLL + b" " * (MOST - len(POLL))),
    Case("a trace of a script of one byte more", 4, TOO_LONG, words=("trace",), script=POLL + b" " * (MOST + 1 - len(POLL))),
    Case("a trace of a folder", 5, READ_FAULT, words=("trace",), script=None),
    Case("a trace and a full device", 6, WRITE_FAULT, words=("trace",), into="full"),
    Case("a trace and a closed pipe", 6, WRITE_FAULT, words=("trace",), into="closed"),
    unknown("trace", "1"),
    Case("a check", 0, "", b"yes\n", words=("check",), script=TRACE),
    Case("a check of no text", 3, MALFORMED.format(1), words=("check",), script=b""),
    Case("a check of the longest text", 3, MALFORMED.format(3), words=("check",), script=TRACE + b" " * (MOST_TRACE - len(TRACE))),
    Case("a check of one byte more", 4, TOO_LONG, words=("check",), script=TRACE + b" " * (MOST_TRACE + 1 - len(TRACE))),
    Case("a check of a folder", 5, READ_FAULT, words=("check",), script=None),
    Case("a check and a full device", 6, WRITE_FAULT, words=("check",), script=TRACE, into="full"),
    unknown("check", "1"),
    unknown("generate"),
    unknown("generate", "0"),
    unknown("generate", "2001"),
    unknown("generate", "1", "1"),
    unknown(b"\xff"),
    unknown("session", b"\xff"),
    Case("no line", 0, "", script=b""),
    Case("a malformed line", 3, MALFORMED.format(1), script=b"poll"),
    Case("a malformed line behind calls", 3, MALFORMED.format(4), script=POLL + b"#\n\nnow x\nnow x\n"),
    Case("a malformed last line of a long script", 3, MALFORMED.format(100001), script=POLL * 100000 + b"poll\n"),
    Case("the longest script", 0, "", OK, script=POLL + b" " * (MOST - len(POLL))),
    Case("a script of one byte more", 4, TOO_LONG, script=POLL + b" " * (MOST + 1 - len(POLL))),
    Case("a far longer script", 4, TOO_LONG, script=POLL * MOST),
    Case("a long script with a malformed line", 4, TOO_LONG, script=b"poll\n" * MOST),
    Case("a folder as the script", 5, READ_FAULT, script=None),
    Case("a full device", 6, WRITE_FAULT, into="full"),
    Case("a full device and much output", 6, WRITE_FAULT, into="full", script=MANY),
    Case("a full device and no output", 0, "", into="full", script=b""),
    Case("a full device and a malformed line", 3, MALFORMED.format(1), into="full", script=b"poll"),
    Case("a full device and an unknown word", 2, USAGE, into="full", words=("nothing",)),
    Case("a closed pipe", 6, WRITE_FAULT, into="closed"),
    Case("a closed pipe and much output", 6, WRITE_FAULT, into="closed", script=MANY),
    Case("a pipe that closes early", 6, WRITE_FAULT, None, into="closing", script=MANY),
    Case("a malformed line that can't be reported", 3, "", reports_into="full", script=b"poll"),
    Case("a malformed line and a closed standard error", 3, "", reports_into="closed", script=b"poll"),
    Case("an unknown word that can't be reported", 2, "", reports_into="full", words=("nothing",)),
    Case("a write fault that can't be reported", 6, "", into="full", reports_into="full"),
    Case("a write fault and a closed standard error", 6, "", into="closed", reports_into="closed"),
]


class Stream:
    """An end to write to, of the kind that its word says, and what was written there."""

    def __init__(self, kind):
        self.bytes, self.reader = b"", None
        if kind == "full":
            self.end = os.open("/dev/full", os.O_WRONLY)
            return
        source, self.end = os.pipe()
        if kind == "closed":
            os.close(source)
            return
        self.reader = threading.Thread(target=self.read, args=(source, kind == "closing"))
        self.reader.start()

    def read(self, source, stops):
        while piece := os.read(source, 1 if stops else 65536):
            self.bytes += piece
            if stops:
                break
        os.close(source)

    def result(self):
        if self.reader:
            self.reader.join()
        return self.bytes


@contextlib.contextmanager
def source(case):
    if case.script is None:
        end = os.open("/", os.O_RDONLY)
    else:
        with tempfile.TemporaryFile() as text:
            text.write(case.script)
            text.seek(0)
            end = os.dup(text.fileno())
    yield end
    os.close(end)


def run(program, case):
    """The status, the output and the report, and how many bytes were read."""
    out, report = Stream(case.into), Stream(case.reports_into)
    with source(case) as script:
        started = subprocess.Popen([program, *case.words], stdin=script, stdout=out.end, stderr=report.end)
        os.close(out.end)
        os.close(report.end)
        status = started.wait(timeout=120)
        was_read = os.lseek(script, 0, os.SEEK_CUR) if case.script is not None else 0
    return status, out.result(), report.result(), was_read


def shown(text):
    return repr(text if len(text) <= 100 else text[:100] + b"..")


def differences(program, case):
    status, output, report, was_read = run(program, case)
    if status != case.status:
        yield f"status {status} instead of {case.status}" + (", by a signal" if status < 0 else "")
    if report != case.report.encode():
        yield f"standard error {shown(report)} instead of {shown(case.report.encode())}"
    if case.output not in (None, output):
        yield f"output {shown(output)} instead of {shown(case.output)}"
    if case.status == 2 and was_read:
        yield f"{was_read} bytes were read, and it may read none"


def main():
    if len(sys.argv) != 3:
        sys.exit(__doc__)
    wrong = 0
    for case in CASES:
        for program in dict.fromkeys(sys.argv[1:]):
            found = list(differences(program, case))
            wrong += bool(found)
            for text in found:
                print(f"{case.name}: {program}: {text}")
    print(f"{len(CASES)} cases, {wrong} wrong answers")
    sys.exit(wrong > 0)


main()
