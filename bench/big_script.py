#!/usr/bin/env python3
"""Writes a script of nearly SIZE bytes (2^20 where none is given, the most that a script has) to standard output.

usage: bench/big_script.py KIND [SIZE]

"""
import itertools
import sys

LIMIT = 1 << 20


def device(*configurations):
    """The bytes of a device in hexadecimal: its device descriptor, and configurations with these settings."""
    whole = "".join(configuration(value, settings) for value, settings in enumerate(configurations, 1))
    return f"1201000200000040aaaabbbb0001000000{len(configurations):02x}{whole}"


def configuration(value, settings):
    body = "".join(settings)
    total = (9 + len(body) // 2).to_bytes(2, "little").hex()
    interfaces = len({setting[4:6] for setting in settings})
    return f"0902{total}{interfaces:02x}{value:02x}008032{body}"


def setting(number, *endpoints, alternate=0):
    return f"0904{number:02x}{alternate:02x}{len(endpoints):02x}ff000000" + "".join(endpoints)


def bulk(address, maximum=64):
    return f"0705{address:02x}02{maximum.to_bytes(2, 'little').hex()}00"


TWO_ENDPOINTS = device([setting(0, bulk(0x81), bulk(0x02))])
BYTEWISE = device([setting(0, bulk(0x02, 1))])
MANY_INTERFACES = device([setting(number, bulk(0x81)) for number in range(200)])
TWO_CONFIGURATIONS = device(
    [setting(0, bulk(0x81), bulk(0x02)), setting(0, bulk(0x81, 512), alternate=1), setting(1, bulk(0x82))],
    [setting(0, bulk(0x81))],
)

OPENED = f"device k0 1 6 3 1 {TWO_ENDPOINTS}\nopen d0 1 6\nclaim d0 0 i0\n"
IN = f"{OPENED}endpoint e0 i0 81 bulk-in\n"
OUT = f"{OPENED}endpoint e0 i0 02 bulk-out\n"


def polls(_size):
    """polls of an endpoint with nothing pending"""
    yield IN
    yield from itertools.repeat("poll e0\n")


def cycles(_size):
    """a transfer, its packet, its reap and its poll, again and again"""
    yield IN
    for number in itertools.count():
        yield f"submitin e0 64\n! pkt k0 81 01 ; reap {number}\npoll e0\n"


def behind(_size):
    """the same, behind a transfer of another endpoint that stays open"""
    yield f"{IN}endpoint e1 i0 02 bulk-out\nsubmitout e1 00\n"
    for number in itertools.count(1):
        yield f"submitin e0 64\n! pkt k0 81 01 ; reap {number}\npoll e0\n"


def flight(_size):
    """32 transfers in flight, of which the oldest gets its packet, is reaped, polled and replaced, again and again"""
    yield IN
    yield from itertools.repeat("submitin e0 64\n", 32)
    yield from itertools.repeat("! pkt k0 81 01 ; reap\npoll e0\nsubmitin e0 64\n")


def cancels(_size):
    """a transfer, its cancel, its reap and its poll, again and again"""
    yield IN
    yield from itertools.repeat("submitin e0 64\ncancel e0\n! reap\npoll e0\n")


def waits(_size):
    """a blocking transfer with a packet and a reap of its own, again and again"""
    yield IN
    yield from itertools.repeat("xferin e0 64 100 : pkt k0 81 01 ; reap\n")


def refused(_size):
    """transfers of an invalid length, until 64 are pending, and then submissions that are barred"""
    yield IN
    yield from itertools.repeat("submitin e0 63\n")


def armed(size):
    """refusals, and then the transfers that use them up, each with its poll"""
    yield IN
    refusal, use = "! refuse k0 submit 5\n", "submitin e0 64\npoll e0\n"
    count = (size - len(IN)) // len(refusal + use)
    yield from itertools.repeat(refusal, count)
    yield from itertools.repeat(use, count)


def submitout(_size):
    """an OUT transfer of 30,000 bytes, its cancel, its reap and its poll, again and again"""
    yield OUT
    data = bytes(range(256)) * 118
    yield from itertools.repeat(f"submitout e0 {data[:30000].hex()}\ncancel e0\n! reap\npoll e0\n")


def steps(size):
    """an OUT transfer, and one line of acknowledgements that take a byte each"""
    head = f"device k0 1 6 3 1 {BYTEWISE}\nopen d0 1 6\nclaim d0 0 i0\nendpoint e0 i0 02 bulk-out\n"
    step, end = "ack k0 02", "\n! reap\npoll e0\n"
    # (a word of bytes has at most 65536 of them)
    count = (size - len(head) - len(end)) // 16
    yield f"{head}submitout e0 {'5a' * count}\n! {' ; '.join([step] * count)}{end}"


def claims(_size):
    """claims of an interface that is in use, again and again"""
    yield OPENED
    yield from itertools.repeat("claim d0 0 i1\n")


def closes(_size):
    """an endpoint that is opened and closed, again and again"""
    yield OPENED
    yield from itertools.repeat("endpoint e0 i0 81 bulk-in\nclose e0\n")


def owners(_size):
    """claims, clones and closes, drivers that are detached and attached, settings and configurations, again and again"""
    yield f"device k0 1 6 3 1 {TWO_CONFIGURATIONS}\ndriver k0 1\nopen d0 1 6\n"
    claimed = "claim d0 0 i0\nclone i1 i0\nalt i0 1\nifdesc i1\nclose i0\ngetalt i1\n"
    endpoint = "endpoint e0 i1 81 bulk-in\nhalt e0\nclose e0\nrelease i1\n"
    detached = "clone d1 d0\ndetachclaim d1 1 i0\nclone i1 i0\nclose i0\nclose d1\nrelease i1\n"
    drivers = "detach d0 1\nattach d0 1\n"
    configurations = "setconfig d0 2\nactive d0\nsetconfig d0 1\n"
    yield from itertools.repeat(claimed + endpoint + detached + drivers + configurations)


def openings(_size):
    """a device of 30,000 bytes of descriptors that is opened, claimed, submitted to, closed whole and reaped, again and again"""
    # (behind the configuration with the endpoints come others that have none)
    yield f"device k0 1 6 3 1 {TWO_ENDPOINTS}{configuration(5, []) * 3300}\n"
    opened = "open d0 1 6\nclaim d0 0 i0\nendpoint e0 i0 81 bulk-in\nsubmitin e0 64\n"
    yield from itertools.repeat(opened + "close e0\nclose i0\nclose d0\n! reap\n")


def refusals(size):
    """refusals of several calls for one device, and then the calls that use them up, one kind of call after the other"""
    head = f"device k0 1 6 3 1 {TWO_CONFIGURATIONS}\nopen d0 1 6\nclaim d0 0 i0\nendpoint e0 i0 81 bulk-in\nclaim d0 1 i1\n"
    lines = {"alt": "alt i1 0\n", "halt": "halt e0\n", "attach": "attach d0 1\n", "getconfig": "active d0\n", "speed": "speed d0\n"}
    refusal = f"! {' ; '.join(f'refuse k0 {call} 5' for call in lines)}\n"
    count = (size - len(head)) // len(refusal + "".join(lines.values()))
    yield head + refusal * count
    for line in reversed(lines.values()):
        yield from itertools.repeat(line, count)


def descriptors(_size):
    """the printed descriptors of a device, again and again: a walk of all its descriptors a line"""
    yield IN
    yield from itertools.repeat("descriptors d0\n")


def printed(_size):
    """the printed descriptors of a device with 200 interfaces of one endpoint each, behind each a comment, 512 bytes in all"""
    yield f"device k0 1 6 3 1 {MANY_INTERFACES}\nopen d0 1 6\n"
    line = "descriptors d0\n#"
    yield from itertools.repeat(f"{line:.<511}\n")


HUB = "/sys/devices/pci0/usb1"
VALUES = {
    "busnum": "1", "devnum": "1", "idVendor": "1d6b", "idProduct": "0002", "bcdDevice": "0100", "version": "2.00",
    "bDeviceClass": "09", "bDeviceSubClass": "00", "bDeviceProtocol": "00", "devpath": "1", "speed": "480", "product": "Box",
}


def folder(path):
    return "".join(f"attr {path} {name} ={value}\n" for name, value in VALUES.items())


def attributes(size):
    """attributes of ever new devices with an entry each, in half of the script, and then probings of one of them"""
    written = 0
    for number in itertools.count():
        piece = f"{folder(f'{HUB}/1-{number}')}entry 1-{number} {HUB}/1-{number}\n"
        written += len(piece)
        if written > size // 2:
            break
        yield piece
    yield "list\nbuses\n"
    yield from itertools.repeat(f"probe {HUB}/1-0\n")


def again(_size):
    """one attribute that is set again and again, and sub-folders in falling order"""
    for number in itertools.count():
        yield f"attr {HUB} busnum ={number % 256}\nchild {HUB} 1-1:{10**6 - number}\nentry 1-{number % 8} {HUB}\n"


def matches(_size):
    """a device with 10 interfaces, and selectors of a class that none of them has, again and again"""
    yield folder(HUB)
    for number in range(10):
        path = f"{HUB}/1-0:1.{number}"
        yield f"child {HUB} 1-0:1.{number}\nattr {path} bInterfaceNumber ={number:02x}\n"
        yield "".join(f"attr {path} bInterface{name} =00\n" for name in ("Class", "SubClass", "Protocol"))
    yield from itertools.repeat(f"match {HUB} class 55\n")


def packets(size):
    """packets of removals, and then the polls that look at them"""
    body = b"ACTION=remove\0BUSNUM=001\0DEVNUM=006\0DEVPATH=/d\0".hex()
    line = f"uevent 2 6c69627564657600feedcafe0000000018000000{len(body) // 2:02x}000000{body}\n"
    count = size // len(line + "hotplug\n")
    yield from itertools.repeat(line, count)
    yield from itertools.repeat("hotplug\n", count)


CONTROL = "vendor device 30 0000 0000"


def control(_size):
    """control transfers of 64 bytes in and of 4 bytes out, strings and languages, again and again"""
    yield OPENED
    calls = f"ctlin d0 {CONTROL} 64 1000 : pkt k0 80 {'5a' * 64}\nctlout i0 {CONTROL} 01020304 1000 : ack k0 00\n"
    told = "string d0 1 0409 1000 : pkt k0 80 060341004200\nlangs d0 1000 : pkt k0 80 04030904\n"
    yield from itertools.repeat(calls + told)


def futures(_size):
    """1,000 control transfers that are given up, with their deadlines to come, and before them one that fails and one whose time goes by, again and again"""
    yield OPENED
    for number in range(1000):
        yield f"fout f{number % 64} d0 {CONTROL} 00 {10**9 - number}\nclose f{number % 64}\n"
    for number in itertools.count(1):
        yield f"fin f0 i0 {CONTROL} 64 1000\n! fail k0 80 32 ; reap ; clock {4000 * number} ; timer\nfpoll f0\n"
        yield f"fin f0 d0 {CONTROL} 64 1000\nfwait f0\n"


def framed(transfer_size, reads):
    """Messages of 130 bytes in three packets, each read by so many reads until a short packet, with 8 transfers in flight."""
    yield f"{IN}reader r0 e0 {transfer_size}\nnum r0 8\n"
    packets = f"! pkt k0 81 {'5a' * 64} ; pkt k0 81 {'a5' * 64} ; pkt k0 81 2233\n"
    yield from itertools.repeat(packets + "sread r0 200\n" * reads + "endmsg r0\n")


def framed64(_size):
    """messages of three packets, read until short packets by transfers of 64 bytes, again and again"""
    yield from framed(64, 3)


def framed4096(_size):
    """the same by transfers of 4096 bytes"""
    yield from framed(4096, 1)


def bytewise(_size):
    """a reader's bytes that are read one by one, again and again"""
    yield f"{IN}reader r0 e0 512\nnum r0 2\n"
    yield from itertools.repeat(f"! pkt k0 81 {'5a' * 63}\n" + "read r0 1\n" * 63)


def written(transfer_size, writes):
    """Messages of 130 bytes, each in so many writes, with its end and a flush."""
    yield f"{OUT}writer w0 e0 {transfer_size}\nnum w0 8\n"
    parts = "".join(f"write w0 {'5a' * count}\n" for count in writes)
    yield from itertools.repeat(f"{parts}wend w0\nflush w0 : ack k0 02 ; ack k0 02 ; ack k0 02\n")


def written64(_size):
    """messages that are written to transfers of 64 bytes, ended and flushed, again and again"""
    yield from written(64, [64, 64, 2])


def written4096(_size):
    """the same to transfers of 4096 bytes"""
    yield from written(4096, [130])


def writes(_size):
    """writes of one byte, and a flush of each 63, again and again"""
    yield f"{OUT}writer w0 e0 512\nnum w0 2\n"
    yield from itertools.repeat("write w0 5a\n" * 63 + "flush w0 : ack k0 02\n")


def echoed(_size):
    """messages of 130 bytes that a device echoes to a reader, again and again"""
    yield f"{IN}endpoint e1 i0 02 bulk-out\nwriter w0 e1 128\nnum w0 8\nreader r0 e0 192\nnum r0 4\n"
    echoes = " ; ".join(["echo k0 02 81"] * 3)
    yield from itertools.repeat(f"write w0 {'5a' * 130}\nwrite w0 a5a5\nwend w0\n! {echoes}\nflush w0\nsread r0 200\nsread r0 200\nendmsg r0\n")


def messages(_size):
    """requests of a client with bodies of 100 bytes, and responses with bodies of 126 in three packets, again and again"""
    yield f"{IN}endpoint e1 i0 02 bulk-out\nmsg m0 e1 e0\n"
    for number in itertools.count():
        head = number.to_bytes(4, "little").hex()
        packets = f"pkt k0 81 {head}{'5a' * 60} ; pkt k0 81 {'a5' * 64} ; pkt k0 81 2233"
        yield f"mreq m0 {'5a' * 100}\n! ack k0 02 ; ack k0 02\nmresp m0 : {packets}\n"


def deadlines(_size):
    """two transfers of an endpoint with deadlines, of which the timer discards the first and a packet finishes the other, again and again"""
    yield IN
    for number in itertools.count(1):
        yield f"dsubmitin e0 64 1000\ndsubmitin e0 64 5000\n! clock {2000 * number} ; timer ; pkt k0 81 01 ; reap ; reap\npoll e0\npoll e0\n"


def halts(_size):
    """a reader whose transfer stalls: a read that fails, one that fails again, the halt that is cleared, and a read, again and again"""
    yield f"{IN}reader r0 e0 64\nnum r0 1\n"
    yield from itertools.repeat("read r0 64 : fail k0 81 32\nread r0 64\nhalt r0\nread r0 64 : pkt k0 81 5a5a\n")


def comments(_size):
    """comments"""
    yield OPENED
    yield from itertools.repeat("# a comment\n")


KINDS = {
    kind.__name__: kind
    for kind in (
        polls, cycles, behind, flight, cancels, waits, refused, armed, submitout, steps, claims, closes, owners, openings,
        refusals, descriptors, printed, attributes, again, matches, packets, control, futures, framed64, framed4096,
        bytewise, written64, written4096, writes, echoed, messages, deadlines, halts, comments,
    )
}


def script(kind, size=LIMIT):
    """The pieces of a kind's script that fit into this size."""
    pieces, room = [], size
    for piece in KINDS[kind](size):
        room -= len(piece)
        if room < 0:
            break
        pieces.append(piece)
    return "".join(pieces)


def main():
    words = sys.argv[1:]
    if len(words) not in (1, 2) or words[0] not in KINDS:
        sys.exit(__doc__ + "\n".join(f"{name:12} {it.__doc__}" for name, it in KINDS.items()))
    sys.stdout.write(script(words[0], *map(int, words[1:])))


if __name__ == "__main__":
    main()
