//! The words `trace` and `check`: traces, and what stands in the way of being one.

mod common;

use common::expect;

/// A trace of one transfer, line by line.
const LINES: [&str; 6] = [
    "nusb-trace 1",
    "submit 0 0 81 64 in 64 -",
    "pkt 0 81 010203",
    "reap 0",
    "fate 0 ok 3",
    "end",
];

/// These lines, the one at a place in place of another one; an empty one leaves it out.
fn with(place: usize, line: &str) -> String {
    let mut lines = LINES;
    lines[place] = line;
    let kept = lines.into_iter().filter(|line| !line.is_empty());
    kept.map(|line| format!("{line}\n")).collect()
}

/// A script with these lines behind a device with a bulk IN and a bulk OUT endpoint of 64 bytes,
/// which are opened as `e0` and `e1`.
fn with_endpoints(lines: &str) -> String {
    format!(
        "device k0 1 5 3 1 12010002000000401234000100000000000109022000010100803209040000\
         02ff0000000705810240000007050202400000\n\
         open d0 1 5\nclaim d0 0 i0\nendpoint e0 i0 81 bulk-in\nendpoint e1 i0 02 bulk-out\n{lines}"
    )
}

/// What it shows, the lines behind the opened endpoints, and the lines of the trace between its
/// first and its last.
const TRACED: [(&str, &str, &str); 6] = [
    ("no transfer", "now\n", ""),
    (
        "a packet",
        "submitin e0 64\n! pkt k0 81 010203\n! reap\npoll e0\n",
        "submit 0 0 81 64 in 64 -\npkt 0 81 010203\nreap 0\nfate 0 ok 3\n",
    ),
    (
        "a transfer that is open when the session ends",
        "submitout e1 0a0b\n",
        "submit 0 0 02 64 out 0a0b -\ndiscard 0\nreap 0\nfate 0 cancelled 0\n",
    ),
    (
        "a refusal, and a step that finds nothing",
        "! refuse k0 submit 19\nsubmitin e0 64\n! pkt k0 81 00\n",
        "refuse 0 0 81 64 in 64 19\nfate 0 disconnected 0\n",
    ),
    (
        "an echo",
        "submitout e1 0a0b\nsubmitin e0 64\n! echo k0 02 81\n! reap 1\n",
        "submit 0 0 02 64 out 0a0b -\nsubmit 1 0 81 64 in 64 -\necho 0 02 81\nreap 1\nreap 0\n\
         fate 0 ok 2\nfate 1 ok 2\n",
    ),
    (
        "a device that goes",
        "dsubmitin e0 64 50\n! unplug k0\n! unplug k0\n",
        "submit 0 0 81 64 in 64 50\nunplug 0\nreap 0\nfate 0 disconnected 0\n",
    ),
];

#[test]
fn writes_the_trace_of_a_script() {
    for (name, lines, events) in TRACED {
        let trace = format!("nusb-trace 1\n{events}end\n");
        let script = with_endpoints(lines);
        expect(name, &["trace"], script.as_bytes(), 0, &trace, "");
        expect(name, &["check"], trace.as_bytes(), 0, "yes\n", "");
    }
}

#[test]
fn writes_no_trace_of_a_malformed_script() {
    let report = "nusb_sim: malformed line 2\n";
    expect("malformed", &["trace"], b"now\nnow 1\n", 3, "", report);
}

fn expect_malformed(name: &str, text: &str, line: usize) {
    let report = format!("nusb_sim: malformed line {line}\n");
    expect(name, &["check"], text.as_bytes(), 3, "", &report);
}

#[test]
fn knows_the_word() {
    let usage = "usage: nusb_sim [session|generate N|live N|disk N|trace|check]\n";
    expect("check", &["check"], b"nusb-trace 1\nend\n", 0, "yes\n", "");
    expect("check 1", &["check", "1"], b"", 2, "", usage);
}

/// What it shows, the place of the line, what stands there, and what is written.
const CHECKED: [(&str, usize, &str, &str); 23] = [
    ("no change", 0, "nusb-trace 1", "yes\n"),
    ("another count", 4, "fate 0 ok 2", "no 5\n"),
    ("another status", 4, "fate 0 cancelled 3", "no 5\n"),
    (
        "a status of no ticket",
        4,
        "fate 0 unknown:4095 3",
        "no 5\n",
    ),
    ("open for reaped", 4, "fate 0 open 3", "no 5\n"),
    ("a fate of another ticket", 4, "fate 1 ok 3", "no 5\n"),
    ("no reap", 3, "", "no 4\n"),
    ("no fate", 4, "", "no 5\n"),
    ("a fate more", 4, "fate 0 ok 3\nfate 1 ok 3", "no 6\n"),
    ("a second reap", 3, "reap 0\nreap 0", "no 5\n"),
    ("a reap of no ticket", 3, "reap 1", "no 4\n"),
    ("another number", 1, "submit 1 0 81 64 in 64 -", "no 2\n"),
    (
        "a part of a packet wanted",
        1,
        "submit 0 0 81 64 in 63 -",
        "no 2\n",
    ),
    (
        "a gone device",
        1,
        "unplug 0\nsubmit 0 0 81 64 in 64 -",
        "no 3\n",
    ),
    (
        "a device that goes twice",
        3,
        "reap 0\nunplug 0\nunplug 0",
        "no 6\n",
    ),
    ("a packet for nobody", 2, "pkt 0 82 010203", "no 3\n"),
    (
        "a second packet",
        2,
        "pkt 0 81 010203\npkt 0 81 -",
        "no 4\n",
    ),
    ("a packet to an OUT address", 2, "pkt 0 01 010203", "no 3\n"),
    (
        "an acknowledgement of an IN address",
        2,
        "ack 0 81",
        "no 3\n",
    ),
    ("an echo from nobody", 2, "echo 0 01 81", "no 3\n"),
    ("a discard of a finished ticket", 3, "discard 0", "no 4\n"),
    ("a failure of nobody", 2, "fail 1 81 32", "no 3\n"),
    (
        "a deadline",
        1,
        "submit 0 0 81 64 in 64 18446744073709551615",
        "yes\n",
    ),
];

#[test]
fn tells_the_first_line_that_no_trace_can_have() {
    for (name, place, line, output) in CHECKED {
        let text = with(place, line);
        expect(name, &["check"], text.as_bytes(), 0, output, "");
    }
}

/// What it shows, the events and fates, all of them right.
const RIGHT: [(&str, &str); 8] = [
    (
        "a discard",
        "submit 0 0 81 64 in 64 -\ndiscard 0\nreap 0\nfate 0 cancelled 0",
    ),
    (
        "open at the end",
        "submit 0 0 81 64 in 128 -\npkt 0 81 -\nfate 0 open 0",
    ),
    ("refused", "refuse 0 0 81 64 in 65 2\nfate 0 unknown:2 0"),
    (
        "a failure",
        "submit 0 9 01 8 out - -\nfail 9 01 32\nreap 0\nfate 0 stall 0",
    ),
    (
        "two acknowledgements",
        "submit 0 9 01 2 out 010203 -\nack 9 01\nack 9 01\nreap 0\nfate 0 ok 3",
    ),
    (
        "a device that goes",
        "submit 0 255 01 2 out 010203 -\nack 255 01\nunplug 255\nreap 0\nfate 0 disconnected 2",
    ),
    (
        "a packet too long",
        "submit 0 0 81 1 in 2 -\npkt 0 81 aa\npkt 0 81 aabb\nreap 0\nfate 0 fault 1",
    ),
    (
        "an echo",
        "submit 0 0 01 2 out 010203 -\nsubmit 1 0 81 2 in 4 -\necho 0 01 81\necho 0 01 81\nreap 1\nfate 0 open 3\nfate 1 ok 3",
    ),
];

#[test]
fn tells_traces() {
    for (name, lines) in RIGHT {
        let text = format!("nusb-trace 1\n{lines}\nend\n");
        expect(name, &["check"], text.as_bytes(), 0, "yes\n", "");
    }
}

/// What it shows, the place of the line, what stands there, and the first malformed line.
const MALFORMED: [(&str, usize, &str, usize); 30] = [
    ("no first line", 0, "", 1),
    ("another version", 0, "nusb-trace 2", 1),
    ("a second first line", 0, "nusb-trace 1\nnusb-trace 1", 2),
    ("no last line", 5, "", 6),
    ("a line behind the last", 5, "end\nreap 0", 7),
    ("an empty line", 5, "end\n\n", 7),
    ("an event behind a fate", 4, "fate 0 ok 3\nreap 0", 6),
    (
        "a malformed line behind a second reap",
        3,
        "reap 0\nreap 0\nreap",
        6,
    ),
    ("two spaces", 3, "reap  0", 4),
    ("a space at the end", 3, "reap 0 ", 4),
    ("a leading zero", 3, "reap 00", 4),
    ("a sign", 3, "reap +0", 4),
    ("a number above 64 bits", 3, "reap 18446744073709551616", 4),
    ("a CR", 3, "reap 0\r", 4),
    ("a word more", 3, "reap 0 0", 4),
    ("in with bit 7 clear", 1, "submit 0 0 01 64 in 64 -", 2),
    ("out with bit 7 set", 1, "submit 0 0 81 64 out 64 -", 2),
    ("a device above 255", 1, "submit 0 256 81 64 in 64 -", 2),
    (
        "a maximum above 65536",
        1,
        "submit 0 0 81 65537 in 65537 -",
        2,
    ),
    (
        "a wanted length above 67582",
        1,
        "submit 0 0 81 1 in 67583 -",
        2,
    ),
    ("no deadline", 1, "submit 0 0 81 64 in 64", 2),
    ("upper case", 2, "pkt 0 81 0A", 3),
    ("half a byte", 2, "pkt 0 81 0", 3),
    ("an address of one digit", 2, "pkt 0 1 00", 3),
    ("an errno 0", 2, "fail 0 81 0", 3),
    ("an errno above 4095", 2, "fail 0 81 4096", 3),
    ("another status word", 4, "fate 0 fine 3", 5),
    ("an unknown status 0", 4, "fate 0 unknown:0 3", 5),
    (
        "an unknown status of four digits",
        4,
        "fate 0 unknown:0075 3",
        5,
    ),
    ("a count above 67582", 4, "fate 0 ok 67583", 5),
];

#[test]
fn names_the_first_line_outside_the_form() {
    for (name, place, line, first) in MALFORMED {
        expect_malformed(name, &with(place, line), first);
    }
    expect_malformed("no text", "", 1);
    expect_malformed("no LF at the end", with(0, LINES[0]).trim_end(), 6);
}

#[test]
fn reads_at_most_16_mebibytes() {
    let mut text = b"nusb-trace 1\n".to_vec();
    text.resize(1 << 24, b' ');
    let report = "nusb_sim: malformed line 2\n";
    expect("the longest text", &["check"], &text, 3, "", report);
    text.push(b' ');
    let report = "nusb_sim: script too long\n";
    expect("one byte too long", &["check"], &text, 4, "", report);
}
