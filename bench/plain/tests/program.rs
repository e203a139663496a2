//! The program's words, lines that are skipped or malformed, the longest script, and faults.

mod common;

use common::expect;
use std::fs::File;
use std::process::Command;

const USAGE: &str = "usage: nusb_sim [session|generate N|live N|disk N|trace|check]\n";

#[test]
fn knows_no_word_and_session() {
    expect("no word", &[], b"now\n", 0, "now 0\n", "");
    expect("session", &["session"], b"now\n", 0, "now 0\n", "");
    for words in [
        &["--help"][..],
        &["nothing"],
        &[""],
        &["session", "session"],
    ] {
        expect(&words.join(" "), words, b"now\n", 2, "", USAGE);
    }
}

/// Words, the status, what is written, and the line on standard error.
const GENERATED: [(&[&str], i32, &str, &str); 9] = [
    (
        &["generate", "1"],
        0,
        "generate 1 calls 12 tickets 5 taken 2 dropped 0 reclaimed 3\n",
        "",
    ),
    (
        &["generate", "002"],
        0,
        "generate 2 calls 18 tickets 7 taken 4 dropped 0 reclaimed 3\n",
        "",
    ),
    (
        &["generate", "200"],
        0,
        "generate 200 calls 1284 tickets 485 taken 482 dropped 0 reclaimed 3\n",
        "",
    ),
    (
        &["generate", "2000"],
        0,
        "generate 2000 calls 12768 tickets 4823 taken 4820 dropped 0 reclaimed 3\n",
        "",
    ),
    (&["generate", "0"], 2, "", USAGE),
    (&["generate", "2001"], 2, "", USAGE),
    (&["generate", "00000000000000000001"], 2, "", USAGE),
    (&["generate"], 2, "", USAGE),
    (&["generate", "1", "1"], 2, "", USAGE),
];

#[test]
fn generated_scripts_are_run() {
    for (words, status, output, report) in GENERATED {
        expect(&words.join(" "), words, b"now\n", status, output, report);
    }
}

/// Words, the status, what is written, and the line on standard error.
const LIVE: [(&[&str], i32, &str, &str); 9] = [
    (
        &["live", "3"],
        0,
        "live 3 submitted 3 taken 3 dropped 0 reclaimed 0\n",
        "",
    ),
    (
        &["live", "0001"],
        0,
        "live 1 submitted 1 taken 1 dropped 0 reclaimed 0\n",
        "",
    ),
    (
        &["live", "1000"],
        0,
        "live 1000 submitted 1000 taken 1000 dropped 0 reclaimed 0\n",
        "",
    ),
    (&["live", "0"], 2, "", USAGE),
    (&["live", "1001"], 2, "", USAGE),
    (&["live", "00000000000000000001"], 2, "", USAGE),
    (&["live", "1x"], 2, "", USAGE),
    (&["live"], 2, "", USAGE),
    (&["live", "1", "1"], 2, "", USAGE),
];

#[test]
fn live_writes_its_line() {
    for (words, status, output, report) in LIVE {
        expect(&words.join(" "), words, b"now\n", status, output, report);
    }
}

/// Words, the status, what is written, and the line on standard error.
const DISKS: [(&[&str], i32, &str, &str); 11] = [
    (
        &["disk", "1"],
        0,
        "disk 1 writes 1 reads 1 failed 0 sum 65280\n",
        "",
    ),
    (
        &["disk", "0002"],
        0,
        "disk 2 writes 2 reads 2 failed 0 sum 195840\n",
        "",
    ),
    (
        &["disk", "84"],
        0,
        "disk 84 writes 83 reads 83 failed 2 sum 13447680\n",
        "",
    ),
    (
        &["disk", "500"],
        0,
        "disk 500 writes 496 reads 496 failed 8 sum 80686080\n",
        "",
    ),
    (&["disk", "0"], 2, "", USAGE),
    (&["disk", "501"], 2, "", USAGE),
    (&["disk", "00000000000000000001"], 2, "", USAGE),
    (&["disk", "1x"], 2, "", USAGE),
    (&["disk"], 2, "", USAGE),
    (&["disk", "1", "1"], 2, "", USAGE),
    (&["DISK", "1"], 2, "", USAGE),
];

#[test]
fn disk_writes_its_line() {
    for (words, status, output, report) in DISKS {
        expect(&words.join(" "), words, b"now\n", status, output, report);
    }
}

/// What they show, the lines, and what is written.
const SKIPPED: [(&str, &[u8], &str); 7] = [
    ("no line", b"", ""),
    ("a comment of any bytes", b"#\xff\x00", ""),
    ("an empty line with CR LF", b"\r\n", ""),
    (
        "skipped lines",
        b"\n  \n# poll e0\npoll e0\n",
        "condition\n",
    ),
    ("no LF at the end", b"poll e0", "condition\n"),
    ("CR LF", b"now\r\n", "now 0\n"),
    ("spaces around words", b"  poll   e0  \n", "condition\n"),
];

#[test]
fn skips_comments_and_empty_lines() {
    for (name, script, output) in SKIPPED {
        expect(name, &[], script, 0, output, "");
    }
}

/// What they show, the lines, and the first that is malformed.
const MALFORMED: [(&str, &[u8], usize); 33] = [
    ("a word too few", b"open d0 1", 1),
    (
        "a word too few behind a call",
        b"open d0 1 6\nopen d0 1\n",
        2,
    ),
    (
        "a word too few behind a comment",
        b"# a comment\nopen d0 1\n",
        2,
    ),
    ("two CR", b"poll e0\r\r\n", 1),
    ("a tab", b"\topen d0 1 6\n", 1),
    ("a byte above 7E", b"now \x7f\n", 1),
    ("a comment behind a word", b"now # a comment\n", 1),
    ("an unknown word", b"clock 1\n", 1),
    ("a name above 63", b"poll e64\n", 1),
    ("a name with a leading zero", b"poll e01\n", 1),
    ("a name of another letter", b"poll d0\n", 1),
    ("a number above 65536", b"submitin e0 65537\n", 1),
    (
        "a number of 20 digits",
        b"submitin e0 00000000000000000001\n",
        1,
    ),
    ("a sign", b"submitin e0 +1\n", 1),
    ("a bus above 255", b"open d0 256 1\n", 1),
    ("a time above 10^18", b"wait e0 1000000000000000001\n", 1),
    ("a clock of max", b"! clock max\n", 1),
    ("an errno 0", b"! fail k0 81 0\n", 1),
    ("an errno above 4095", b"! fail k0 81 4096\n", 1),
    ("an odd number of digits", b"submitout e0 123\n", 1),
    ("steps behind a call without any", b"poll e0 : reap\n", 1),
    ("no step", b"now\n!\n", 2),
    ("a semicolon at the end", b"! reap ;\n", 1),
    ("a device behind a call", b"now\ndevice k0 1 1 3 1 -\n", 2),
    ("a driver behind a call", b"now\ndriver k0 0\n", 2),
    ("a driver behind a step", b"! reap\ndriver k0 0\n", 2),
    ("a driver's interface above 255", b"driver k0 256\n", 1),
    ("a clone of another kind", b"clone d0 i0\n", 1),
    ("a clone of an endpoint", b"clone e0 e1\n", 1),
    ("a close of a simulated device", b"close k0\n", 1),
    ("a reset of an endpoint", b"reset e0\n", 1),
    ("a setting above 255", b"alt i0 256\n", 1),
    (
        "a device's place used twice",
        b"device k0 1 1 3 1 -\ndevice k1 1 1 3 1 -\n",
        2,
    ),
];

#[test]
fn names_the_first_malformed_line() {
    for (name, script, line) in MALFORMED {
        let report = format!("nusb_sim: malformed line {line}\n");
        expect(name, &[], script, 3, "", &report);
    }
}

#[test]
fn reads_at_most_a_mebibyte() {
    let mut spaces = b"poll e0".to_vec();
    spaces.resize(1 << 20, b' ');
    let mut comments = [&[b'#'; 63][..], b"\n"].concat().repeat(1 << 14);
    for (script, output) in [(&mut spaces, "condition\n"), (&mut comments, "")] {
        expect("the longest script", &[], script, 0, output, "");
        script.push(b'\n');
        let report = "nusb_sim: script too long\n";
        expect("one byte too long", &[], script, 4, "", report);
    }
}

#[test]
fn tells_of_a_read_fault() {
    let mut program = Command::new(env!("CARGO_BIN_EXE_nusb_sim_plain"));
    let folder = File::open("/").expect("the root can be opened");
    let ran = program.stdin(folder).output().expect("the program runs");
    assert_eq!(ran.status.code(), Some(5));
    assert_eq!(ran.stdout, b"");
    assert_eq!(ran.stderr, b"nusb_sim: read fault\n");
}

#[test]
fn tells_of_a_write_fault() {
    let mut program = Command::new(env!("CARGO_BIN_EXE_nusb_sim_plain"));
    let script = File::open("../../crates/nusb_sim/stdin").expect("the first script is there");
    let full = File::options()
        .write(true)
        .open("/dev/full")
        .expect("the full device is there");
    let ran = program
        .stdin(script)
        .stdout(full)
        .output()
        .expect("the program runs");
    assert_eq!(ran.status.code(), Some(6));
    assert_eq!(ran.stderr, b"nusb_sim: write fault\n");
}
