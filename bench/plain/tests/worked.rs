//! Scripts whose answers were worked out by hand from docs/SCRIPT.md. Behind `= ` stands what a
//! script shows, behind `> ` a line of it; the other lines are what is written.

mod common;

use common::expect;

fn check(text: &str) {
    for case in text.split("\n\n") {
        let (head, lines) = case.split_once('\n').expect("a case has lines");
        let name = head
            .strip_prefix("= ")
            .expect("a case begins with what it shows");
        let (mut script, mut output) = (String::new(), String::new());
        for line in lines.lines() {
            let (text, line) = match line.strip_prefix("> ") {
                Some(line) => (&mut script, line),
                None => (&mut output, line),
            };
            text.push_str(line);
            text.push('\n');
        }
        expect(name, &[], script.as_bytes(), 0, &output, "");
    }
}

#[test]
fn transfers() {
    check(include_str!("worked/transfers.txt"));
}

#[test]
fn devices() {
    check(include_str!("worked/devices.txt"));
}

#[test]
fn descriptors() {
    check(include_str!("worked/descriptors.txt"));
}

#[test]
fn claims() {
    check(include_str!("worked/claims.txt"));
}

#[test]
fn controls() {
    check(include_str!("worked/controls.txt"));
}

#[test]
fn readers() {
    check(include_str!("worked/readers.txt"));
}

#[test]
fn first_script_of_the_language() {
    let script = include_bytes!("../../../crates/nusb_sim/stdin");
    let output = include_str!("../../../crates/nusb_sim/stdout");
    expect("the first script", &[], script, 0, output, "");
}

/// A device with the bulk IN endpoints 81 to 8f and the bulk OUT endpoints 01 and 02, all open.
fn many_endpoints() -> String {
    let addresses = || (0x81..=0x8f).chain(1..=2);
    let endpoints: String = addresses()
        .map(|a| format!("0705{a:02x}02400000"))
        .collect();
    let total = 9 + 9 + 7 * addresses().count();
    let mut script = format!(
        "device k0 1 6 3 1 1201000200000040aaaabbbb0001000000010902{total:02x}00010100803209040000\
         11ff000000{endpoints}\nopen d0 1 6\nclaim d0 0 i0\n"
    );
    for (name, a) in addresses().enumerate() {
        let kind = if a < 0x80 { "bulk-out" } else { "bulk-in" };
        script += &format!("endpoint e{name} i0 {a:02x} {kind}\n");
    }
    script
}

#[test]
fn bars_the_65th_pending_transfer_and_the_1025th_unreaped() {
    let mut script = many_endpoints();
    let mut output = "ok\n".repeat(19);
    for name in 0..16 {
        let line = if name < 15 {
            "submitin e0 64"
        } else {
            "submitout e0 00"
        };
        let line = line.replace("e0", &format!("e{name}"));
        script += &format!("{line}\n").repeat(65);
        output += &("ok\n".repeat(64) + "condition\n");
    }
    script += "submitout e16 00\n! ack k0 01 ; reap\nsubmitout e16 00\nsubmitout e16 00\n";
    output += "condition\nok\ncondition\n";
    for ticket in 0..960 {
        output += &format!(
            "ticket {ticket} k0 {:02x} cancelled 0 reclaimed\n",
            0x81 + ticket / 64
        );
    }
    output += "ticket 960 k0 01 ok 1 dropped\n";
    for ticket in 961..1024 {
        output += &format!("ticket {ticket} k0 01 cancelled 0 reclaimed\n");
    }
    output += "ticket 1024 k0 02 cancelled 0 reclaimed\n";
    expect("limits", &[], script.as_bytes(), 0, &output, "");
}

/// A reader over 64 reaped packets of no bytes, 1,020 unreaped control transfers that were given up,
/// and a read that hands in a transfer for each of the packets: 1,084 tickets are unreaped.
fn crowded_session() -> (String, String) {
    let mut script = String::from(
        "device k0 1 6 3 1 1201000200000040aaaabbbb0001000000010902200001010080320904000002ff0000000705810240000007050202400000\n",
    );
    script += "open d0 1 6\nclaim d0 0 i0\nendpoint e0 i0 81 bulk-in\nreader r0 e0 64\nnum r0 64\npollread r0 5\n";
    script += &format!(
        "! {}reap\n",
        "pkt k0 81 - ; ".repeat(64) + &"reap ; ".repeat(63)
    );
    script += &"fin f0 d0 vendor device 30 0000 0000 64 100\nclose f0\n".repeat(1020);
    script += "pollread r0 5\n";
    let output = "ok\n".repeat(5) + "pending\n" + &"ok\n".repeat(2040) + "pending\n";
    (script, output)
}

/// What became of its tickets.
fn crowded_fates() -> String {
    let mut fates = String::new();
    for ticket in 0..64 {
        fates += &format!("ticket {ticket} k0 81 ok 0 taken\n");
    }
    for ticket in 64..1084 {
        fates += &format!("ticket {ticket} k0 80 cancelled 0 reclaimed\n");
    }
    for ticket in 1084..1148 {
        fates += &format!("ticket {ticket} k0 81 cancelled 0 reclaimed\n");
    }
    fates
}

#[test]
fn bars_every_call_above_1024_unreaped() {
    let (mut script, mut output) = crowded_session();
    script += "now\npoll e0\nclose d0\nisend r0\npending e0\nlist\n";
    output += &"condition\n".repeat(6);
    output += &crowded_fates();
    expect("crowded", &[], script.as_bytes(), 0, &output, "");
}

#[test]
fn makes_calls_again_once_1024_are_unreaped() {
    let (mut script, mut output) = crowded_session();
    script += &format!("! clock 100 ; timer ; {}reap\n", "reap ; ".repeat(58));
    script += "now\nread r0 5 : reap ; clock 107\nnow\n";
    output += "condition\ncondition\nnow 107\n";
    script += "fin f0 d0 vendor device 30 0000 0000 64 100\n! reap\nfin f0 d0 vendor device 30 0000 0000 64 100\n";
    output += "condition\nok\n";
    output += &crowded_fates();
    output += "ticket 1148 k0 80 cancelled 0 reclaimed\n";
    expect("uncrowded", &[], script.as_bytes(), 0, &output, "");
}

#[test]
fn trees_and_packets() {
    check(include_str!("worked/tree.txt"));
}

#[test]
fn writers() {
    check(include_str!("worked/writers.txt"));
}

#[test]
fn clients() {
    check(include_str!("worked/clients.txt"));
}
