//! A script that is made up: a writer sends messages of all sizes from 0 to 199 bytes, the device
//! sends each packet back, and a reader reads each message to its end.

use crate::host::End;
use crate::script::Script;
use crate::session::Session;
use crate::text::{Show, Text};
use std::fmt::Write;

const FRONT: &str = "device k0 1 6 3 1 1201000200000040aaaabbbb0001000000010902200001010080320904000002ff0000000705810240000007050202400000
open d0 1 6
claim d0 0 i0
endpoint e0 i0 02 bulk-out
endpoint e1 i0 81 bulk-in
writer w0 e0 128
num w0 8
reader r0 e1 192
num r0 4
";
const PACKET: usize = 64;
const TRANSFER: usize = 128;

/// What a run came to.
pub struct Run {
    wanted: u32,
    calls: u64,
    ends: [u64; 3],
}

impl Show for Run {
    fn show(&self, text: &mut Text) {
        let [taken, dropped, reclaimed] = self.ends;
        text.word("generate ").number(self.wanted.into());
        text.word(" calls ").number(self.calls);
        text.word(" tickets ").number(taken + dropped + reclaimed);
        text.word(" taken ").number(taken);
        text.word(" dropped ").number(dropped);
        text.word(" reclaimed ").number(reclaimed);
    }
}

fn message(text: &mut String, number: usize) {
    let size = 37 * number % 200;
    let bytes: Vec<u8> = (number..number + size).map(|byte| byte as u8).collect();
    for part in bytes.chunks(TRANSFER) {
        text.push_str("write w0 ");
        for byte in part {
            // Writing to a string doesn't fail.
            let _ = write!(text, "{byte:02x}");
        }
        text.push('\n');
    }
    text.push_str("wend w0\n");
    for _ in 0..=size / PACKET {
        text.push_str("! echo k0 02 81\n");
    }
    text.push_str("flush w0\n");
    let reads = 1 + usize::from(size > 0) + usize::from(size > 3 * PACKET);
    text.push_str(&"sread r0 200\n".repeat(reads));
    text.push_str("endmsg r0\n");
}

fn script(messages: u32) -> String {
    let mut text = String::from(FRONT);
    for number in 0..messages {
        message(&mut text, number as usize);
    }
    text
}

pub fn run(wanted: u32) -> Run {
    let Ok(script) = Script::parse(script(wanted).as_bytes()) else {
        unreachable!("the script is valid")
    };
    let mut session = Session::new(script.devices, script.tree, script.packets);
    let mut line = Text::default();
    let mut calls = 0;
    for item in script.lines {
        if let Some(answer) = session.take(item) {
            line.clear();
            answer.show(&mut line);
            calls += 1;
        }
    }
    session.finish();
    let mut ends = [0; 3];
    for ticket in session.ticket_ends() {
        line.clear();
        ticket.show(&mut line);
        ends[match ticket.end {
            End::Taken => 0,
            End::Dropped => 1,
            End::Reclaimed => 2,
        }] += 1;
    }
    Run {
        wanted,
        calls,
        ends,
    }
}
