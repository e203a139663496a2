//! The journal of a run, as the lines of its trace.

use crate::descriptors::Direction;
use crate::errno::Errno;
use crate::kernel::{Ticket, Transfer};
use crate::names::Name;
use crate::text::{Show, Text};

/// The lines of the events that acted so far, where they are kept.
#[derive(Default)]
pub struct Journal(Option<Text>);

impl Journal {
    /// An empty one, in which events are kept.
    pub fn begun() -> Journal {
        let mut lines = Text::default();
        lines.word("nusb-trace 1\n");
        Journal(Some(lines))
    }

    /// Appends a line, where lines are kept.
    fn tell(&mut self, put_words: impl FnOnce(&mut Text)) {
        if let Some(lines) = &mut self.0 {
            put_words(lines);
            lines.word("\n");
        }
    }

    pub fn submit(&mut self, ticket: Ticket, transfer: &Transfer, deadline: Option<u64>) {
        self.tell(|line| {
            put_transfer(line.word("submit"), ticket, transfer);
            match deadline {
                Some(deadline) => line.word(" ").number(deadline),
                None => line.word(" -"),
            };
        });
    }

    pub fn refuse(&mut self, ticket: Ticket, transfer: &Transfer, errno: Errno) {
        self.tell(|line| {
            put_transfer(line.word("refuse"), ticket, transfer);
            line.word(" ").number(errno.into());
        });
    }

    pub fn packet(&mut self, device: Name, endpoint: u8, bytes: &[u8]) {
        self.tell(|line| {
            put_endpoint(line.word("pkt"), device, endpoint);
            put_bytes(line, bytes);
        });
    }

    pub fn acknowledge(&mut self, device: Name, endpoint: u8) {
        self.tell(|line| put_endpoint(line.word("ack"), device, endpoint));
    }

    pub fn echo(&mut self, device: Name, output: u8, input: u8) {
        self.tell(|line| {
            put_endpoint(line.word("echo"), device, output);
            line.word(" ").hex(&[input]);
        });
    }

    pub fn fail(&mut self, device: Name, endpoint: u8, errno: Errno) {
        self.tell(|line| {
            put_endpoint(line.word("fail"), device, endpoint);
            line.word(" ").number(errno.into());
        });
    }

    /// Appends the line of an event that has one number alone: a discard, a reap or an unplug.
    pub fn event(&mut self, name: &str, number: u64) {
        self.tell(|line| {
            line.word(name).word(" ").number(number);
        });
    }

    /// The whole trace of a run in which these transfers were handed in.
    pub fn end(self, transfers: &[Transfer]) -> Text {
        let mut trace = self.0.unwrap_or_default();
        for (ticket, transfer) in transfers.iter().enumerate() {
            put_fate(&mut trace, ticket, transfer);
        }
        trace.word("end\n");
        trace
    }
}

fn put_endpoint(line: &mut Text, device: Name, endpoint: u8) {
    line.word(" ").number(device.into());
    line.word(" ").hex(&[endpoint]);
}

/// Appends bytes by two digits each, or a dash where there are none.
fn put_bytes(line: &mut Text, bytes: &[u8]) {
    line.word(" ");
    if bytes.is_empty() {
        line.word("-");
    }
    line.hex(bytes);
}

fn put_transfer(line: &mut Text, ticket: Ticket, transfer: &Transfer) {
    line.word(" ").number(ticket as u64);
    put_endpoint(line, transfer.device, transfer.endpoint);
    line.word(" ").number(transfer.maximum as u64);
    match Direction::of_address(transfer.endpoint) {
        Direction::In => {
            line.word(" in ").number(transfer.requested as u64);
        }
        Direction::Out => put_bytes(line.word(" out"), &transfer.bytes),
    }
}

fn put_fate(trace: &mut Text, ticket: Ticket, transfer: &Transfer) {
    trace.word("fate ").number(ticket as u64).word(" ");
    match transfer.outcome {
        Some(outcome) if transfer.is_reaped => outcome.show(trace),
        _ => {
            trace.word("open");
        }
    }
    trace.word(" ").number(transfer.count as u64).word("\n");
}
