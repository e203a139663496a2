//! A simulated serial adapter whose two lines are joined: what it is sent comes back, and a test may
//! let it send more.

use nusb::sim::{Bench, Fault, InReply, OutReply, Plug, SimDevice, Socket};
use nusb::transfer::{ControlIn, ControlOut, TransferError};
use serial::{LineCoding, Serial};
use std::collections::VecDeque;
use std::io;
use std::sync::{Arc, Mutex};

const RATE: LineCoding = LineCoding { rate: 115_200 };

#[rustfmt::skip]
const DESCRIPTORS: [u8; 66] = [
    18, 1, 0x00, 0x02, 2, 0, 0, 64, 0x09, 0x12, 0x01, 0x00, 0x00, 0x01, 1, 2, 3, 1,
    9, 2, 48, 0, 2, 1, 0, 0x80, 50,
    9, 4, 0, 0, 0, 2, 2, 1, 0,
    // A functional descriptor of the class, of seven bytes.
    7, 0x24, 0x01, 0x03, 0x01, 0x00, 0x00,
    9, 4, 1, 0, 2, 10, 0, 0, 0,
    7, 5, 0x81, 2, 64, 0, 0,
    7, 5, 0x02, 2, 64, 0, 0,
];

#[derive(Default)]
struct Line {
    coding: Vec<u8>,
    state: u16,
    sent: VecDeque<u8>,
}

/// The adapter, and the line that a test shares with it.
struct Adapter(Arc<Mutex<Line>>);

impl SimDevice for Adapter {
    fn poll(&mut self, _: u8) -> InReply {
        let mut line = self.0.lock().unwrap();
        let count = line.sent.len().min(64);
        match count {
            0 => InReply::Nak,
            _ => InReply::Packet(line.sent.drain(..count).collect()),
        }
    }

    fn out(&mut self, _: u8, packet: &[u8]) -> OutReply {
        self.0.lock().unwrap().sent.extend(packet);
        OutReply::Ack
    }

    fn control_in(&mut self, request: ControlIn) -> InReply {
        match request.request {
            0x21 => InReply::Packet(self.0.lock().unwrap().coding.clone()),
            _ => InReply::Stall,
        }
    }

    fn control_out(&mut self, request: ControlOut<'_>) -> OutReply {
        let mut line = self.0.lock().unwrap();
        match request.request {
            0x20 => line.coding = request.data.to_vec(),
            0x22 => line.state = request.value,
            _ => return OutReply::Stall,
        }
        OutReply::Ack
    }
}

struct Desk {
    line: Arc<Mutex<Line>>,
    socket: Socket,
    serial: Serial,
    _bench: Bench,
}

fn desk() -> Desk {
    let bench = Bench::new();
    let line = Arc::new(Mutex::new(Line::default()));
    let plug = Plug::new(&DESCRIPTORS).string(3, "A5XK3RJT");
    let socket = bench.plug(plug, Adapter(line.clone()));
    let serial = Serial::open(0x1209, 0x0001, RATE).unwrap();
    Desk { line, socket, serial, _bench: bench }
}

fn transfer_error(error: &io::Error) -> Option<TransferError> {
    error.get_ref()?.downcast_ref().copied()
}

#[test]
fn the_line_is_set() {
    let desk = desk();
    assert_eq!(desk.line.lock().unwrap().coding, [0x00, 0xC2, 0x01, 0x00, 0, 0, 8]);
    assert_eq!(desk.line.lock().unwrap().state, 3);
    assert_eq!(desk.serial.line_coding().unwrap(), RATE);
}

#[test]
fn frames_come_back_whatever_they_hold() {
    let frames: [&[u8]; 5] =
        [b"hello", &[0xC0], &[0xDB, 0xDC, 0xC0, 0xDD], &[0xDB; 64], &[0x11; 700]];
    let mut desk = desk();
    for frame in frames {
        desk.serial.send(frame).unwrap();
    }
    for frame in frames {
        assert_eq!(desk.serial.receive().unwrap(), frame);
    }
    assert_eq!(desk.serial.receive().unwrap_err().kind(), io::ErrorKind::TimedOut);
}

#[test]
fn a_frame_in_two_parts_is_kept_over_a_timeout() {
    let mut desk = desk();
    desk.line.lock().unwrap().sent.extend(b"first ");
    assert_eq!(desk.serial.receive().unwrap_err().kind(), io::ErrorKind::TimedOut);
    desk.line.lock().unwrap().sent.extend(b"half\xC0");
    assert_eq!(desk.serial.receive().unwrap(), b"first half");
}

#[test]
fn packets_that_are_cut_short_lose_their_bytes_alone() {
    let mut desk = desk();
    desk.line.lock().unwrap().sent.extend(b"abcdef");
    desk.socket.inject(0x81, [Fault::Cut(3)]);
    assert_eq!(desk.serial.receive().unwrap_err().kind(), io::ErrorKind::TimedOut);
    desk.line.lock().unwrap().sent.extend(b"\xC0");
    assert_eq!(desk.serial.receive().unwrap(), b"abc");
}

#[test]
fn a_stalled_write_fails_and_the_next_one_goes() {
    let mut desk = desk();
    desk.socket.inject(0x02, [Fault::Stall]);
    let error = desk.serial.send(b"lost").unwrap_err();
    assert_eq!(transfer_error(&error), Some(TransferError::Stall));
    desk.serial.send(b"sent").unwrap();
    assert_eq!(desk.serial.receive().unwrap(), b"sent");
}

#[test]
fn a_stalled_read_lasts() {
    let mut desk = desk();
    desk.socket.inject(0x81, [Fault::Stall]);
    for _ in 0..2 {
        let error = desk.serial.receive().unwrap_err();
        assert_eq!(transfer_error(&error), Some(TransferError::Stall));
    }
}

#[test]
fn a_write_that_is_not_taken_times_out() {
    let mut desk = desk();
    desk.socket.inject(0x02, [Fault::Nak]);
    let error = desk.serial.send(b"late").unwrap_err();
    assert_eq!(error.kind(), io::ErrorKind::TimedOut);
    desk.serial.send(b"both").unwrap();
    assert_eq!(desk.serial.receive().unwrap(), b"late");
    assert_eq!(desk.serial.receive().unwrap(), b"both");
}

#[test]
fn an_unplugged_adapter_is_told_by_each_call() {
    let mut desk = desk();
    desk.line.lock().unwrap().sent.extend(b"last\xC0");
    assert_eq!(desk.serial.receive().unwrap(), b"last");
    desk.socket.unplug();
    let errors = [desk.serial.send(b"x").unwrap_err(), desk.serial.receive().unwrap_err()];
    for error in errors {
        assert_eq!(transfer_error(&error), Some(TransferError::Disconnected));
    }
    let error = desk.serial.line_coding().unwrap_err();
    assert_eq!(transfer_error(&error), Some(TransferError::Disconnected));
}
