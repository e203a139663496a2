//! A simulated keyboard: it sends the reports that a test gives it, and keeps what it was asked.

use keyboard::{is_gone, Keyboard, Report};
use nusb::sim::{Bench, Closures, Fault, InReply, KernelCall, OutReply, Plug, Socket};
use nusb::transfer::TransferError;
use std::sync::mpsc::{channel, Receiver, Sender};
use std::time::Duration;

const SECOND: Duration = Duration::from_secs(1);

#[rustfmt::skip]
const DESCRIPTORS: [u8; 52] = [
    18, 1, 0x10, 0x01, 0, 0, 0, 8, 0x6D, 0x04, 0x1C, 0xC3, 0x00, 0x64, 1, 2, 0, 1,
    9, 2, 34, 0, 1, 1, 0, 0xA0, 49,
    9, 4, 0, 0, 1, 3, 1, 1, 0,
    9, 0x21, 0x10, 0x01, 0, 1, 0x22, 62, 0,
    7, 5, 0x81, 3, 8, 0, 10,
];

/// A test's side of a keyboard: what it is to send, and the requests that came.
struct Desk {
    bench: Bench,
    socket: Socket,
    keys: Sender<Vec<u8>>,
    requests: Receiver<(u8, u16, u16, Vec<u8>)>,
}

fn desk() -> Desk {
    let bench = Bench::new();
    let (keys, pressed) = channel::<Vec<u8>>();
    let (sender, requests) = channel();
    let device = Closures::new()
        .on_poll(move |_| pressed.try_recv().map_or(InReply::Nak, InReply::Packet))
        .on_control_out(move |it| {
            let told = (it.request, it.value, it.index, it.data.to_vec());
            sender.send(told).map_or(OutReply::Stall, |()| OutReply::Ack)
        });
    let plug = Plug::new(&DESCRIPTORS).string(1, "Logitech").string(2, "Keyboard").driver(0);
    let socket = bench.plug(plug, device);
    Desk { bench, socket, keys, requests }
}

/// The report of one key without modifiers.
fn key(code: u8) -> Vec<u8> {
    vec![0, 0, code, 0, 0, 0, 0, 0]
}

fn pressed(code: u8) -> Report {
    Report { modifiers: 0, keys: [code, 0, 0, 0, 0, 0] }
}

#[test]
fn reports_come_in_order() {
    let desk = desk();
    let mut keyboard = Keyboard::open_first().unwrap();
    for code in 4..14 {
        desk.keys.send(key(code)).unwrap();
    }
    let read: Vec<_> = (4..14).map(|_| keyboard.next_report(SECOND).unwrap().unwrap()).collect();
    assert_eq!(read, (4..14).map(pressed).collect::<Vec<_>>());
    assert_eq!(keyboard.next_report(SECOND).unwrap(), None);
}

#[test]
fn a_request_sets_the_leds() {
    let desk = desk();
    let keyboard = Keyboard::open_first().unwrap();
    keyboard.use_boot_protocol().unwrap();
    keyboard.set_leds(2).unwrap();
    let requests: Vec<_> = desk.requests.try_iter().collect();
    assert_eq!(requests, [(0x0B, 0, 0, vec![]), (0x09, 0x0200, 0, vec![2])]);
}

#[test]
fn a_late_report_is_read_by_the_next_call() {
    let desk = desk();
    let mut keyboard = Keyboard::open_first().unwrap();
    desk.keys.send(key(5)).unwrap();
    desk.socket.inject(0x81, [Fault::Nak]);
    assert_eq!(keyboard.next_report(SECOND).unwrap(), None);
    assert_eq!(keyboard.next_report(SECOND).unwrap(), Some(pressed(5)));
}

#[test]
fn a_report_that_is_cut_short_is_left_out() {
    let desk = desk();
    let mut keyboard = Keyboard::open_first().unwrap();
    desk.keys.send(key(6)).unwrap();
    desk.keys.send(key(7)).unwrap();
    desk.socket.inject(0x81, [Fault::Cut(5)]);
    assert_eq!(keyboard.next_report(SECOND).unwrap(), Some(pressed(7)));
}

#[test]
fn a_stall_is_cleared_and_reading_goes_on() {
    let desk = desk();
    let mut keyboard = Keyboard::open_first().unwrap();
    desk.keys.send(key(8)).unwrap();
    desk.socket.inject(0x81, [Fault::Stall]);
    assert_eq!(keyboard.next_report(SECOND).unwrap(), Some(pressed(8)));
    assert!(desk.bench.script().contains("\nhalt e0\n"));
}

#[test]
fn requests_fail_as_the_keyboard_says() {
    let desk = desk();
    let keyboard = Keyboard::open_first().unwrap();
    desk.socket.inject(0x00, [Fault::Stall, Fault::Nak, Fault::Unplug]);
    assert_eq!(keyboard.set_leds(1), Err(TransferError::Stall));
    assert_eq!(keyboard.set_leds(1), Err(TransferError::Cancelled));
    assert_eq!(keyboard.set_leds(1), Err(TransferError::Disconnected));
    assert_eq!(desk.requests.try_iter().count(), 0);
}

#[test]
fn an_unplugged_keyboard_is_told() {
    let desk = desk();
    let mut keyboard = Keyboard::open_first().unwrap();
    desk.keys.send(key(9)).unwrap();
    assert_eq!(keyboard.next_report(SECOND).unwrap(), Some(pressed(9)));
    desk.socket.unplug();
    assert!(is_gone(&keyboard.next_report(SECOND).unwrap_err()));
    drop(keyboard);
    assert!(Keyboard::open_first().is_err_and(|error| is_gone(&error)));
}

#[test]
fn a_claim_that_is_refused_is_told() {
    let desk = desk();
    desk.socket.refuse(KernelCall::DetachAndClaim, 16);
    let error = Keyboard::open_first().map(drop).unwrap_err();
    assert_eq!(error.to_string(), "interface is busy (errno 16)");
}
