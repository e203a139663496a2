//! Transfers between two threads: a caller hands them in, and a handler reaps them. The kernel is
//! behind a lock; tickets go to the handler over one channel, and receipts come back over another.

use crate::kernel::{Device, Kernel, Step, Ticket, Transfer};
use crate::text::{Show, Text};
use std::sync::mpsc::{self, Receiver, Sender};
use std::sync::{Mutex, MutexGuard, PoisonError};
use std::thread;

/// One configuration with one interface, a bulk IN endpoint 0x81 and a bulk OUT endpoint 0x02.
const DESCRIPTORS: [u8; 50] = [
    0x12, 0x01, 0x00, 0x02, 0x00, 0x00, 0x00, 0x40, 0xaa, 0xaa, 0xbb, 0xbb, 0x00, 0x01, 0x00, 0x00,
    0x00, 0x01, 0x09, 0x02, 0x20, 0x00, 0x01, 0x01, 0x00, 0x80, 0x32, 0x09, 0x04, 0x00, 0x00, 0x02,
    0xff, 0x00, 0x00, 0x00, 0x07, 0x05, 0x81, 0x02, 0x40, 0x00, 0x00, 0x07, 0x05, 0x02, 0x02, 0x40,
    0x00, 0x00,
];
const ENDPOINT: u8 = 0x81;
const PACKET: usize = 64;

/// A transfer that was reaped, with what came in.
struct Receipt {
    ticket: Ticket,
    bytes: Vec<u8>,
}

/// What a run came to.
pub struct Run {
    wanted: u32,
    submitted: usize,
    taken: usize,
}

impl Show for Run {
    fn show(&self, text: &mut Text) {
        text.word("live ").number(self.wanted.into());
        text.word(" submitted ").number(self.submitted as u64);
        text.word(" taken ").number(self.taken as u64);
        text.word(" dropped ").number(0);
        text.word(" reclaimed ")
            .number((self.submitted - self.taken) as u64);
    }
}

fn locked(kernel: &Mutex<Kernel>) -> MutexGuard<'_, Kernel> {
    kernel.lock().unwrap_or_else(PoisonError::into_inner)
}

/// A kernel with the device.
pub fn one_device() -> Kernel {
    let mut kernel = Kernel::default();
    let device = Device {
        bus: 1,
        address: 6,
        speed: 3,
        configuration: 1,
        bytes: DESCRIPTORS.to_vec(),
        drivers: Vec::new(),
    };
    kernel.plug(0, device);
    kernel
}

/// Hands a transfer in, and the packet that ends it.
fn feed(kernel: &mut Kernel, byte: u8) -> Ticket {
    let transfer = Transfer {
        device: 0,
        endpoint: ENDPOINT,
        maximum: PACKET,
        requested: PACKET,
        room: PACKET,
        bytes: Vec::with_capacity(PACKET),
        count: 0,
        outcome: None,
        is_reaped: false,
    };
    let ticket = kernel.submit(transfer, None);
    kernel.step(Step::Packet {
        device: 0,
        endpoint: ENDPOINT,
        bytes: vec![byte],
    });
    ticket
}

/// The caller's part: one transfer after another.
fn call(
    wanted: u32,
    kernel: &Mutex<Kernel>,
    handed_in: Sender<Ticket>,
    done: Receiver<Receipt>,
) -> Vec<Receipt> {
    let mut receipts = Vec::new();
    for nth in 0..wanted {
        let ticket = feed(&mut locked(kernel), nth as u8);
        if handed_in.send(ticket).is_err() {
            break;
        }
        receipts.extend(done.recv().ok());
    }
    receipts
}

/// The handler's part, until the caller is done.
fn handle(kernel: &Mutex<Kernel>, handed_in: Receiver<Ticket>, done: Sender<Receipt>) {
    for ticket in handed_in {
        let mut kernel = locked(kernel);
        let Some(ticket) = kernel.reap(ticket) else {
            continue;
        };
        let bytes = std::mem::take(&mut kernel.transfers[ticket].bytes);
        drop(kernel);
        if done.send(Receipt { ticket, bytes }).is_err() {
            return;
        }
    }
}

/// Runs so many transfers of one packet each.
pub fn run(wanted: u32) -> Run {
    let kernel = Mutex::new(one_device());
    let (handed_in, tickets) = mpsc::channel();
    let (done, receipts) = mpsc::channel();
    let receipts = thread::scope(|scope| {
        scope.spawn(|| handle(&kernel, tickets, done));
        call(wanted, &kernel, handed_in, receipts)
    });
    let is_right = |(nth, receipt): &(usize, &Receipt)| {
        receipt.ticket == *nth && receipt.bytes == [*nth as u8]
    };
    Run {
        wanted,
        submitted: locked(&kernel).transfers.len(),
        taken: receipts.iter().enumerate().filter(is_right).count(),
    }
}
