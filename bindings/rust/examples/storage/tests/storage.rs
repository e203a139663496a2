//! A simulated disk of eight blocks of 512 bytes: block n is full of bytes n.

use nusb::sim::{Bench, Fault, InReply, OutReply, Plug, SimDevice, Socket};
use nusb::transfer::{ControlOut, TransferError};
use std::collections::VecDeque;
use storage::{Storage, StorageError};

const BLOCK: usize = 512;

#[rustfmt::skip]
const DESCRIPTORS: [u8; 50] = [
    18, 1, 0x00, 0x02, 0, 0, 0, 64, 0x81, 0x07, 0x67, 0x55, 0x26, 0x01, 1, 2, 3, 1,
    9, 2, 32, 0, 1, 1, 0, 0x80, 50,
    9, 4, 0, 0, 2, 8, 6, 0x50, 0,
    7, 5, 0x81, 2, 0x00, 0x02, 0,
    7, 5, 0x02, 2, 0x00, 0x02, 0,
];

/// The disk: the packets that it is to send, and the reason for its last refusal.
#[derive(Default)]
struct Disk {
    packets: VecDeque<InReply>,
    sense: (u8, u8),
    /// The status that the next command is to end with, where a test wants another than the disk's.
    status: Option<u8>,
}

impl Disk {
    fn data(&mut self, bytes: &[u8], asked: usize) {
        let packets = bytes.chunks(BLOCK).map(|it| InReply::Packet(it.to_vec()));
        self.packets.extend(packets);
        if bytes.len() < asked {
            self.packets.push_back(InReply::Stall);
        }
    }

    /// Does a command: its data, and whether it is refused.
    fn perform(&mut self, command: &[u8]) -> (Vec<u8>, u8) {
        let first = u32::from_be_bytes(command[2..6].try_into().unwrap());
        let count = u32::from(u16::from_be_bytes(command[7..9].try_into().unwrap()));
        match command[0] {
            0x25 => ([7u32.to_be_bytes(), 512u32.to_be_bytes()].concat(), 0),
            0x28 if first + count <= 8 => {
                let blocks = (first..first + count).map(|it| vec![it as u8; BLOCK]);
                (blocks.flatten().collect(), 0)
            }
            0x03 => {
                let mut sense = vec![0; 18];
                (sense[0], sense[2], sense[12]) = (0x70, self.sense.0, self.sense.1);
                (sense, 0)
            }
            _ => {
                self.sense = (5, 0x21);
                (Vec::new(), 1)
            }
        }
    }
}

impl SimDevice for Disk {
    fn poll(&mut self, _: u8) -> InReply {
        self.packets.pop_front().unwrap_or(InReply::Nak)
    }

    fn out(&mut self, _: u8, packet: &[u8]) -> OutReply {
        let asked = u32::from_le_bytes(packet[8..12].try_into().unwrap());
        let (bytes, status) = self.perform(&packet[15..]);
        self.data(&bytes, asked as usize);
        let mut wrapper = [b"USBS", &packet[4..8]].concat();
        wrapper.extend((asked - bytes.len() as u32).to_le_bytes());
        wrapper.push(self.status.take().unwrap_or(status));
        self.packets.push_back(InReply::Packet(wrapper));
        OutReply::Ack
    }

    fn control_out(&mut self, request: ControlOut<'_>) -> OutReply {
        self.packets.clear();
        match request.request {
            0xFF => OutReply::Ack,
            _ => OutReply::Stall,
        }
    }
}

fn plugged(disk: Disk) -> (Bench, Socket, Storage) {
    let bench = Bench::new();
    let socket = bench.plug(Plug::new(&DESCRIPTORS), disk);
    let storage = Storage::open_first().unwrap();
    (bench, socket, storage)
}

fn disk() -> (Bench, Socket, Storage) {
    plugged(Disk::default())
}

fn block(number: u8) -> Vec<u8> {
    vec![number; BLOCK]
}

#[test]
fn blocks_are_read() {
    let (_bench, _socket, mut storage) = disk();
    assert_eq!(storage.capacity().unwrap(), (8, 512));
    assert_eq!(storage.read(2, 1, BLOCK).unwrap(), block(2));
    assert_eq!(storage.read(5, 3, BLOCK).unwrap(), [block(5), block(6), block(7)].concat());
}

#[test]
fn a_refused_command_tells_its_reason_and_the_next_one_is_done() {
    let (_bench, _socket, mut storage) = disk();
    let refused = storage.read(7, 2, BLOCK);
    assert!(matches!(refused, Err(StorageError::Refused { key: 5, code: 0x21 })));
    assert_eq!(storage.read(7, 1, BLOCK).unwrap(), block(7));
}

#[test]
fn a_stall_before_the_status_is_cleared() {
    let (bench, socket, mut storage) = disk();
    socket.inject(0x81, [Fault::Pass, Fault::Stall]);
    assert_eq!(storage.read(1, 1, BLOCK).unwrap(), block(1));
    assert_eq!(bench.script().matches("\nhalt ").count(), 1);
}

#[test]
fn data_that_are_cut_short_are_told() {
    let (_bench, socket, mut storage) = disk();
    socket.inject(0x81, [Fault::Pass, Fault::Cut(100)]);
    let short = storage.read(0, 2, BLOCK);
    assert!(matches!(short, Err(StorageError::Short { count: 612 })));
}

#[test]
fn a_status_that_is_cut_short_resets_the_disk() {
    let (bench, socket, mut storage) = disk();
    socket.inject(0x81, [Fault::Pass, Fault::Cut(12)]);
    assert!(matches!(storage.read(3, 1, BLOCK), Err(StorageError::Phase)));
    assert!(bench
        .script()
        .contains("\nctlout i0 class interface ff 0000 0000 - 1000000000 : ack k0 00\n"));
    assert_eq!(storage.read(3, 1, BLOCK).unwrap(), block(3));
}

#[test]
fn a_phase_error_resets_the_disk() {
    let (_bench, _socket, mut storage) = plugged(Disk { status: Some(2), ..Disk::default() });
    assert!(matches!(storage.capacity(), Err(StorageError::Phase)));
    assert_eq!(storage.capacity().unwrap(), (8, 512));
}

#[test]
fn a_disk_that_is_busy_times_out() {
    let (_bench, socket, mut storage) = disk();
    socket.inject(0x02, [Fault::Nak]);
    let late = storage.capacity();
    assert!(matches!(late, Err(StorageError::Transfer(TransferError::Cancelled))));
}

#[test]
fn a_disk_that_is_unplugged_within_its_data_is_told() {
    let (bench, socket, mut storage) = disk();
    socket.inject(0x81, [Fault::Pass, Fault::Unplug]);
    let gone = storage.read(0, 2, BLOCK);
    assert!(matches!(gone, Err(StorageError::Transfer(TransferError::Disconnected))));
    assert_eq!(bench.fates()[1], "ticket 1 k0 81 disconnected 512 taken");
}
