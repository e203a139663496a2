//! Rounds at a disk of 256 blocks behind Bulk-Only Transport: each writes blocks, and reads them
//! again. The client's transfers and the packets of the disk go through the simulated kernel.

use crate::kernel::{Kernel, Step, Transfer};
use crate::live::one_device;
use crate::text::{Show, Text};
use std::ops::Range;

const BLOCK: usize = 512;
const BLOCKS: usize = 256;

const OUT: u8 = 0x02;
const IN: u8 = 0x81;
const PACKET: usize = 64;
const WRAPPER: usize = 31;
const STATUS: usize = 13;

const READ: u8 = 0x28;
const WRITE: u8 = 0x2a;

#[derive(Clone, Copy)]
struct Command {
    tag: u32,
    is_read: bool,
    block: u32,
    count: u16,
}

impl Command {
    fn length(self) -> usize {
        BLOCK * usize::from(self.count)
    }

    fn to_bytes(self) -> [u8; WRAPPER] {
        let mut bytes = [0; WRAPPER];
        bytes[..4].copy_from_slice(b"USBC");
        bytes[4..8].copy_from_slice(&self.tag.to_le_bytes());
        bytes[8..12].copy_from_slice(&(self.length() as u32).to_le_bytes());
        bytes[12] = if self.is_read { 0x80 } else { 0 };
        bytes[14] = 10;
        bytes[15] = if self.is_read { READ } else { WRITE };
        bytes[17..21].copy_from_slice(&self.block.to_be_bytes());
        bytes[22..24].copy_from_slice(&self.count.to_be_bytes());
        bytes
    }

    /// The command whose wrapper these bytes are.
    fn from_bytes(bytes: &[u8]) -> Option<Command> {
        let bytes: [u8; WRAPPER] = bytes.try_into().ok()?;
        let command = Command {
            tag: u32::from_le_bytes(bytes[4..8].try_into().ok()?),
            is_read: bytes[15] == READ,
            block: u32::from_be_bytes(bytes[17..21].try_into().ok()?),
            count: u16::from_be_bytes(bytes[22..24].try_into().ok()?),
        };
        (command.to_bytes() == bytes).then_some(command)
    }

    /// The status of the command, which failed or passed with all of its data.
    fn status(self, failed: bool) -> Vec<u8> {
        let residue = if failed { self.length() as u32 } else { 0 };
        let mut bytes = b"USBS".to_vec();
        bytes.extend(self.tag.to_le_bytes());
        bytes.extend(residue.to_le_bytes());
        bytes.push(failed.into());
        bytes
    }
}

/// What a disk does next.
enum Stage {
    /// It waits for a wrapper.
    Listening,
    /// It takes the data of a command.
    Taking { command: Command, data: Vec<u8> },
    /// It sends data, if there are any, and then a status.
    Sending { transfers: Vec<Vec<u8>> },
}

struct Disk {
    bytes: Vec<u8>,
    stage: Stage,
}

impl Disk {
    /// The places of a command's blocks, where they are all there.
    fn places(&self, command: Command) -> Option<Range<usize>> {
        let start = BLOCK * command.block as usize;
        let end = start + command.length();
        (end <= self.bytes.len()).then_some(start..end)
    }

    /// The stage behind a wrapper.
    fn begin(&self, command: Command) -> Stage {
        if !command.is_read {
            let data = Vec::with_capacity(command.length());
            return Stage::Taking { command, data };
        }
        let places = self.places(command);
        let status = command.status(places.is_none());
        let data = places.map_or(Vec::new(), |places| self.bytes[places].to_vec());
        // The last one is the next.
        let transfers = vec![status, data];
        Stage::Sending { transfers }
    }

    /// Takes a packet of an OUT transfer.
    fn take(&mut self, packet: &[u8]) {
        match &mut self.stage {
            Stage::Listening => {
                if let Some(command) = Command::from_bytes(packet) {
                    self.stage = self.begin(command);
                }
            }
            Stage::Taking { command, data } => {
                data.extend_from_slice(packet);
                if data.len() == command.length() {
                    let (command, data) = (*command, std::mem::take(data));
                    self.store(command, &data);
                }
            }
            Stage::Sending { .. } => {}
        }
    }

    /// Writes the data of a command, where all its blocks are there.
    fn store(&mut self, command: Command, data: &[u8]) {
        let places = self.places(command);
        let transfers = vec![command.status(places.is_none())];
        if let Some(places) = places {
            self.bytes[places].copy_from_slice(data);
        }
        self.stage = Stage::Sending { transfers };
    }

    /// All that it sends into the next IN transfer.
    fn send(&mut self) -> Vec<u8> {
        let Stage::Sending { transfers } = &mut self.stage else {
            return Vec::new();
        };
        let bytes = transfers.pop().unwrap_or_default();
        if transfers.is_empty() {
            self.stage = Stage::Listening;
        }
        bytes
    }
}

/// A command failed.
struct Failed;

/// A client of a disk, with the kernel between them.
struct Client {
    kernel: Kernel,
    disk: Disk,
    next_tag: u32,
}

impl Client {
    fn new() -> Client {
        Client {
            kernel: one_device(),
            disk: Disk {
                bytes: vec![0; BLOCKS * BLOCK],
                stage: Stage::Listening,
            },
            next_tag: 0,
        }
    }

    /// Hands a transfer in, has the disk end it, and takes its bytes.
    fn transfer(&mut self, endpoint: u8, requested: usize, bytes: Vec<u8>) -> Vec<u8> {
        let sent = bytes.clone();
        let transfer = Transfer {
            device: 0,
            endpoint,
            maximum: PACKET,
            requested,
            room: requested,
            bytes,
            count: 0,
            outcome: None,
            is_reaped: false,
        };
        let ticket = self.kernel.submit(transfer, None);
        if endpoint == OUT {
            for packet in sent.chunks(PACKET) {
                self.disk.take(packet);
                self.kernel.step(Step::Acknowledge {
                    device: 0,
                    endpoint,
                });
            }
        } else {
            self.answer(requested);
        }
        self.kernel.reap(ticket);
        std::mem::take(&mut self.kernel.transfers[ticket].bytes)
    }

    /// The disk sends its packets into a transfer that asks for so many bytes.
    fn answer(&mut self, requested: usize) {
        let bytes = self.disk.send();
        let mut packets: Vec<&[u8]> = bytes.chunks(PACKET).collect();
        if bytes.len() < requested && bytes.len().is_multiple_of(PACKET) {
            packets.push(&[]);
        }
        for packet in packets {
            self.kernel.step(Step::Packet {
                device: 0,
                endpoint: IN,
                bytes: packet.to_vec(),
            });
        }
    }

    /// Sends a wrapper, moves the data, which come in where there are none to send, and takes the
    /// status.
    fn command(&mut self, command: Command, data: Vec<u8>) -> Result<Vec<u8>, Failed> {
        self.next_tag = self.next_tag.wrapping_add(1);
        self.transfer(OUT, WRAPPER, command.to_bytes().to_vec());
        let endpoint = if command.is_read { IN } else { OUT };
        let data = self.transfer(endpoint, command.length(), data);
        let status = self.transfer(IN, PACKET, Vec::new());
        if status.len() == STATUS && status == command.status(false) {
            Ok(data)
        } else {
            Err(Failed)
        }
    }

    fn next_command(&self, is_read: bool, block: u32, count: u16) -> Command {
        Command {
            tag: self.next_tag,
            is_read,
            block,
            count,
        }
    }

    fn read(&mut self, block: u32, count: u16) -> Result<Vec<u8>, Failed> {
        let command = self.next_command(true, block, count);
        self.command(command, Vec::new())
    }

    fn write(&mut self, block: u32, bytes: Vec<u8>) -> Result<(), Failed> {
        let command = self.next_command(false, block, (bytes.len() / BLOCK) as u16);
        self.command(command, bytes).map(|_| ())
    }
}

/// What the commands of rounds came to.
#[derive(Default)]
pub struct Run {
    rounds: u32,
    writes: u64,
    reads: u64,
    failed: u64,
    sum: u64,
}

impl Show for Run {
    fn show(&self, text: &mut Text) {
        text.word("disk ").number(self.rounds.into());
        text.word(" writes ").number(self.writes);
        text.word(" reads ").number(self.reads);
        text.word(" failed ").number(self.failed);
        text.word(" sum ").number(self.sum);
    }
}

impl Run {
    fn round(&mut self, client: &mut Client, number: u32) {
        let block = 37 * number % 256;
        let count = (number % 4 + 1) as u16;
        let bytes = (0..BLOCK * usize::from(count)).map(|i| (number as usize + i) as u8);
        match client.write(block, bytes.collect()) {
            Ok(()) => self.writes += 1,
            Err(Failed) => self.failed += 1,
        }
        match client.read(block, count) {
            Ok(bytes) => {
                self.reads += 1;
                self.sum += bytes.into_iter().map(u64::from).sum::<u64>();
            }
            Err(Failed) => self.failed += 1,
        }
    }
}

/// Runs so many rounds.
pub fn run(rounds: u32) -> Run {
    let mut client = Client::new();
    let mut run = Run {
        rounds,
        ..Run::default()
    };
    for number in 0..rounds {
        run.round(&mut client, number);
    }
    run
}
