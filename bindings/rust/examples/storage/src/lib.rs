//! A mass storage device (USB Mass Storage Class, Bulk-Only Transport 1.0): a command goes out in a
//! wrapper, data come in, and then a status wrapper.

use nusb::transfer::{Buffer, Bulk, ControlOut, ControlType, In, Out, Recipient, TransferError};
use nusb::{Endpoint, Interface, MaybeFuture};
use std::fmt;
use std::io;
use std::time::Duration;

const SIGNATURE: [u8; 4] = *b"USBC";
const STATUS_SIGNATURE: [u8; 4] = *b"USBS";
const STATUS_LENGTH: usize = 13;
const RESET: u8 = 0xFF;
const SECOND: Duration = Duration::from_secs(1);

/// Why a command was not done.
#[derive(Debug)]
pub enum StorageError {
    /// The device refused it: the sense key and the additional sense code of its reason.
    Refused {
        /// The sense key.
        key: u8,
        /// The additional sense code.
        code: u8,
    },
    /// The device sent what is no valid status, or reported a phase error. It was reset.
    Phase,
    /// The device sent fewer bytes than the command asked for.
    Short {
        /// How many came.
        count: usize,
    },
    /// A transfer failed.
    Transfer(TransferError),
    /// Another error of the host.
    Host(io::Error),
}

impl fmt::Display for StorageError {
    fn fmt(&self, f: &mut fmt::Formatter<'_>) -> fmt::Result {
        match self {
            StorageError::Refused { key, code } => {
                write!(f, "the device refused the command (sense {key:x}, code {code:02x})")
            }
            StorageError::Phase => write!(f, "the device was reset behind a phase error"),
            StorageError::Short { count } => write!(f, "the device sent {count} bytes alone"),
            StorageError::Transfer(error) => error.fmt(f),
            StorageError::Host(error) => error.fmt(f),
        }
    }
}

impl std::error::Error for StorageError {}

impl From<TransferError> for StorageError {
    fn from(error: TransferError) -> StorageError {
        StorageError::Transfer(error)
    }
}

impl From<nusb::Error> for StorageError {
    fn from(error: nusb::Error) -> StorageError {
        StorageError::Host(error.into())
    }
}

/// How a command ended: its status byte, and how many bytes of its data are missing.
struct Status {
    status: u8,
    residue: u32,
}

/// An open mass storage device.
pub struct Storage {
    interface: Interface,
    input: Endpoint<Bulk, In>,
    output: Endpoint<Bulk, Out>,
    tag: u32,
}

impl Storage {
    /// Opens the first device whose interface is mass storage with SCSI commands over Bulk-Only
    /// Transport, with its bulk endpoints 81 and 02.
    pub fn open_first() -> Result<Storage, StorageError> {
        let mut devices = nusb::list_devices().wait()?;
        let found = devices.find_map(|device| {
            let mut interfaces = device.interfaces();
            let storage =
                interfaces.find(|it| (it.class(), it.subclass(), it.protocol()) == (8, 6, 0x50))?;
            Some((storage.interface_number(), device.clone()))
        });
        let (number, info) = found.ok_or_else(|| {
            StorageError::Host(io::Error::new(io::ErrorKind::NotFound, "no disk"))
        })?;
        let interface = info.open().wait()?.claim_interface(number).wait()?;
        let input = interface.endpoint::<Bulk, In>(0x81)?;
        let output = interface.endpoint::<Bulk, Out>(0x02)?;
        Ok(Storage { interface, input, output, tag: 0 })
    }

    /// The number of blocks, and the size of one in bytes.
    pub fn capacity(&mut self) -> Result<(u32, u32), StorageError> {
        let bytes = self.command(&[0x25, 0, 0, 0, 0, 0, 0, 0, 0, 0], 8)?;
        let word = |at: usize| {
            u32::from_be_bytes([bytes[at], bytes[at + 1], bytes[at + 2], bytes[at + 3]])
        };
        Ok((word(0).wrapping_add(1), word(4)))
    }

    /// Reads blocks of this size from the block `first` on.
    pub fn read(&mut self, first: u32, count: u16, size: usize) -> Result<Vec<u8>, StorageError> {
        let [a, b, c, d] = first.to_be_bytes();
        let [high, low] = count.to_be_bytes();
        let command = [0x28, 0, a, b, c, d, 0, high, low, 0];
        self.command(&command, usize::from(count) * size)
    }

    /// Does a command that brings so many bytes, and asks for the reason where it is refused.
    fn command(&mut self, command: &[u8], len: usize) -> Result<Vec<u8>, StorageError> {
        let (bytes, status) = self.transport(command, len)?;
        match status.status {
            0 if status.residue > 0 || bytes.len() < len => {
                Err(StorageError::Short { count: bytes.len() })
            }
            0 => Ok(bytes),
            1 => {
                let (sense, _) = self.transport(&[0x03, 0, 0, 0, 18, 0], 18)?;
                let at = |place: usize| sense.get(place).copied().unwrap_or(0);
                Err(StorageError::Refused { key: at(2) & 0x0F, code: at(12) })
            }
            _ => {
                self.recover()?;
                Err(StorageError::Phase)
            }
        }
    }

    /// The command, data and status of one command.
    fn transport(&mut self, command: &[u8], len: usize) -> Result<(Vec<u8>, Status), StorageError> {
        self.tag = self.tag.wrapping_add(1);
        self.output.transfer_blocking(self.wrapper(command, len).into(), SECOND).into_result()?;
        let bytes = self.data(len)?;
        match self.status()? {
            Some(status) => Ok((bytes, status)),
            None => {
                self.recover()?;
                Err(StorageError::Phase)
            }
        }
    }

    /// The command block wrapper (section 5.1): 31 bytes.
    fn wrapper(&self, command: &[u8], len: usize) -> Vec<u8> {
        let mut wrapper = SIGNATURE.to_vec();
        wrapper.extend(self.tag.to_le_bytes());
        wrapper.extend(u32::try_from(len).unwrap_or(u32::MAX).to_le_bytes());
        wrapper.extend([0x80, 0, command.len() as u8]);
        wrapper.extend(command);
        wrapper.resize(31, 0);
        wrapper
    }

    /// A buffer of whole packets for so many bytes.
    fn buffer(&self, len: usize) -> Buffer {
        let packet = self.input.max_packet_size();
        self.input.allocate(len.div_ceil(packet).max(1) * packet)
    }

    /// The data of a command. A stall ends them early, and is cleared (section 6.7.2).
    fn data(&mut self, len: usize) -> Result<Vec<u8>, StorageError> {
        if len == 0 {
            return Ok(Vec::new());
        }
        let done = self.input.transfer_blocking(self.buffer(len), SECOND);
        match done.status {
            Ok(()) => {}
            Err(TransferError::Stall) => self.input.clear_halt().wait()?,
            Err(error) => return Err(error.into()),
        }
        Ok(done.buffer[..done.actual_len].to_vec())
    }

    /// The status of a command, asked for twice where the first stalls (section 6.7.2); `None`
    /// where it is not valid (section 6.3.1).
    fn status(&mut self) -> Result<Option<Status>, StorageError> {
        let mut done = self.input.transfer_blocking(self.buffer(STATUS_LENGTH), SECOND);
        if done.status == Err(TransferError::Stall) {
            self.input.clear_halt().wait()?;
            done = self.input.transfer_blocking(self.buffer(STATUS_LENGTH), SECOND);
        }
        let bytes = done.into_result()?;
        let is_valid = bytes.len() == STATUS_LENGTH
            && bytes[..4] == STATUS_SIGNATURE
            && bytes[4..8] == self.tag.to_le_bytes();
        let residue = bytes.get(8..12).and_then(|it| it.try_into().ok());
        Ok(residue
            .filter(|_| is_valid)
            .map(|residue| Status { status: bytes[12], residue: u32::from_le_bytes(residue) }))
    }

    /// The reset recovery (section 5.3.4): a class request, and both halts cleared.
    fn recover(&mut self) -> Result<(), StorageError> {
        let request = ControlOut {
            control_type: ControlType::Class,
            recipient: Recipient::Interface,
            request: RESET,
            value: 0,
            index: u16::from(self.interface.interface_number()),
            data: &[],
        };
        self.interface.control_out(request, SECOND).wait()?;
        self.input.clear_halt().wait()?;
        self.output.clear_halt().wait()?;
        Ok(())
    }
}
