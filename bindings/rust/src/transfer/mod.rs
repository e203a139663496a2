//! Transfers: their buffers, requests, ends and errors.

mod buffer;
mod control;

pub use buffer::Buffer;
pub use control::{ControlIn, ControlOut, ControlType, Direction, Recipient};

use crate::descriptors::TransferType;
use std::fmt;
use std::io;

/// How a transfer failed.
#[derive(Debug, Copy, Clone, PartialEq, Eq)]
pub enum TransferError {
    /// It was cancelled, or its time was up.
    Cancelled,
    /// The endpoint stalled.
    Stall,
    /// The device is gone.
    Disconnected,
    /// The hardware or the protocol failed.
    Fault,
    /// An argument is invalid or not supported.
    InvalidArgument,
    /// Any other error, with the system's number.
    Unknown(u32),
}

impl fmt::Display for TransferError {
    fn fmt(&self, f: &mut fmt::Formatter<'_>) -> fmt::Result {
        match self {
            TransferError::Cancelled => write!(f, "transfer was cancelled"),
            TransferError::Stall => write!(f, "endpoint stalled"),
            TransferError::Disconnected => write!(f, "device disconnected"),
            TransferError::Fault => write!(f, "hardware fault or protocol violation"),
            TransferError::InvalidArgument => write!(f, "invalid or unsupported argument"),
            TransferError::Unknown(code) => write!(f, "unknown (errno {code})"),
        }
    }
}

impl std::error::Error for TransferError {}

impl From<TransferError> for io::Error {
    fn from(error: TransferError) -> io::Error {
        let kind = match error {
            TransferError::Cancelled => io::ErrorKind::Interrupted,
            TransferError::Stall => io::ErrorKind::ConnectionReset,
            TransferError::Disconnected => io::ErrorKind::ConnectionAborted,
            TransferError::InvalidArgument => io::ErrorKind::InvalidInput,
            TransferError::Fault | TransferError::Unknown(_) => io::ErrorKind::Other,
        };
        io::Error::new(kind, error)
    }
}

mod private {
    pub trait Sealed {}
}

/// The direction of an endpoint, as a type.
pub trait EndpointDirection: private::Sealed + Send + Sync {
    /// The same direction as a value.
    const DIR: Direction;
}

/// From the device to the host.
pub enum In {}
impl private::Sealed for In {}
impl EndpointDirection for In {
    const DIR: Direction = Direction::In;
}

/// From the host to the device.
pub enum Out {}
impl private::Sealed for Out {}
impl EndpointDirection for Out {
    const DIR: Direction = Direction::Out;
}

/// The transfer type of an endpoint, as a type.
pub trait EndpointType: private::Sealed + Send + Sync + Unpin {
    /// The same type as a value.
    const TYPE: TransferType;
}

/// The types of endpoints that can be opened.
pub trait BulkOrInterrupt: EndpointType {}

/// A bulk endpoint.
pub enum Bulk {}
impl private::Sealed for Bulk {}
impl EndpointType for Bulk {
    const TYPE: TransferType = TransferType::Bulk;
}
impl BulkOrInterrupt for Bulk {}

/// An interrupt endpoint.
pub enum Interrupt {}
impl private::Sealed for Interrupt {}
impl EndpointType for Interrupt {
    const TYPE: TransferType = TransferType::Interrupt;
}
impl BulkOrInterrupt for Interrupt {}

/// A transfer that has ended. Bytes may have gone over also where it failed.
#[derive(Debug)]
pub struct Completion {
    /// The buffer: the bytes that came, or those that were handed in.
    pub buffer: Buffer,
    /// How many bytes came, or were acknowledged.
    pub actual_len: usize,
    /// Whether it succeeded, or how it failed.
    pub status: Result<(), TransferError>,
}

impl Completion {
    /// The buffer where the transfer succeeded, else its error.
    pub fn into_result(self) -> Result<Buffer, TransferError> {
        self.status.map(|()| self.buffer)
    }
}
