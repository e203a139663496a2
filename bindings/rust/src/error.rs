use crate::transfer::TransferError;
use std::fmt;
use std::io;
use std::num::NonZeroU32;

/// An error of a call other than a transfer: its kind, a text, and the number that the system gave.
#[derive(Debug, Clone)]
pub struct Error {
    pub(crate) kind: ErrorKind,
    pub(crate) code: Option<NonZeroU32>,
    pub(crate) message: String,
}

impl Error {
    /// The kind of the error.
    pub fn kind(&self) -> ErrorKind {
        self.kind
    }

    /// The system's number for the error (an errno), where it gave one.
    pub fn os_error(&self) -> Option<u32> {
        self.code.map(NonZeroU32::get)
    }
}

impl fmt::Display for Error {
    fn fmt(&self, f: &mut fmt::Formatter<'_>) -> fmt::Result {
        write!(f, "{}", self.message)?;
        match self.code {
            Some(code) => write!(f, " (errno {code})"),
            None => Ok(()),
        }
    }
}

impl std::error::Error for Error {}

impl From<Error> for io::Error {
    fn from(error: Error) -> io::Error {
        let kind = match error.kind {
            ErrorKind::Disconnected => io::ErrorKind::NotConnected,
            ErrorKind::PermissionDenied => io::ErrorKind::PermissionDenied,
            ErrorKind::NotFound => io::ErrorKind::NotFound,
            ErrorKind::Unsupported => io::ErrorKind::Unsupported,
            ErrorKind::Busy | ErrorKind::Other => io::ErrorKind::Other,
        };
        io::Error::new(kind, error)
    }
}

/// The kind of an [`Error`].
#[derive(Debug, Copy, Clone, PartialEq, Eq)]
#[non_exhaustive]
pub enum ErrorKind {
    /// The device is disconnected.
    Disconnected,
    /// A device, an interface or an endpoint is in use.
    Busy,
    /// The user may not do this.
    PermissionDenied,
    /// A configuration, an interface or an alternate setting was not found.
    NotFound,
    /// The platform or the driver does not support this. The simulated kernel never says so.
    Unsupported,
    /// Any other error.
    Other,
}

/// Why [`Device::active_configuration`][crate::Device::active_configuration] has no descriptor.
#[derive(Copy, Clone, Debug, PartialEq, Eq)]
pub struct ActiveConfigurationError {
    pub(crate) configuration_value: u8,
}

impl fmt::Display for ActiveConfigurationError {
    fn fmt(&self, f: &mut fmt::Formatter<'_>) -> fmt::Result {
        match self.configuration_value {
            0 => write!(f, "device is not configured"),
            value => write!(f, "no descriptor found for active configuration {value}"),
        }
    }
}

impl std::error::Error for ActiveConfigurationError {}

impl From<ActiveConfigurationError> for Error {
    fn from(error: ActiveConfigurationError) -> Error {
        let message = match error.configuration_value {
            0 => "device is not configured",
            _ => "no descriptor found for active configuration",
        };
        Error { kind: ErrorKind::Other, code: None, message: message.to_owned() }
    }
}

impl From<ActiveConfigurationError> for io::Error {
    fn from(error: ActiveConfigurationError) -> io::Error {
        io::Error::other(error)
    }
}

/// Why a descriptor could not be read from a device.
#[derive(Debug, Copy, Clone)]
pub enum GetDescriptorError {
    /// The control transfer failed.
    Transfer(TransferError),
    /// What the device sent is no such descriptor.
    InvalidDescriptor,
}

impl fmt::Display for GetDescriptorError {
    fn fmt(&self, f: &mut fmt::Formatter<'_>) -> fmt::Result {
        match self {
            GetDescriptorError::Transfer(error) => error.fmt(f),
            GetDescriptorError::InvalidDescriptor => write!(f, "invalid descriptor"),
        }
    }
}

impl std::error::Error for GetDescriptorError {}

impl From<GetDescriptorError> for io::Error {
    fn from(error: GetDescriptorError) -> io::Error {
        match error {
            GetDescriptorError::Transfer(error) => error.into(),
            GetDescriptorError::InvalidDescriptor => {
                io::Error::new(io::ErrorKind::InvalidData, "invalid descriptor")
            }
        }
    }
}
