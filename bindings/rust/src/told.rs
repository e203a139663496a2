//! How answers are read.

use crate::transfer::TransferError;
use crate::words::{bytes_of, number};
use crate::{Error, ErrorKind, GetDescriptorError};
use std::io;
use std::num::NonZeroU32;

/// What a `done` line tells: whether the transfer succeeded, how many bytes went over, how many were
/// asked for, and the bytes.
pub(crate) struct Done {
    pub(crate) status: Result<(), TransferError>,
    pub(crate) count: usize,
    pub(crate) requested: usize,
    pub(crate) bytes: Vec<u8>,
}

pub(crate) fn unexpected(answer: &str) -> ! {
    panic!("the session answered {answer:?}, which is no answer of this call")
}

/// The number behind ` (errno ` at the end of a text, and the text before it.
fn errno_of(text: &str) -> (&str, Option<NonZeroU32>) {
    match text.strip_suffix(')').and_then(|text| text.rsplit_once(" (errno ")) {
        Some((text, errno)) => (text, errno.parse().ok()),
        None => (text, None),
    }
}

/// `ok`, or `error KIND TEXT`.
pub(crate) fn done_or_error(answer: &str) -> Result<(), Error> {
    if answer == "ok" {
        return Ok(());
    }
    let Some((kind, text)) = answer.strip_prefix("error ").and_then(|it| it.split_once(' ')) else {
        unexpected(answer)
    };
    let kind = match kind {
        "Disconnected" => ErrorKind::Disconnected,
        "Busy" => ErrorKind::Busy,
        "PermissionDenied" => ErrorKind::PermissionDenied,
        "NotFound" => ErrorKind::NotFound,
        _ => ErrorKind::Other,
    };
    let (message, code) = errno_of(text);
    Err(Error { kind, code, message: message.to_owned() })
}

/// The words of STATUS.
fn status_of(word: &str) -> Result<(), TransferError> {
    Err(match word {
        "ok" => return Ok(()),
        "cancelled" => TransferError::Cancelled,
        "stall" => TransferError::Stall,
        "disconnected" => TransferError::Disconnected,
        "fault" => TransferError::Fault,
        "invalid" => TransferError::InvalidArgument,
        _ => match word.strip_prefix("unknown:") {
            Some(errno) => TransferError::Unknown(number(errno)),
            None => unexpected(word),
        },
    })
}

/// `done STATUS COUNT REQUESTED HEX`, or the other word of a look at a transfer.
pub(crate) fn done_of(answer: &str) -> Option<Done> {
    let words: Vec<&str> = answer.split(' ').collect();
    match words[..] {
        ["done", status, count, requested, bytes] => Some(Done {
            status: status_of(status),
            count: number(count),
            requested: number(requested),
            bytes: bytes_of(bytes),
        }),
        ["none" | "pending"] => None,
        _ => unexpected(answer),
    }
}

/// `data HEX`, `ok` or `failed STATUS`.
pub(crate) fn data_of(answer: &str) -> Result<Vec<u8>, TransferError> {
    match answer.split_once(' ') {
        Some(("data", bytes)) => Ok(bytes_of(bytes)),
        Some(("failed", status)) => status_of(status).map(|()| Vec::new()),
        None if answer == "ok" => Ok(Vec::new()),
        _ => unexpected(answer),
    }
}

/// The error of `failed invalid-descriptor` or `failed STATUS`.
pub(crate) fn descriptor_error(answer: &str) -> GetDescriptorError {
    match answer {
        "failed invalid-descriptor" => GetDescriptorError::InvalidDescriptor,
        _ => match data_of(answer) {
            Err(error) => GetDescriptorError::Transfer(error),
            Ok(_) => unexpected(answer),
        },
    }
}

/// The error of `io KIND TEXT`. That of a transfer has the transfer's error within.
pub(crate) fn io_error(answer: &str) -> io::Error {
    let Some((kind, text)) = answer.strip_prefix("io ").and_then(|it| it.split_once(' ')) else {
        unexpected(answer)
    };
    let known = [
        TransferError::Cancelled,
        TransferError::Stall,
        TransferError::Disconnected,
        TransferError::Fault,
        TransferError::InvalidArgument,
    ];
    let transfer = known.into_iter().find(|error| error.to_string() == text);
    let unknown = match errno_of(text) {
        ("unknown", Some(errno)) => Some(TransferError::Unknown(errno.get())),
        _ => None,
    };
    match (kind, transfer.or(unknown)) {
        (_, Some(error)) => error.into(),
        ("TimedOut", None) => io::Error::new(io::ErrorKind::TimedOut, text.to_owned()),
        ("UnexpectedEof", None) => io::Error::new(io::ErrorKind::UnexpectedEof, text.to_owned()),
        _ => io::Error::other(text.to_owned()),
    }
}

/// `WORD N HEX`, or `io KIND TEXT`.
pub(crate) fn bytes_or_error(answer: &str, word: &str) -> io::Result<Vec<u8>> {
    match answer.strip_prefix(word).and_then(|rest| rest.split_once(' ')) {
        Some((_, bytes)) => Ok(bytes_of(bytes)),
        None => Err(io_error(answer)),
    }
}

/// Whether a wait for a transfer was in vain.
pub(crate) fn is_none(answer: &str) -> bool {
    answer == "none"
}

/// Whether a read, a write or a flush waited in vain.
pub(crate) fn is_timed_out(answer: &str) -> bool {
    answer.starts_with("io TimedOut ")
}
