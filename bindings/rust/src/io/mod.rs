//! Readers and writers: an endpoint's transfers as a stream of bytes.

mod read;
mod write;

pub use read::{EndpointRead, EndpointReadUntilShortPacket, ExpectedShortPacket};
pub use write::EndpointWrite;
