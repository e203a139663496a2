use crate::endpoint::Open;
use crate::lines::Line;
use crate::sim::lock;
use crate::transfer::{BulkOrInterrupt, In};
use crate::Endpoint;
use std::fmt;
use std::io::{BufRead, Read, Result};
use std::marker::PhantomData;
use std::time::Duration;

/// A reader of an IN endpoint: its transfers as a stream of bytes, by std's `Read` and `BufRead`.
///
/// Where packets end is no matter, but to [`EndpointRead::until_short_packet`].
pub struct EndpointRead<EpType: BulkOrInterrupt> {
    open: Open,
    /// The bytes that were lent last.
    lent: Vec<u8>,
    kind: PhantomData<fn() -> EpType>,
}

impl<EpType: BulkOrInterrupt> EndpointRead<EpType> {
    /// A reader whose transfers ask for so many bytes, rounded up to whole packets.
    pub fn new(endpoint: Endpoint<EpType, In>, transfer_size: usize) -> Self {
        let line = lock(&endpoint.open.shared).reader(endpoint.open.line, transfer_size);
        let open = endpoint.open.renamed('r', line);
        EndpointRead { open, lent: Vec::new(), kind: PhantomData }
    }

    fn line(&self) -> Line {
        self.open.line
    }

    /// Sets how many transfers (at most 64) are to be pending. One fewer is handed in now.
    pub fn set_num_transfers(&mut self, num_transfers: usize) {
        lock(&self.open.shared).set_transfers('r', self.line(), num_transfers);
    }

    /// The same reader with so many transfers pending.
    pub fn with_num_transfers(mut self, num_transfers: usize) -> Self {
        self.set_num_transfers(num_transfers);
        self
    }

    /// Sets how long a read waits for a transfer. One that is not there in time stays pending.
    pub fn set_read_timeout(&mut self, timeout: Duration) {
        lock(&self.open.shared).set_timeout('r', self.line(), timeout);
    }

    /// The same reader with this timeout.
    pub fn with_read_timeout(mut self, timeout: Duration) -> Self {
        self.set_read_timeout(timeout);
        self
    }

    /// Cancels what is pending, and hands nothing in from now on.
    pub fn cancel_all(&mut self) {
        lock(&self.open.shared).cancel('r', self.line().name);
    }

    /// The endpoint, with what is pending. Bytes that stand in the reader are lost.
    pub fn into_inner(self) -> Endpoint<EpType, In> {
        let line = lock(&self.open.shared).end_stream('r', self.line());
        Endpoint::of(self.open.renamed('e', line))
    }

    /// The same reader, which stops at short packets.
    pub fn until_short_packet(&mut self) -> EndpointReadUntilShortPacket<'_, EpType> {
        EndpointReadUntilShortPacket { reader: self }
    }

    fn read_some(&mut self, buf: &mut [u8], short: &str) -> Result<usize> {
        if buf.is_empty() {
            return self.fill_some(short).map(|_| 0);
        }
        let bytes = lock(&self.open.shared).read(self.line(), buf.len(), short)?;
        buf[..bytes.len()].copy_from_slice(&bytes);
        Ok(bytes.len())
    }

    fn fill_some(&mut self, short: &str) -> Result<&[u8]> {
        self.lent = lock(&self.open.shared).fill(self.line(), short)?;
        Ok(&self.lent)
    }

    fn consume_some(&mut self, count: usize, short: &str) {
        if count > 0 {
            lock(&self.open.shared).consume(self.line(), count, short);
        }
    }
}

impl<EpType: BulkOrInterrupt> Read for EndpointRead<EpType> {
    fn read(&mut self, buf: &mut [u8]) -> Result<usize> {
        self.read_some(buf, "")
    }
}

impl<EpType: BulkOrInterrupt> BufRead for EndpointRead<EpType> {
    fn fill_buf(&mut self) -> Result<&[u8]> {
        self.fill_some("")
    }

    fn consume(&mut self, count: usize) {
        self.consume_some(count, "");
    }
}

/// A reader that stops at short packets, the ends of messages.
pub struct EndpointReadUntilShortPacket<'a, EpType: BulkOrInterrupt> {
    reader: &'a mut EndpointRead<EpType>,
}

/// No end of a message is next.
#[derive(Debug)]
pub struct ExpectedShortPacket;

impl fmt::Display for ExpectedShortPacket {
    fn fmt(&self, f: &mut fmt::Formatter<'_>) -> fmt::Result {
        write!(f, "expected short packet")
    }
}

impl std::error::Error for ExpectedShortPacket {}

impl<EpType: BulkOrInterrupt> EndpointReadUntilShortPacket<'_, EpType> {
    /// Whether an end is next: all bytes before it were read.
    pub fn is_end(&self) -> bool {
        lock(&self.reader.open.shared).is_end(self.reader.line())
    }

    /// Takes the end off that is next. Where none is, nothing changes.
    pub fn consume_end(&mut self) -> std::result::Result<(), ExpectedShortPacket> {
        let is_taken = lock(&self.reader.open.shared).consume_end(self.reader.line());
        is_taken.then_some(()).ok_or(ExpectedShortPacket)
    }
}

impl<EpType: BulkOrInterrupt> Read for EndpointReadUntilShortPacket<'_, EpType> {
    fn read(&mut self, buf: &mut [u8]) -> Result<usize> {
        self.reader.read_some(buf, "s")
    }
}

impl<EpType: BulkOrInterrupt> BufRead for EndpointReadUntilShortPacket<'_, EpType> {
    fn fill_buf(&mut self) -> Result<&[u8]> {
        self.reader.fill_some("s")
    }

    fn consume(&mut self, count: usize) {
        self.reader.consume_some(count, "s");
    }
}
