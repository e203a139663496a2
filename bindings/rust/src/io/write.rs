use crate::endpoint::Open;
use crate::lines::Line;
use crate::sim::lock;
use crate::transfer::{BulkOrInterrupt, Out};
use crate::Endpoint;
use std::io::{Result, Write};
use std::marker::PhantomData;
use std::time::Duration;

/// A writer of an OUT endpoint: a stream of bytes as its transfers, by std's `Write`.
pub struct EndpointWrite<EpType: BulkOrInterrupt> {
    open: Open,
    kind: PhantomData<fn() -> EpType>,
}

impl<EpType: BulkOrInterrupt> EndpointWrite<EpType> {
    /// A writer whose transfers take so many bytes, rounded up to whole packets.
    pub fn new(endpoint: Endpoint<EpType, Out>, transfer_size: usize) -> Self {
        let line = lock(&endpoint.open.shared).writer(endpoint.open.line, transfer_size);
        EndpointWrite { open: endpoint.open.renamed('w', line), kind: PhantomData }
    }

    fn line(&self) -> Line {
        self.open.line
    }

    /// Sets how many transfers (1 to 64) may be pending before a write waits.
    pub fn set_num_transfers(&mut self, num_transfers: usize) {
        assert!(num_transfers > 0, "num_transfers must be greater than zero");
        lock(&self.open.shared).set_transfers('w', self.line(), num_transfers);
    }

    /// The same writer with so many transfers.
    pub fn with_num_transfers(mut self, num_transfers: usize) -> Self {
        self.set_num_transfers(num_transfers);
        self
    }

    /// Sets how long a write or a flush waits for a transfer.
    pub fn set_write_timeout(&mut self, timeout: Duration) {
        lock(&self.open.shared).set_timeout('w', self.line(), timeout);
    }

    /// The same writer with this timeout.
    pub fn with_write_timeout(mut self, timeout: Duration) -> Self {
        self.set_write_timeout(timeout);
        self
    }

    /// The endpoint, with what is pending. Bytes that were not handed in are lost.
    pub fn into_inner(self) -> Endpoint<EpType, Out> {
        let line = lock(&self.open.shared).end_stream('w', self.line());
        Endpoint::of(self.open.renamed('e', line))
    }

    /// Hands in the bytes that stand, if any do.
    pub fn submit(&mut self) {
        lock(&self.open.shared).submit_written(self.line());
    }

    /// Ends a message: hands in the bytes that stand, so that a short packet ends them.
    pub fn submit_end(&mut self) {
        lock(&self.open.shared).end_written(self.line());
    }

    /// Ends a message, and waits for all that is pending.
    pub fn flush_end(&mut self) -> Result<()> {
        self.submit_end();
        lock(&self.open.shared).flush(self.line())
    }

    /// Ends a message, and waits for all that is pending.
    pub async fn flush_end_async(&mut self) -> Result<()> {
        self.flush_end()
    }
}

impl<EpType: BulkOrInterrupt> Write for EndpointWrite<EpType> {
    fn write(&mut self, src: &[u8]) -> Result<usize> {
        lock(&self.open.shared).write(self.line(), src)
    }

    fn flush(&mut self) -> Result<()> {
        self.submit();
        lock(&self.open.shared).flush(self.line())
    }
}
