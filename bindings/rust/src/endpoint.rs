use crate::io::{EndpointRead, EndpointWrite};
use crate::lines::Line;
use crate::maybe_future::Action;
use crate::sim::{lock, Shared};
use crate::told::Done;
use crate::transfer::{
    Buffer, BulkOrInterrupt, Completion, Direction, EndpointDirection, EndpointType, In, Out,
};
use crate::{Error, MaybeFuture};
use std::collections::VecDeque;
use std::fmt;
use std::future::{poll_fn, Future};
use std::marker::PhantomData;
use std::task::{Context, Poll};
use std::time::Duration;

/// An endpoint's line in the script. Where it is dropped the endpoint is closed.
pub(crate) struct Open {
    pub(crate) shared: Shared,
    pub(crate) letter: char,
    pub(crate) line: Line,
}

impl Open {
    /// The same endpoint under another name: what has the old name is not closed.
    pub(crate) fn renamed(self, letter: char, line: Line) -> Open {
        let mut open = self;
        (open.letter, open.line) = (letter, line);
        open
    }
}

impl Drop for Open {
    fn drop(&mut self) {
        lock(&self.shared).close_endpoint(self.letter, self.line);
    }
}

/// An open endpoint, to which transfers are handed in.
///
/// Where it is dropped its transfers are cancelled, and the endpoint is closed. At most 64 may be
/// pending: one more makes the test panic.
pub struct Endpoint<EpType, Dir> {
    pub(crate) open: Open,
    buffers: VecDeque<Buffer>,
    kind: PhantomData<fn() -> (EpType, Dir)>,
}

impl<EpType, Dir> Endpoint<EpType, Dir> {
    pub(crate) fn new(shared: Shared, line: Line) -> Self {
        Endpoint::of(Open { shared, letter: 'e', line })
    }

    pub(crate) fn of(open: Open) -> Self {
        Endpoint { open, buffers: VecDeque::new(), kind: PhantomData }
    }

    /// The end of the oldest transfer, in the memory that was handed in.
    fn completion(&mut self, done: Done) -> Completion {
        let memory = self.buffers.pop_front().unwrap_or_else(|| Buffer::new(done.requested));
        Completion {
            buffer: memory.filled(&done.bytes, done.requested),
            actual_len: done.count,
            status: done.status,
        }
    }
}

impl<EpType: EndpointType, Dir: EndpointDirection> Endpoint<EpType, Dir> {
    /// The endpoint's address.
    pub fn endpoint_address(&self) -> u8 {
        self.open.line.address
    }

    /// Its maximum packet size, in bytes.
    pub fn max_packet_size(&self) -> usize {
        self.open.line.max
    }

    /// How many transfers were handed in and not taken.
    pub fn pending(&self) -> usize {
        lock(&self.open.shared).pending(self.open.line)
    }

    /// Cancels all transfers that are unfinished. They stay pending until they are taken.
    pub fn cancel_all(&mut self) {
        lock(&self.open.shared).cancel('e', self.open.line.name);
    }
}

impl<EpType: BulkOrInterrupt> Endpoint<EpType, Out> {
    /// A writer whose transfers take so many bytes, rounded up to whole packets.
    pub fn writer(self, buffer_size: usize) -> EndpointWrite<EpType> {
        EndpointWrite::new(self, buffer_size)
    }
}

impl<EpType: BulkOrInterrupt> Endpoint<EpType, In> {
    /// A reader whose transfers ask for so many bytes, rounded up to whole packets.
    pub fn reader(self, buffer_size: usize) -> EndpointRead<EpType> {
        EndpointRead::new(self, buffer_size)
    }
}

impl<EpType: BulkOrInterrupt, Dir: EndpointDirection> Endpoint<EpType, Dir> {
    /// Memory for a transfer of so many bytes.
    pub fn allocate(&self, len: usize) -> Buffer {
        Buffer::new(len)
    }

    /// Hands in a transfer: of the buffer's bytes, or one that asks for its requested length. That
    /// has to be a multiple of the maximum packet size, or the transfer is invalid.
    pub fn submit(&mut self, buf: Buffer) {
        let mut session = lock(&self.open.shared);
        match Dir::DIR {
            Direction::In => session.submit_in(self.open.line, buf.requested_len()),
            Direction::Out => session.submit_out(self.open.line, &buf),
        }
        drop(session);
        self.buffers.push_back(buf);
    }

    /// The end of the oldest transfer, once it is there.
    pub fn next_complete(&mut self) -> impl Future<Output = Completion> + Send + Sync + '_ {
        poll_fn(|cx| self.poll_next_complete(cx))
    }

    /// The end of the oldest transfer, if it is there. Something has to be pending. Who waits is
    /// woken at once, since only a further poll lets the devices go on.
    pub fn poll_next_complete(&mut self, cx: &mut Context<'_>) -> Poll<Completion> {
        let done = lock(&self.open.shared).poll(self.open.line);
        match done {
            Some(done) => Poll::Ready(self.completion(done)),
            None => {
                cx.waker().wake_by_ref();
                Poll::Pending
            }
        }
    }

    /// Waits for the end of the oldest transfer. Something has to be pending. Where the devices have
    /// nothing more to say now, the wait is over at once.
    pub fn wait_next_complete(&mut self, timeout: Duration) -> Option<Completion> {
        let done = lock(&self.open.shared).wait_done(self.open.line, timeout);
        done.map(|done| self.completion(done))
    }

    /// Hands in a transfer and waits for its end. Where the time is up it is cancelled. Nothing may
    /// be pending.
    pub fn transfer_blocking(&mut self, buf: Buffer, timeout: Duration) -> Completion {
        let mut session = lock(&self.open.shared);
        let line = self.open.line;
        let done = match Dir::DIR {
            Direction::In => session.transfer_in(line, buf.requested_len(), timeout),
            Direction::Out => session.transfer_out(line, &buf, timeout),
        };
        drop(session);
        self.buffers.push_back(buf);
        self.completion(done)
    }

    /// Clears the endpoint's halt. The simulated kernel keeps no halts: only a refusal can be seen.
    pub fn clear_halt(&mut self) -> impl MaybeFuture<Output = Result<(), Error>> {
        let (shared, line) = (self.open.shared.clone(), self.open.line);
        Action(move || lock(&shared).clear_halt(line))
    }
}

impl<EpType: BulkOrInterrupt, Dir: EndpointDirection> fmt::Debug for Endpoint<EpType, Dir> {
    fn fmt(&self, f: &mut fmt::Formatter<'_>) -> fmt::Result {
        f.debug_struct("Endpoint")
            .field("address", &format_args!("0x{:02x}", self.endpoint_address()))
            .field("type", &EpType::TYPE)
            .field("direction", &Dir::DIR)
            .finish()
    }
}
