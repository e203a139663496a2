//! Readers: the transfers of an IN endpoint as a stream of bytes.

use crate::errno;
use crate::host::{Completion, Data, EndpointKey, Host, Steps};
use crate::kernel::Outcome;
use crate::refusal::Refusal;
use crate::text::{Show, Text};

/// A reader of an endpoint.
pub struct Reader {
    pub endpoint: EndpointKey,
    /// How many transfers are to be pending.
    depth: usize,
    /// How many bytes a transfer wants.
    size: usize,
    /// How long a read waits, in nanoseconds.
    pub time: u64,
    /// The bytes of the last taken transfer, and how many of them were read.
    bytes: Vec<u8>,
    read: usize,
    /// Whether an end stands.
    ended: bool,
    error: Option<Outcome>,
}

/// Whether a call goes over the ends of messages.
#[derive(Clone, Copy, PartialEq, Eq)]
pub enum Framing {
    Plain,
    UntilShort,
}

/// Why a read gave no bytes.
#[derive(Clone, Copy)]
pub enum ReadFailure {
    Transfer(Outcome),
    TimedOut,
    UnexpectedEof,
}

/// Shows the kind of a failed transfer, and what it says.
pub fn show_failed(outcome: Outcome, text: &mut Text) {
    let (kind, words) = transfer_words(outcome);
    text.word(kind).word(" ").word(words);
    if let ("", Outcome::Failed(errno) | Outcome::Refused(errno)) = (words, outcome) {
        text.word("unknown (errno ").number(errno.into()).word(")");
    }
}

/// The kind of a failed transfer, and what is printed of it.
fn transfer_words(outcome: Outcome) -> (&'static str, &'static str) {
    use errno::*;
    match outcome {
        Outcome::Failed(NOENT | CONNRESET | TIMEDOUT) => ("Interrupted", "transfer was cancelled"),
        Outcome::Complete => ("Other", ""),
        Outcome::Failed(errno) | Outcome::Refused(errno) => match errno {
            PIPE => ("ConnectionReset", "endpoint stalled"),
            NODEV | SHUTDOWN => ("ConnectionAborted", "device disconnected"),
            TIME | COMM | PROTO | OVERFLOW | ILSEQ => {
                ("Other", "hardware fault or protocol violation")
            }
            INVAL => ("InvalidInput", "invalid or unsupported argument"),
            _ => ("Other", ""),
        },
    }
}

impl Show for ReadFailure {
    fn show(&self, text: &mut Text) {
        match *self {
            ReadFailure::Transfer(outcome) => show_failed(outcome, text),
            ReadFailure::TimedOut => {
                text.word("TimedOut timeout waiting for read");
            }
            ReadFailure::UnexpectedEof => {
                text.word("UnexpectedEof ended without short packet");
            }
        }
    }
}

impl Reader {
    pub fn new(endpoint: EndpointKey, maximum: usize, size: usize) -> Reader {
        Reader {
            endpoint,
            depth: 1,
            size: size.max(1).next_multiple_of(maximum),
            time: u64::MAX,
            bytes: Vec::new(),
            read: 0,
            ended: false,
            error: None,
        }
    }

    /// The bytes that stand.
    fn unread(&self) -> &[u8] {
        &self.bytes[self.read..]
    }

    pub fn available(&self) -> usize {
        self.unread().len()
    }

    pub fn consume(&mut self, count: usize) {
        self.read += count.min(self.available());
    }

    pub fn is_end(&self) -> bool {
        self.available() == 0 && self.ended
    }

    /// Takes the end off, where it is next.
    pub fn consume_end(&mut self) -> Option<()> {
        self.is_end().then(|| self.ended = false)
    }

    /// Whether a call has nothing to tell yet.
    fn turns(&self, framing: Framing) -> bool {
        let stops = framing == Framing::UntilShort && self.ended;
        self.available() == 0 && self.error.is_none() && !stops
    }

    fn put(&mut self, completion: Completion) {
        let is_complete = matches!(completion.outcome, Outcome::Complete);
        let is_cancelled = matches!(
            completion.outcome,
            Outcome::Failed(errno::NOENT | errno::CONNRESET | errno::TIMEDOUT)
        );
        self.ended = is_complete && completion.bytes.len() < completion.requested;
        if !is_complete && !is_cancelled {
            self.error = Some(completion.outcome);
        }
        self.bytes = completion.bytes;
        self.read = 0;
    }
}

impl Host {
    /// Whether so many transfers may be handed in at an endpoint.
    pub fn has_room_for(&self, endpoint: EndpointKey, need: usize) -> bool {
        self.pending(endpoint) + need <= 64 && self.kernel.unreaped + need <= 1024
    }

    /// Whether what a reading call may hand in has room.
    pub fn may_read(&self, reader: &Reader, framing: Framing) -> bool {
        let missing = reader.depth.saturating_sub(self.pending(reader.endpoint));
        self.has_room_for(
            reader.endpoint,
            if reader.turns(framing) { missing } else { 0 },
        )
    }

    fn submit_missing(&mut self, reader: &Reader, depth: usize) {
        for _ in self.pending(reader.endpoint)..depth {
            self.hand_in(reader.endpoint, Data::In(reader.size), reader.size, None);
        }
    }

    /// Sets how many transfers are to be pending, or gives none where that is barred.
    pub fn set_depth(&mut self, reader: &mut Reader, depth: usize) -> Option<()> {
        let goal = depth.saturating_sub(1);
        let missing = goal.saturating_sub(self.pending(reader.endpoint));
        if depth > 64 || !self.has_room_for(reader.endpoint, missing) {
            return None;
        }
        reader.depth = depth;
        self.submit_missing(reader, goal);
        Some(())
    }

    pub fn cancel_reader(&mut self, reader: &mut Reader) {
        reader.depth = 0;
        self.cancel(reader.endpoint);
    }

    /// Clears the halt of a reader's endpoint, and the error that the reader kept.
    pub fn clear_reader_halt(&mut self, reader: &mut Reader) -> Result<(), Refusal> {
        self.clear_halt(reader.endpoint)?;
        reader.error = None;
        Ok(())
    }

    /// The bytes that stand, once the reader has turned until there is something to tell.
    pub fn fill<'r>(
        &mut self,
        reader: &'r mut Reader,
        framing: Framing,
        time: u64,
        steps: &mut Steps,
    ) -> Result<&'r [u8], ReadFailure> {
        while reader.turns(framing) {
            if self.pending(reader.endpoint) < reader.depth {
                self.submit_missing(reader, reader.depth);
                reader.ended = false;
            }
            if self.pending(reader.endpoint) == 0 {
                return match framing {
                    Framing::Plain => Ok(&[]),
                    Framing::UntilShort => Err(ReadFailure::UnexpectedEof),
                };
            }
            let completion = self.wait(reader.endpoint, time, steps);
            reader.put(completion.ok_or(ReadFailure::TimedOut)?);
        }
        match reader.error {
            Some(outcome) if reader.available() == 0 => Err(ReadFailure::Transfer(outcome)),
            _ => Ok(reader.unread()),
        }
    }
}
