//! Writers: a stream of bytes as the transfers of an OUT endpoint.

use crate::host::{Data, EndpointKey, Host, Steps};
use crate::kernel::Outcome;
use crate::reader::show_failed;
use crate::text::{Show, Text};

/// A writer of an endpoint.
pub struct Writer {
    pub endpoint: EndpointKey,
    maximum: usize,
    /// How many transfers may be pending before a write waits.
    depth: usize,
    /// How many bytes a transfer takes.
    size: usize,
    /// How long a write waits, in nanoseconds.
    pub time: u64,
    /// The buffer that is being filled.
    buffer: Option<Vec<u8>>,
    /// Whether a poll has begun to end a message.
    ends: bool,
}

/// Why a write or a flush failed.
#[derive(Clone, Copy)]
pub enum WriteFailure {
    Transfer(Outcome),
    TimedOut,
}

impl Show for WriteFailure {
    fn show(&self, text: &mut Text) {
        match *self {
            WriteFailure::Transfer(outcome) => show_failed(outcome, text),
            WriteFailure::TimedOut => {
                text.word("TimedOut write timeout");
            }
        }
    }
}

impl Writer {
    pub fn new(endpoint: EndpointKey, maximum: usize, size: usize) -> Writer {
        Writer {
            endpoint,
            maximum,
            depth: 1,
            size: size.max(1).next_multiple_of(maximum),
            time: u64::MAX,
            buffer: None,
            ends: false,
        }
    }

    /// Sets how many transfers may be pending, or gives none where that is barred.
    pub fn set_depth(&mut self, depth: usize) -> Option<()> {
        (1..=64).contains(&depth).then(|| self.depth = depth)
    }

    /// How many transfers the end of a message takes.
    fn end_count(&self) -> usize {
        match &self.buffer {
            Some(bytes) if !bytes.is_empty() && bytes.len().is_multiple_of(self.maximum) => 2,
            _ => 1,
        }
    }
}

impl Host {
    pub fn may_write(&self, writer: &Writer) -> bool {
        let is_free = self.pending(writer.endpoint) < writer.depth;
        let need = usize::from(writer.buffer.is_some() || is_free);
        self.has_room_for(writer.endpoint, need)
    }

    pub fn may_flush(&self, writer: &Writer) -> bool {
        let need = usize::from(writer.buffer.as_ref().is_some_and(|it| !it.is_empty()));
        self.has_room_for(writer.endpoint, need)
    }

    pub fn may_end(&self, writer: &Writer) -> bool {
        self.has_room_for(writer.endpoint, writer.end_count())
    }

    pub fn may_poll_end(&self, writer: &Writer) -> bool {
        self.has_room_for(
            writer.endpoint,
            if writer.ends { 0 } else { writer.end_count() },
        )
    }

    /// Whether a message of so many bytes may be handed in, its end with it.
    pub fn may_send(&self, writer: &Writer, count: usize) -> bool {
        let need = 1 + usize::from(count.is_multiple_of(writer.maximum));
        self.has_room_for(writer.endpoint, need)
    }

    fn send(&mut self, writer: &Writer, bytes: Vec<u8>, room: usize) {
        self.hand_in(writer.endpoint, Data::Out(bytes), room, None);
    }

    /// Takes the oldest transfer, whose buffer is kept where it may be filled again.
    fn take_oldest(
        &mut self,
        writer: &mut Writer,
        time: u64,
        steps: &mut Steps,
    ) -> Result<(), WriteFailure> {
        let completion = self
            .wait(writer.endpoint, time, steps)
            .ok_or(WriteFailure::TimedOut)?;
        let is_free = self.pending(writer.endpoint) < writer.depth;
        if writer.buffer.is_none() && completion.room == writer.size && is_free {
            writer.buffer = Some(Vec::new());
        }
        match completion.outcome {
            Outcome::Complete => Ok(()),
            outcome => Err(WriteFailure::Transfer(outcome)),
        }
    }

    /// Accepts what fits, and hands a full buffer in.
    pub fn write(
        &mut self,
        writer: &mut Writer,
        bytes: &[u8],
        time: u64,
        steps: &mut Steps,
    ) -> Result<usize, WriteFailure> {
        writer.ends = false;
        while writer.buffer.is_none() && self.pending(writer.endpoint) >= writer.depth {
            self.take_oldest(writer, time, steps)?;
        }
        let mut buffer = writer.buffer.take().unwrap_or_default();
        let count = bytes.len().min(writer.size - buffer.len());
        buffer.extend_from_slice(&bytes[..count]);
        if buffer.len() == writer.size {
            self.send(writer, buffer, writer.size);
        } else {
            writer.buffer = Some(buffer);
        }
        Ok(count)
    }

    /// Hands in what stands, if anything does.
    pub fn send_buffer(&mut self, writer: &mut Writer) {
        writer.ends = false;
        if let Some(bytes) = writer.buffer.take_if(|bytes| !bytes.is_empty()) {
            self.send(writer, bytes, writer.size);
        }
    }

    /// Ends a message.
    pub fn send_end(&mut self, writer: &mut Writer) {
        writer.ends = false;
        let count = writer.end_count();
        match writer.buffer.take() {
            Some(bytes) => self.send(writer, bytes, writer.size),
            None => self.send(writer, Vec::new(), 0),
        }
        if count == 2 {
            self.send(writer, Vec::new(), 0);
        }
    }

    /// Takes all that is pending.
    pub fn drain(
        &mut self,
        writer: &mut Writer,
        time: u64,
        steps: &mut Steps,
    ) -> Result<(), WriteFailure> {
        while self.pending(writer.endpoint) > 0 {
            self.take_oldest(writer, time, steps)?;
        }
        Ok(())
    }

    /// Ends a message where no end has begun, and takes all that is back.
    pub fn poll_end(&mut self, writer: &mut Writer, steps: &mut Steps) -> Result<(), WriteFailure> {
        if !writer.ends {
            self.send_end(writer);
        }
        let drained = self.drain(writer, 0, steps);
        writer.ends = matches!(drained, Err(WriteFailure::TimedOut));
        drained
    }
}
