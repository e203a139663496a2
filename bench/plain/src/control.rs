//! Control transfers, and what a device tells by them.

use crate::host::{Data, Fate, Host, Steps};
use crate::kernel::{Outcome, Ticket};
use crate::names::Name;

/// A request but for the direction and the length of its data.
#[derive(Clone, Copy)]
pub struct Setup {
    /// Bits 0 to 6 of `bmRequestType`: type and recipient.
    pub kind: u8,
    pub request: u8,
    pub value: u16,
    pub index: u16,
}

impl Setup {
    /// The eight bytes of the setup packet.
    pub fn packet(&self, data: &Data) -> [u8; 8] {
        let (direction, length) = match data {
            Data::In(length) => (0x80, *length),
            Data::Out(bytes) => (0, bytes.len()),
        };
        let [value, index, length] =
            [self.value, self.index, length as u16].map(|word| word.to_le_bytes());
        let kind = direction | self.kind;
        [
            kind,
            self.request,
            value[0],
            value[1],
            index[0],
            index[1],
            length[0],
            length[1],
        ]
    }
}

/// A control transfer on its way.
pub struct Future {
    ticket: Ticket,
    deadline: u64,
}

/// What came of a control transfer: the bytes that came in, none of an OUT transfer.
pub type Received = Result<Vec<u8>, Outcome>;

/// What is asked of a device, by the index of the string and the language where it has them.
pub enum Question {
    Descriptor { kind: u8, index: u8, language: u16 },
    Languages,
    Text { index: u8, language: u16 },
}

const GET_DESCRIPTOR: u8 = 6;
const STRING: u8 = 3;
const MOST_DESCRIPTOR_BYTES: usize = 4096;

impl Question {
    fn setup(&self) -> Setup {
        let (kind, index, language) = match *self {
            Question::Descriptor {
                kind,
                index,
                language,
            } => (kind, index, language),
            Question::Languages => (STRING, 0, 0),
            Question::Text { index, language } => (STRING, index, language),
        };
        Setup {
            kind: 0,
            request: GET_DESCRIPTOR,
            value: u16::from_be_bytes([kind, index]),
            index: language,
        }
    }
}

/// The units of a string descriptor, where the bytes are one.
pub fn units(bytes: &[u8]) -> Option<Vec<u16>> {
    let [length, STRING, units @ ..] = bytes else {
        return None;
    };
    let pairs = units.chunks_exact(2);
    (usize::from(*length) == bytes.len()).then(|| {
        pairs
            .map(|pair| u16::from_le_bytes([pair[0], pair[1]]))
            .collect()
    })
}

impl Host {
    /// Starts a control transfer, or gives none where the call is barred.
    pub fn start(&mut self, device: Name, setup: Setup, data: Data, time: u64) -> Option<Future> {
        if !self.has_free_ticket() {
            return None;
        }
        let deadline = self.kernel.deadline_after(time);
        let packet = setup.packet(&data);
        let bytes = match data {
            Data::In(_) => Vec::new(),
            Data::Out(bytes) => bytes,
        };
        let ticket = self.kernel.submit_control(device, packet, bytes, deadline);
        self.fates.push(Fate::Held);
        Some(Future { ticket, deadline })
    }

    /// What came of a control transfer, where it was reaped. The future is spent then.
    pub fn poll_future(&mut self, future: &Future) -> Option<Received> {
        let transfer = &mut self.kernel.transfers[future.ticket];
        let outcome = transfer.outcome.filter(|_| transfer.is_reaped)?;
        let bytes = std::mem::take(&mut transfer.bytes);
        let is_in = transfer.endpoint == 0x80;
        self.take_ticket(future.ticket);
        Some(match outcome {
            Outcome::Complete if is_in => Ok(bytes),
            Outcome::Complete => Ok(Vec::new()),
            _ => Err(outcome),
        })
    }

    /// Waits for a control transfer. Where nothing else happens its time goes by.
    pub fn wait_future(&mut self, future: Future, steps: &mut Steps) -> Received {
        loop {
            if let Some(received) = self.poll_future(&future) {
                return received;
            }
            if !self.turn(steps) {
                self.kernel.clock = self.kernel.clock.max(future.deadline);
                self.kernel.turn_timer();
            }
        }
    }

    /// Gives a control transfer up, which goes on.
    pub fn close_future(&mut self, future: Future) {
        self.give_up(future.ticket, None);
    }

    /// Makes a control transfer and waits for it, or gives none where the call is barred.
    pub fn control(
        &mut self,
        device: Name,
        setup: Setup,
        data: Data,
        time: u64,
        steps: &mut Steps,
    ) -> Option<Received> {
        let future = self.start(device, setup, data, time)?;
        Some(self.wait_future(future, steps))
    }

    /// Asks a device for a descriptor, or gives none where the call is barred.
    pub fn ask(
        &mut self,
        device: Name,
        question: &Question,
        time: u64,
        steps: &mut Steps,
    ) -> Option<Received> {
        let data = Data::In(MOST_DESCRIPTOR_BYTES);
        self.control(device, question.setup(), data, time, steps)
    }
}
