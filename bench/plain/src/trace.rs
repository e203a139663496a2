//! Traces: the form of their lines, and whether one is the trace of a journal in which each event
//! acts.

use crate::errno::{self, Errno};
use crate::fault::Fault;
use crate::kernel::Outcome;
use crate::text::{Show, Text};
use std::collections::{HashMap, VecDeque};

const MOST_BYTES: u64 = 65_536;
/// 65,536 rounded up to a multiple of a maximum packet size, which is at most 2047.
const MOST_BODY: u64 = 67_582;
const MOST_ERRNO: u64 = 4095;

/// The words of statuses, but for that of an unknown error, and of a ticket that isn't reaped.
const STATUSES: [&[u8]; 7] = [
    b"open",
    b"ok",
    b"cancelled",
    b"stall",
    b"disconnected",
    b"fault",
    b"invalid",
];

/// A transfer as its line tells it.
struct Submission {
    ticket: u64,
    device: u8,
    endpoint: u8,
    maximum: u64,
    /// The length that is wanted, or that of the bytes.
    length: u64,
}

enum Event {
    Submit(Submission),
    Refuse(Submission, Errno),
    Packet { at: (u8, u8), length: u64 },
    Acknowledge { at: (u8, u8) },
    Echo { device: u8, output: u8, input: u8 },
    Fail { at: (u8, u8), errno: Errno },
    Discard(u64),
    Reap(u64),
    Unplug(u8),
}

struct Fate<'a> {
    ticket: u64,
    status: &'a [u8],
    count: u64,
}

enum Line<'a> {
    First,
    Event(Event),
    Fate(Fate<'a>),
    Last,
}

/// A number without leading zeros.
fn number(word: &[u8], most: u64) -> Option<u64> {
    if word.len() > 1 && word[0] == b'0' || !word.iter().all(u8::is_ascii_digit) {
        return None;
    }
    let number = str::from_utf8(word).ok()?.parse().ok()?;
    (number <= most).then_some(number)
}

fn ticket(word: &[u8]) -> Option<u64> {
    number(word, u64::MAX)
}

fn device(word: &[u8]) -> Option<u8> {
    number(word, 255).map(|device| device as u8)
}

fn errno(word: &[u8]) -> Option<Errno> {
    number(word, MOST_ERRNO)
        .filter(|errno| *errno > 0)
        .map(|errno| errno as Errno)
}

fn is_digit(byte: &u8) -> bool {
    byte.is_ascii_digit() || (b'a'..=b'f').contains(byte)
}

fn endpoint(word: &[u8]) -> Option<u8> {
    if word.len() != 2 || !word.iter().all(is_digit) {
        return None;
    }
    u8::from_str_radix(str::from_utf8(word).ok()?, 16).ok()
}

/// How many bytes are told, by two digits each, or by a dash where there are none.
fn length(word: &[u8], most: u64) -> Option<u64> {
    if word == b"-" {
        return Some(0);
    }
    let length = word.len() as u64 / 2;
    let is_bytes = length > 0 && word.len().is_multiple_of(2) && word.iter().all(is_digit);
    (is_bytes && length <= most).then_some(length)
}

fn submission(words: &[&[u8]]) -> Option<Submission> {
    let [number_of, device_of, address, maximum, direction, body] = words else {
        return None;
    };
    let endpoint = endpoint(address)?;
    let length = match *direction {
        b"in" if endpoint >= 0x80 => number(body, MOST_BODY)?,
        b"out" if endpoint < 0x80 => length(body, MOST_BODY)?,
        _ => return None,
    };
    Some(Submission {
        ticket: ticket(number_of)?,
        device: device(device_of)?,
        endpoint,
        maximum: number(maximum, MOST_BYTES)?,
        length,
    })
}

fn place(device_of: &[u8], address: &[u8]) -> Option<(u8, u8)> {
    Some((device(device_of)?, endpoint(address)?))
}

fn event(words: &[&[u8]]) -> Option<Event> {
    Some(match words {
        [b"submit", fields @ .., deadline] => {
            if *deadline != b"-" {
                number(deadline, u64::MAX)?;
            }
            Event::Submit(submission(fields)?)
        }
        [b"refuse", fields @ .., code] => Event::Refuse(submission(fields)?, errno(code)?),
        [b"pkt", of, address, bytes] => Event::Packet {
            at: place(of, address)?,
            length: length(bytes, MOST_BYTES)?,
        },
        [b"ack", of, address] => Event::Acknowledge {
            at: place(of, address)?,
        },
        [b"echo", of, output, input] => Event::Echo {
            device: device(of)?,
            output: endpoint(output)?,
            input: endpoint(input)?,
        },
        [b"fail", of, address, code] => Event::Fail {
            at: place(of, address)?,
            errno: errno(code)?,
        },
        [b"discard", number_of] => Event::Discard(ticket(number_of)?),
        [b"reap", number_of] => Event::Reap(ticket(number_of)?),
        [b"unplug", of] => Event::Unplug(device(of)?),
        _ => return None,
    })
}

fn is_status(word: &[u8]) -> bool {
    let code = word.strip_prefix(b"unknown:");
    STATUSES.contains(&word) || code.and_then(errno).is_some()
}

fn line(text: &[u8]) -> Option<Line<'_>> {
    let words: Vec<&[u8]> = text.split(|byte| *byte == b' ').collect();
    match words.as_slice() {
        [b"nusb-trace", b"1"] => Some(Line::First),
        [b"end"] => Some(Line::Last),
        [b"fate", number_of, status, count] if is_status(status) => Some(Line::Fate(Fate {
            ticket: ticket(number_of)?,
            status,
            count: number(count, MOST_BODY)?,
        })),
        words => event(words).map(Line::Event),
    }
}

/// The events and the fates of a text, or the first line outside the form.
fn parse(text: &[u8]) -> Result<(Vec<Event>, Vec<Fate<'_>>), Fault> {
    let (mut events, mut fates) = (Vec::new(), Vec::new());
    let (mut has_begun, mut has_ended) = (false, false);
    let mut at = 0;
    for piece in text.split_inclusive(|byte| *byte == b'\n') {
        at += 1;
        let told = piece.strip_suffix(b"\n").and_then(line);
        match told.ok_or(Fault::Malformed(at))? {
            Line::First if at == 1 => has_begun = true,
            _ if !has_begun || has_ended => return Err(Fault::Malformed(at)),
            Line::Event(event) if fates.is_empty() => events.push(event),
            Line::Fate(fate) => fates.push(fate),
            Line::Last => has_ended = true,
            _ => return Err(Fault::Malformed(at)),
        }
    }
    if !has_ended {
        return Err(Fault::Malformed(at + 1));
    }
    Ok((events, fates))
}

/// A transfer that was handed in.
struct Ticket {
    maximum: u64,
    length: u64,
    count: u64,
    outcome: Option<Outcome>,
    is_reaped: bool,
}

/// What the events so far leave.
struct Journal {
    tickets: Vec<Ticket>,
    /// By device and endpoint the tickets that may be unfinished, the oldest in front.
    open: HashMap<(u8, u8), VecDeque<usize>>,
    is_gone: [bool; 256],
}

impl Journal {
    /// Adds the ticket of a submission.
    fn submit(&mut self, told: &Submission, outcome: Option<Outcome>) -> Option<()> {
        if told.ticket != self.tickets.len() as u64 {
            return None;
        }
        self.tickets.push(Ticket {
            maximum: told.maximum,
            length: told.length,
            count: 0,
            is_reaped: outcome.is_some(),
            outcome,
        });
        Some(())
    }

    fn accept(&mut self, told: &Submission) -> Option<()> {
        let is_whole = told.length == told.maximum
            || told.length > 0 && told.maximum > 0 && told.length.is_multiple_of(told.maximum);
        if self.is_gone[usize::from(told.device)] || told.endpoint >= 0x80 && !is_whole {
            return None;
        }
        self.submit(told, None)?;
        let open = self.open.entry((told.device, told.endpoint)).or_default();
        open.push_back(self.tickets.len() - 1);
        Some(())
    }

    /// The oldest unfinished ticket of an endpoint.
    fn oldest(&mut self, at: (u8, u8)) -> Option<usize> {
        let open = self.open.get_mut(&at)?;
        while let Some(&ticket) = open.front() {
            if self.tickets[ticket].outcome.is_none() {
                return Some(ticket);
            }
            open.pop_front();
        }
        None
    }

    fn packet(&mut self, number: usize, length: u64) {
        let ticket = &mut self.tickets[number];
        if length > ticket.maximum {
            ticket.outcome = Some(Outcome::Failed(errno::OVERFLOW));
            return;
        }
        ticket.count += length;
        if length < ticket.maximum || ticket.count >= ticket.length {
            ticket.outcome = Some(Outcome::Complete);
        }
    }

    /// Gives the length of the packet that is taken.
    fn acknowledge(&mut self, number: usize) -> u64 {
        let ticket = &mut self.tickets[number];
        let taken = ticket.maximum.min(ticket.length - ticket.count);
        ticket.count += taken;
        if ticket.count == ticket.length {
            ticket.outcome = Some(Outcome::Complete);
        }
        taken
    }

    /// A ticket of this number.
    fn ticket(&mut self, number: u64) -> Option<&mut Ticket> {
        self.tickets.get_mut(usize::try_from(number).ok()?)
    }

    fn unplug(&mut self, device: u8) -> Option<()> {
        let is_gone = &mut self.is_gone[usize::from(device)];
        if std::mem::replace(is_gone, true) {
            return None;
        }
        for address in 0..=255 {
            for number in self.open.remove(&(device, address)).unwrap_or_default() {
                let outcome = &mut self.tickets[number].outcome;
                outcome.get_or_insert(Outcome::Failed(errno::SHUTDOWN));
            }
        }
        Some(())
    }

    /// Takes the next event, where it acts.
    fn take(&mut self, event: Event) -> Option<()> {
        match event {
            Event::Submit(told) => self.accept(&told)?,
            Event::Refuse(told, errno) => self.submit(&told, Some(Outcome::Refused(errno)))?,
            Event::Packet { at, length } if at.1 >= 0x80 => {
                let number = self.oldest(at)?;
                self.packet(number, length);
            }
            Event::Acknowledge { at } if at.1 < 0x80 => {
                let number = self.oldest(at)?;
                self.acknowledge(number);
            }
            Event::Echo {
                device,
                output,
                input,
            } if output < 0x80 && input >= 0x80 => {
                let sender = self.oldest((device, output))?;
                let taker = self.oldest((device, input))?;
                let length = self.acknowledge(sender);
                self.packet(taker, length);
            }
            Event::Fail { at, errno } => {
                let number = self.oldest(at)?;
                self.tickets[number].outcome = Some(Outcome::Failed(errno));
            }
            Event::Discard(number) => {
                let ticket = self.ticket(number)?;
                if ticket.outcome.is_some() {
                    return None;
                }
                ticket.outcome = Some(Outcome::Failed(errno::NOENT));
            }
            Event::Reap(number) => {
                let ticket = self.ticket(number)?;
                if ticket.outcome.is_none() || ticket.is_reaped {
                    return None;
                }
                ticket.is_reaped = true;
            }
            Event::Unplug(device) => self.unplug(device)?,
            _ => return None,
        }
        Some(())
    }

    /// Whether this is the fate of the ticket of this number.
    fn is_fate(&self, number: usize, fate: &Fate) -> bool {
        let Some(ticket) = self.tickets.get(number) else {
            return false;
        };
        let mut status = Text::default();
        match ticket.outcome {
            Some(outcome) if ticket.is_reaped => outcome.show(&mut status),
            _ => {
                status.word("open");
            }
        }
        let is_same = fate.status == status.as_bytes() && fate.count == ticket.count;
        fate.ticket == number as u64 && is_same
    }
}

/// What is told of a text of the form of a trace.
pub enum Verdict {
    Yes,
    /// The first line that no trace can have there, counted from 1.
    No(usize),
}

impl Show for Verdict {
    fn show(&self, text: &mut Text) {
        match self {
            Verdict::Yes => text.word("yes"),
            Verdict::No(line) => text.word("no ").number(*line as u64),
        };
    }
}

/// Checks a text, whose first event stands in line 2.
pub fn check(text: &[u8]) -> Result<Verdict, Fault> {
    let (events, fates) = parse(text)?;
    let behind = events.len() + 2;
    let mut journal = Journal {
        tickets: Vec::new(),
        open: HashMap::new(),
        is_gone: [false; 256],
    };
    for (place, event) in events.into_iter().enumerate() {
        if journal.take(event).is_none() {
            return Ok(Verdict::No(place + 2));
        }
    }
    for (number, fate) in fates.iter().enumerate() {
        if !journal.is_fate(number, fate) {
            return Ok(Verdict::No(behind + number));
        }
    }
    if fates.len() < journal.tickets.len() {
        return Ok(Verdict::No(behind + fates.len()));
    }
    Ok(Verdict::Yes)
}
