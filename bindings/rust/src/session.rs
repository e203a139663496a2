//! A script that grows with each call, and what its answers tell.
//!
//! The whole script is answered anew for each answer that is needed. That is enough, since the
//! answers of the beginning of a script are the beginning of its answers. That is a law of what the
//! library answers (`beginnings_are_answered_alike`, crates/usb_session_beginnings).
//!
//! Which transfers are unfinished is asked of the session too. Behind the script it is asked what
//! would be if each transfer that is unfinished failed with an errno that nothing else has. Those
//! that fail with it are the unfinished ones. These steps are not kept.

use crate::answers::Answers;
use crate::sim::{InReply, OutReply, Plugged};
use crate::transfer::{ControlIn, ControlOut};
use crate::words::{hex, number, Names};
use std::collections::{BTreeMap, BTreeSet, VecDeque};
use std::fmt::Write;

/// The errno by which unfinished transfers are told. Devices and refusals have no such errno.
pub(crate) const PROBE: u16 = 4095;

/// The most transfers that may be pending at an endpoint.
const MOST_PENDING: usize = 64;

/// The most bytes of a script.
const MOST_SCRIPT: usize = 1 << 20;

/// A device, by the number of its name, and the address of one of its endpoints.
pub(crate) type Place = (usize, u8);

/// What a transfer asks of its device.
#[derive(Clone)]
pub(crate) enum Work {
    In { len: usize, max: usize },
    Out { bytes: Vec<u8>, max: usize },
    ControlIn(ControlIn),
    ControlOut { head: ControlOut<'static>, bytes: Vec<u8> },
}

/// A transfer that was handed in.
#[derive(Clone)]
pub(crate) struct Ticket {
    pub(crate) place: Place,
    pub(crate) work: Work,
}

/// Who hands in transfers at an endpoint by itself.
pub(crate) enum Stream {
    /// A reader, by the length of its transfers.
    Reader { len: usize, max: usize },
    /// A writer: the length of its transfers, the bytes that stand in it, and the transfers that it
    /// has handed in and that have no ticket yet.
    Writer { len: usize, max: usize, standing: Vec<u8>, handed_in: VecDeque<Vec<u8>> },
}

/// A ticket that is unfinished, and how many of its bytes have gone over.
#[derive(Clone, Copy)]
struct Open {
    ticket: usize,
    count: usize,
}

/// What a script would be answered.
#[derive(Default)]
struct Look {
    /// The answer of the line behind the script, where that is a call.
    answer: String,
    /// How many tickets were known.
    known: usize,
    /// Where in the output the answers end that will not change.
    behind: usize,
    /// The places of the tickets that the line hands in.
    handed_in: Vec<Place>,
    open: Vec<Open>,
    /// The tickets that nobody has taken.
    untaken: BTreeSet<usize>,
}

/// What the devices do in one turn.
#[derive(Default)]
struct Turn {
    steps: Vec<String>,
    /// How many bytes of a ticket have gone over then.
    counts: BTreeMap<usize, usize>,
    /// The tickets that are finished then.
    finished: BTreeSet<usize>,
    /// The endpoints whose device was asked.
    asked: BTreeSet<Place>,
}

/// A bench's script and its devices.
pub(crate) struct Session {
    answers: Box<dyn Answers>,
    script: String,
    has_begun: bool,
    /// How many calls have an answer of `ok` that was not looked at.
    unheard: usize,
    heard_bytes: usize,
    pub(crate) devices: Vec<Plugged>,
    pub(crate) names: BTreeMap<char, Names>,
    tickets: Vec<Ticket>,
    undiscovered: Vec<Place>,
    /// The tickets that nobody had taken at the last answer, and those that were handed in since.
    untaken: BTreeSet<usize>,
    /// The tickets that a step has given back.
    reaped: BTreeSet<usize>,
    /// How many tickets may be unfinished at an endpoint.
    bounds: BTreeMap<Place, usize>,
    pub(crate) streams: BTreeMap<Place, Stream>,
    /// The tickets that are unfinished, where that is known without a question.
    open: Option<Vec<Open>>,
    /// How many bytes of a ticket have gone over, as it was reckoned.
    expected: BTreeMap<usize, usize>,
    /// The devices that may refuse a transfer.
    may_refuse: BTreeSet<usize>,
}

/// A step line of these steps, or nothing.
fn step_line(steps: &[String]) -> String {
    match steps {
        [] => String::new(),
        _ => format!("! {}\n", steps.join(" ; ")),
    }
}

/// A call with its own steps.
fn with_steps(line: &str, steps: &[String]) -> String {
    match steps {
        [] => format!("{line}\n"),
        _ => format!("{line} : {}\n", steps.join(" ; ")),
    }
}

impl Session {
    pub(crate) fn new(answers: Box<dyn Answers>) -> Session {
        Session {
            answers,
            script: String::new(),
            has_begun: false,
            unheard: 0,
            heard_bytes: 0,
            devices: Vec::new(),
            names: BTreeMap::new(),
            tickets: Vec::new(),
            undiscovered: Vec::new(),
            untaken: BTreeSet::new(),
            reaped: BTreeSet::new(),
            bounds: BTreeMap::new(),
            streams: BTreeMap::new(),
            open: Some(Vec::new()),
            expected: BTreeMap::new(),
            may_refuse: BTreeSet::new(),
        }
    }

    pub(crate) fn script(&self) -> &str {
        &self.script
    }

    /// The whole output of the script as it is.
    pub(crate) fn output(&mut self) -> String {
        let script = self.script.clone();
        self.ask(&script)
    }

    fn ask(&mut self, script: &str) -> String {
        assert!(script.len() <= MOST_SCRIPT, "a script has at most {MOST_SCRIPT} bytes");
        let answer = self.answers.answer(script.as_bytes());
        let bytes = answer.unwrap_or_else(|error| panic!("the script was not answered: {error}"));
        String::from_utf8(bytes).expect("answers are texts")
    }

    /// The least free name of a letter.
    pub(crate) fn take_name(&mut self, letter: char) -> u32 {
        self.names.entry(letter).or_default().take()
    }

    pub(crate) fn free_name(&mut self, letter: char, number: u32) {
        self.names.entry(letter).or_default().free(number);
    }

    /// Adds a line that declares something.
    pub(crate) fn set_up(&mut self, line: &str) {
        assert!(!self.has_begun, "devices and packets are declared before the first call");
        self.script += line;
        self.script.push('\n');
    }

    /// Adds steps.
    pub(crate) fn step(&mut self, steps: &[String]) {
        self.has_begun = true;
        self.open = None;
        self.script += &step_line(steps);
    }

    /// Adds a call that is answered `ok`. Its answer is looked at with the next one.
    pub(crate) fn say(&mut self, line: &str) {
        self.has_begun = true;
        self.open = None;
        self.script += line;
        self.script.push('\n');
        self.unheard += 1;
    }

    /// Adds a call that is answered `ok` and hands in this transfer.
    pub(crate) fn hand_in(&mut self, line: &str, ticket: Ticket) {
        self.discover();
        let open = self.with_open(&ticket);
        self.say(line);
        self.open = open;
        *self.bounds.entry(ticket.place).or_default() += 1;
        self.untaken.insert(self.tickets.len());
        self.tickets.push(ticket);
    }

    /// The unfinished tickets once this one is handed in, where it is known whether it is accepted.
    /// What is reckoned here is compared with the fates in the next look.
    fn with_open(&self, own: &Ticket) -> Option<Vec<Open>> {
        let (device, _) = own.place;
        let is_whole = match own.work {
            Work::In { len, max } => len > 0 && len % max == 0,
            _ => true,
        };
        let is_accepted =
            is_whole && !self.devices[device].is_gone() && !self.may_refuse.contains(&device);
        let mut open = self.open.clone().filter(|_| is_accepted)?;
        open.push(Open { ticket: self.tickets.len(), count: 0 });
        Some(open)
    }

    /// From now on this device may refuse a transfer.
    pub(crate) fn may_refuse(&mut self, device: usize) {
        self.may_refuse.insert(device);
    }

    /// Adds a call, and gives its answer.
    pub(crate) fn call(&mut self, line: &str) -> String {
        let text = format!("{line}\n");
        let look = self.look(&text, None);
        self.keep(&text, look)
    }

    /// What a call would be answered, which is not kept.
    pub(crate) fn what_if(&mut self, line: &str) -> String {
        self.look(&format!("{line}\n"), None).answer
    }

    /// Adds a call that waits, with the steps that the devices make meanwhile. Where it answers
    /// `is_vain` it leaves what is pending as it is.
    pub(crate) fn wait(&mut self, line: &str, is_vain: fn(&str) -> bool) -> String {
        self.discover();
        let known = self.open.clone().unwrap_or_default();
        let first = self.serve(&known, &[], None, &BTreeSet::new());
        let quiet = if first.steps.is_empty() { first.asked } else { BTreeSet::new() };
        let mut steps = first.steps;
        loop {
            let text = with_steps(line, &steps);
            let look = self.look(&text, None);
            let turn = match is_vain(&look.answer) {
                true => self.serve(&look.open, &look.handed_in, None, &quiet),
                false => Turn::default(),
            };
            if turn.steps.is_empty() {
                return self.keep(&text, look);
            }
            steps.extend(turn.steps);
        }
    }

    /// Adds a call that hands in a transfer and waits for it, with the steps that the devices make
    /// meanwhile. `twin` hands in the same and does not wait: it tells whether the transfer is
    /// accepted, where that is not known.
    pub(crate) fn exchange(&mut self, line: &str, twin: &str, ticket: Ticket) -> String {
        self.discover();
        let own = self.tickets.len();
        let mut steps = Vec::new();
        let mut known = self.with_open(&ticket).map(|open| (open, Vec::new()));
        loop {
            let (open, handed_in) = known.take().unwrap_or_else(|| {
                let look = self.look(&format!("{twin}\n{}", step_line(&steps)), Some(&ticket));
                (look.open, look.handed_in)
            });
            let turn = match open.iter().any(|open| open.ticket == own) {
                true => self.serve(&open, &handed_in, Some(&ticket), &BTreeSet::new()),
                false => Turn::default(),
            };
            let is_over = turn.steps.is_empty() || turn.finished.contains(&own);
            steps.extend(turn.steps);
            if is_over {
                break;
            }
        }
        let text = with_steps(line, &steps);
        let look = self.look(&text, Some(&ticket));
        self.tickets.push(ticket);
        self.keep(&text, look)
    }

    /// Lets the devices go on until nothing moves, and gives back what is finished.
    pub(crate) fn go_on(&mut self) {
        loop {
            let look = self.look("", None);
            let turn = self.serve(&look.open, &look.handed_in, None, &BTreeSet::new());
            self.settle(&look);
            if turn.steps.is_empty() {
                return;
            }
            self.step(&turn.steps);
            self.expected = turn.counts;
        }
    }

    /// Gives back what is finished at an endpoint, as the event loop of a system does by itself.
    pub(crate) fn reap(&mut self, place: Place) {
        self.discover();
        let open: Vec<usize> = self.open.iter().flatten().map(|open| open.ticket).collect();
        let tickets: Vec<usize> = self
            .untaken
            .iter()
            .copied()
            .filter(|it| self.tickets[*it].place == place && !open.contains(it))
            .filter(|it| !self.reaped.contains(it))
            .collect();
        let steps: Vec<String> = tickets.iter().map(|it| format!("reap {it}")).collect();
        let known = self.open.take();
        self.step(&steps);
        self.open = known;
        self.reaped.extend(tickets);
    }

    /// How many transfers of an endpoint may be unfinished.
    pub(crate) fn bound(&self, place: Place) -> usize {
        match self.streams.get(&place) {
            Some(Stream::Reader { .. }) => MOST_PENDING,
            _ => self.bounds.get(&place).copied().unwrap_or(0),
        }
    }

    /// The steps behind a script that fail what is unfinished.
    fn probe(&self, own: Option<&Ticket>) -> String {
        let mut line = String::new();
        let mut places: BTreeSet<Place> = self.bounds.keys().copied().collect();
        places.extend(self.streams.keys());
        places.extend(own.map(|ticket| ticket.place));
        for place in places {
            let is_own = own.is_some_and(|ticket| ticket.place == place);
            let (device, address) = place;
            for _ in 0..self.bound(place) + usize::from(is_own) {
                let sign = if line.is_empty() { "! " } else { " ; " };
                write!(line, "{sign}fail k{device} {address:02x} {PROBE}").expect("a String");
            }
        }
        line.push('\n');
        line
    }

    /// What would be answered if `text` stood behind the script. `own` is the transfer that it
    /// hands in, where it hands in one that no reader or writer knows of.
    fn look(&mut self, text: &str, own: Option<&Ticket>) -> Look {
        self.discover();
        self.has_begun = true;
        let script = format!("{}{text}{}", self.script, self.probe(own));
        let output = self.ask(&script);
        let mut lines = output[self.heard_bytes..].lines();
        self.hear(&mut lines);
        let mut behind = self.heard_bytes;
        let mut answer = String::new();
        if text.starts_with(|first: char| first.is_ascii_lowercase()) {
            let line = lines.next().unwrap_or_else(|| panic!("no answer of {text:?}"));
            behind += line.len() + 1;
            line.clone_into(&mut answer);
            assert!(answer != "condition", "the session can't make the call {text:?}: a limit");
        }
        let mut look = Look { answer, behind, known: self.tickets.len(), ..Look::default() };
        self.read_fates(lines, &mut look);
        look
    }

    /// Looks at the answers of the calls that are to be answered `ok`.
    fn hear(&mut self, lines: &mut std::str::Lines<'_>) {
        for line in lines.by_ref().take(self.unheard) {
            assert!(line == "ok", "a call was not made, by a limit of sessions: {line}");
            self.heard_bytes += line.len() + 1;
        }
        self.unheard = 0;
    }

    /// Reads which tickets are new, which are unfinished and which nobody has taken. A ticket that
    /// was taken stays so, and is not looked at again.
    fn read_fates(&self, lines: std::str::Lines<'_>, look: &mut Look) {
        let unfinished = format!("unknown:{PROBE}");
        let first = self.untaken.first().copied().unwrap_or(self.tickets.len());
        for (ticket, line) in lines.enumerate().skip(first) {
            let words: Vec<&str> = line.split(' ').collect();
            let &["ticket", _, device, address, status, count, end] = &words[..] else {
                panic!("{line:?} is no fate of a transfer");
            };
            let count = number(count);
            if ticket >= self.tickets.len() {
                let address = u8::from_str_radix(address, 16).expect("an address");
                look.handed_in.push((number(&device[1..]), address));
            }
            if let Some(&expected) = self.expected.get(&ticket) {
                assert_eq!(expected, count, "ticket {ticket} was reckoned otherwise");
            }
            if status == unfinished {
                look.open.push(Open { ticket, count });
            }
            if end != "taken" {
                look.untaken.insert(ticket);
            }
        }
    }

    /// Adds a line that was looked at, and gives its answer.
    fn keep(&mut self, text: &str, look: Look) -> String {
        self.settle(&look);
        self.script += text;
        self.heard_bytes = look.behind;
        let known_since = self.tickets.len() - look.known;
        self.undiscovered.extend(look.handed_in.into_iter().skip(known_since));
        look.answer
    }

    /// Takes over which tickets are unfinished.
    fn settle(&mut self, look: &Look) {
        self.expected.clear();
        self.untaken.clone_from(&look.untaken);
        self.bounds.clear();
        for open in &look.open {
            if let Some(ticket) = self.tickets.get(open.ticket) {
                *self.bounds.entry(ticket.place).or_default() += 1;
            }
        }
        self.open = Some(look.open.clone());
    }
    /// Takes over the tickets that readers and writers have handed in.
    pub(crate) fn discover(&mut self) {
        for place in std::mem::take(&mut self.undiscovered) {
            let stream = self.streams.get_mut(&place);
            let work = match stream.expect("a reader or a writer handed it in") {
                &mut Stream::Reader { len, max } => Work::In { len, max },
                Stream::Writer { max, handed_in, .. } => Work::Out {
                    bytes: handed_in.pop_front().expect("a writer hands in what it was given"),
                    max: *max,
                },
            };
            *self.bounds.entry(place).or_default() += 1;
            self.tickets.push(Ticket { place, work });
        }
    }

    /// A ticket: one that is known, the own one of a call, or one that a call's reader hands in.
    fn ticket_of(
        &self,
        number: usize,
        handed_in: &[Place],
        own: Option<&Ticket>,
    ) -> Option<Ticket> {
        let behind = match number.checked_sub(self.tickets.len()) {
            None => return self.tickets.get(number).cloned(),
            Some(behind) => behind,
        };
        if let (0, Some(own)) = (behind, own) {
            return Some(own.clone());
        }
        let place = handed_in[behind];
        match self.streams.get(&place) {
            Some(&Stream::Reader { len, max }) => {
                Some(Ticket { place, work: Work::In { len, max } })
            }
            _ => None,
        }
    }

    /// Lets the devices act on what is unfinished: of each endpoint one transfer after the other,
    /// up to the first that they don't finish. The endpoints in `quiet` are left out.
    fn serve(
        &mut self,
        open: &[Open],
        handed_in: &[Place],
        own: Option<&Ticket>,
        quiet: &BTreeSet<Place>,
    ) -> Turn {
        let mut turn = Turn::default();
        let mut stopped = quiet.clone();
        let mut gone = BTreeSet::new();
        for open in open {
            let Some(ticket) = self.ticket_of(open.ticket, handed_in, own) else {
                continue;
            };
            let (number, _) = ticket.place;
            let device = &mut self.devices[number];
            if device.is_gone() {
                if gone.contains(&number) {
                    turn.finished.insert(open.ticket);
                }
                continue;
            }
            if stopped.contains(&ticket.place) {
                continue;
            }
            turn.asked.insert(ticket.place);
            if !turn.serve(device, &ticket, open) {
                stopped.insert(ticket.place);
            }
            if device.is_gone() {
                gone.insert(number);
            }
        }
        self.expected.clone_from(&turn.counts);
        turn
    }
}

impl Turn {
    /// Lets a device act on an unfinished transfer, and says whether it succeeded, so that the next
    /// one of the endpoint may follow.
    fn serve(&mut self, device: &mut Plugged, ticket: &Ticket, open: &Open) -> bool {
        match &ticket.work {
            &Work::In { len, max } => self.serve_in(device, ticket.place, (len, max), *open),
            Work::Out { bytes, max } => self.serve_out(device, ticket.place, (bytes, *max), *open),
            &Work::ControlIn(request) => {
                let (reply, len) = (device.control_in(request), usize::from(request.length));
                self.packet(device, ticket.place, reply, *open, (len, len))
            }
            Work::ControlOut { head, bytes } => {
                let reply = device.control_out(ControlOut { data: bytes, ..*head });
                self.acknowledge(device, ticket.place, reply, *open, (bytes.len(), true))
            }
        }
    }

    /// Packets for a transfer that asks for `len` bytes, until it is finished.
    fn serve_in(
        &mut self,
        device: &mut Plugged,
        place: Place,
        (len, max): (usize, usize),
        mut open: Open,
    ) -> bool {
        loop {
            let reply = device.poll(place.1);
            let has_come = self.packet(device, place, reply, open, (len, max));
            if !has_come || self.finished.contains(&open.ticket) {
                return has_come;
            }
            open.count = self.counts[&open.ticket];
        }
    }

    /// Acknowledges the packets of a transfer, until it is finished.
    fn serve_out(
        &mut self,
        device: &mut Plugged,
        place: Place,
        (bytes, max): (&[u8], usize),
        mut open: Open,
    ) -> bool {
        loop {
            let end = bytes.len().min(open.count + max);
            let is_last = end == bytes.len();
            let reply = device.out(place.1, &bytes[open.count..end]);
            let has_gone = self.acknowledge(device, place, reply, open, (end, is_last));
            if !has_gone || is_last {
                return has_gone;
            }
            open.count = end;
        }
    }

    /// The step of a reply to a poll, for a transfer that asks for `len` bytes in packets of `max`.
    /// Says whether a packet was sent that is not too long.
    fn packet(
        &mut self,
        device: &mut Plugged,
        (number, address): Place,
        reply: InReply,
        open: Open,
        (len, max): (usize, usize),
    ) -> bool {
        match reply {
            InReply::Packet(bytes) => {
                self.steps.push(format!("pkt k{number} {address:02x} {}", hex(&bytes)));
                let size = bytes.len();
                let count = open.count + if size > max { 0 } else { size };
                self.counts.insert(open.ticket, count);
                if size != max || count >= len {
                    self.finished.insert(open.ticket);
                }
                return size <= max;
            }
            InReply::Nak => {}
            InReply::Stall => self.fail((number, address), 32, open),
            InReply::Fail(errno) => self.fail((number, address), errno, open),
            InReply::Unplug => self.unplug(device, number, open),
        }
        false
    }

    /// The step of a reply to a packet, behind which so many bytes have gone over. Says whether it
    /// was acknowledged.
    fn acknowledge(
        &mut self,
        device: &mut Plugged,
        (number, address): Place,
        reply: OutReply,
        open: Open,
        (count, is_last): (usize, bool),
    ) -> bool {
        match reply {
            OutReply::Ack => {
                self.steps.push(format!("ack k{number} {address:02x}"));
                self.counts.insert(open.ticket, count);
                if is_last {
                    self.finished.insert(open.ticket);
                }
                return true;
            }
            OutReply::Nak => {}
            OutReply::Stall => self.fail((number, address), 32, open),
            OutReply::Fail(errno) => self.fail((number, address), errno, open),
            OutReply::Unplug => self.unplug(device, number, open),
        }
        false
    }

    fn fail(&mut self, (number, address): Place, errno: u16, open: Open) {
        assert!((1..PROBE).contains(&errno), "an errno of a device is from 1 to 4094");
        self.steps.push(format!("fail k{number} {address:02x} {errno}"));
        self.finished.insert(open.ticket);
    }

    fn unplug(&mut self, device: &mut Plugged, number: usize, open: Open) {
        device.leave();
        self.steps.push(format!("unplug k{number}"));
        self.finished.insert(open.ticket);
    }
}
