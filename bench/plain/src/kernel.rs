//! The simulated kernel: devices, and the tickets of submitted transfers.

use crate::descriptors::{Configuration, Direction, Setting, configurations};
use crate::errno::{self, Errno};
use crate::journal::Journal;
use crate::names::{Name, Names};
use crate::text::{Show, Text};
use std::cmp::Reverse;
use std::collections::{BinaryHeap, VecDeque};
use std::sync::Arc;

/// A ticket's number.
pub type Ticket = usize;

/// The longest that a transfer with a deadline may take, in nanoseconds: a day.
const LONGEST: u64 = 86_400_000_000_000;

/// What a simulated device is.
pub struct Device {
    pub bus: u8,
    pub address: u8,
    /// The code of its speed.
    pub speed: u8,
    /// The value of the configuration that is active at first.
    pub configuration: u8,
    pub bytes: Vec<u8>,
    /// The interfaces that kernel drivers are bound to at first.
    pub drivers: Vec<u8>,
}

/// The numbers by which a setting is looked for.
#[derive(Clone, Copy)]
pub struct SettingPlace {
    pub configuration: u8,
    pub interface: u8,
    pub alternate: u8,
}

impl Device {
    /// The first configuration of this value.
    pub fn configuration(&self, value: u8) -> Option<Configuration<'_>> {
        configurations(&self.bytes).find(|c| c.value() == value)
    }

    /// The first setting with these numbers.
    pub fn setting(&self, place: SettingPlace) -> Option<Setting<'_>> {
        self.configuration(place.configuration)?
            .settings()
            .find(|s| {
                (s.interface_number(), s.alternate_setting()) == (place.interface, place.alternate)
            })
    }
}

/// A device that is plugged in.
struct Plug {
    device: Arc<Device>,
    /// The value of the active configuration.
    configuration: u8,
    /// By the interface's number.
    claimed: [bool; 256],
    /// By the interface's number whether a kernel driver is bound to it.
    bound: [bool; 256],
    /// By call the errnos of the next ones.
    refusals: [VecDeque<Errno>; 13],
    /// By the endpoint's address its tickets, the oldest in front. Some may be finished.
    open: Vec<VecDeque<Ticket>>,
}

impl Plug {
    /// Gives this errno unless the active configuration has the interface.
    fn needs_interface(&self, number: u8, errno: Errno) -> Result<(), Errno> {
        self.device
            .configuration(self.configuration)
            .is_some_and(|c| c.settings().any(|s| s.interface_number() == number))
            .then_some(())
            .ok_or(errno)
    }
}

/// A call on a device for which a script may ask for a refusal.
#[derive(Clone, Copy)]
pub enum KernelCall {
    Open,
    ReadDescriptors,
    Configuration,
    SetConfiguration,
    Reset,
    Claim,
    DetachAndClaim,
    Detach,
    Attach,
    SetInterface,
    ClearHalt,
    Speed,
    Submit,
}

pub enum Step {
    Packet {
        device: Name,
        endpoint: u8,
        bytes: Vec<u8>,
    },
    Acknowledge {
        device: Name,
        endpoint: u8,
    },
    Echo {
        device: Name,
        output: u8,
        input: u8,
    },
    Fail {
        device: Name,
        endpoint: u8,
        errno: Errno,
    },
    Unplug {
        device: Name,
    },
    Clock {
        to: u64,
    },
    Timer,
    Refuse {
        device: Name,
        call: KernelCall,
        errno: Errno,
    },
    Reap {
        ticket: Option<Ticket>,
    },
}

/// How a transfer ended.
#[derive(Clone, Copy)]
pub enum Outcome {
    Complete,
    Failed(Errno),
    /// It was refused when it was handed in, so that nobody can have cancelled it.
    Refused(Errno),
}

impl Show for Outcome {
    fn show(&self, text: &mut Text) {
        use errno::*;
        let (Outcome::Failed(errno) | Outcome::Refused(errno)) = *self else {
            text.word("ok");
            return;
        };
        match errno {
            NOENT | CONNRESET | TIMEDOUT if matches!(self, Outcome::Failed(_)) => {
                text.word("cancelled")
            }
            PIPE => text.word("stall"),
            NODEV | SHUTDOWN => text.word("disconnected"),
            TIME | COMM | PROTO | OVERFLOW | ILSEQ => text.word("fault"),
            INVAL => text.word("invalid"),
            _ => text.word("unknown:").number(errno.into()),
        };
    }
}

/// A transfer that was handed in.
pub struct Transfer {
    pub device: Name,
    pub endpoint: u8,
    /// The endpoint's maximum packet size, and of a control transfer the length of its data.
    pub maximum: usize,
    /// What an IN transfer wants, and the length of an OUT transfer's bytes.
    pub requested: usize,
    /// The capacity of its buffer.
    pub room: usize,
    /// The bytes of an OUT transfer, or those that have come in, until the host takes them.
    pub bytes: Vec<u8>,
    /// How many bytes have come in, or were acknowledged.
    pub count: usize,
    pub outcome: Option<Outcome>,
    pub is_reaped: bool,
}

#[derive(Default)]
pub struct Kernel {
    plugs: Names<Plug>,
    /// By ticket.
    pub transfers: Vec<Transfer>,
    /// Nanoseconds.
    pub clock: u64,
    pub unreaped: usize,
    /// The finished tickets, some of which may have been reaped.
    finished: BinaryHeap<Reverse<Ticket>>,
    /// The deadlines of tickets, some of which may be finished.
    deadlines: BinaryHeap<Reverse<(u64, Ticket)>>,
    pub journal: Journal,
}

impl Kernel {
    pub fn plug(&mut self, name: Name, device: Device) {
        let mut bound = [false; 256];
        for number in &device.drivers {
            bound[usize::from(*number)] = true;
        }
        self.plugs.set(
            name,
            Plug {
                configuration: device.configuration,
                device: Arc::new(device),
                claimed: [false; 256],
                bound,
                refusals: Default::default(),
                open: vec![VecDeque::new(); 256],
            },
        );
    }

    /// The device at this bus and address.
    pub fn find(&self, bus: u8, address: u8) -> Option<(Name, Arc<Device>)> {
        self.plugs
            .iter()
            .find(|(_, plug)| (plug.device.bus, plug.device.address) == (bus, address))
            .map(|(name, plug)| (name, plug.device.clone()))
    }

    /// The device that a call is made on, unless the call is refused before its own rules are looked
    /// at. A refusal that the script asked for is used up.
    fn called(&mut self, name: Name, call: KernelCall) -> Result<&mut Plug, Errno> {
        let plug = self.plugs.get_mut(name).ok_or(errno::NODEV)?;
        match plug.refusals[call as usize].pop_front() {
            Some(errno) => Err(errno),
            None => Ok(plug),
        }
    }

    /// A call that has no rules of its own and gives nothing.
    pub fn call(&mut self, name: Name, call: KernelCall) -> Result<(), Errno> {
        self.called(name, call).map(|_| ())
    }

    /// The value of the active configuration.
    pub fn configuration(&mut self, name: Name) -> Result<u8, Errno> {
        let plug = self.called(name, KernelCall::Configuration)?;
        Ok(plug.configuration)
    }

    pub fn set_configuration(&mut self, name: Name, value: u8) -> Result<(), Errno> {
        let plug = self.called(name, KernelCall::SetConfiguration)?;
        if value != 0 && plug.device.configuration(value).is_none() {
            return Err(errno::INVAL);
        }
        if plug.claimed.contains(&true) {
            return Err(errno::BUSY);
        }
        plug.configuration = value;
        Ok(())
    }

    pub fn reset(&mut self, name: Name) -> Result<(), Errno> {
        self.call(name, KernelCall::Reset)?;
        self.unplug(name);
        Ok(())
    }

    /// The code of the device's speed.
    pub fn speed(&mut self, name: Name) -> Result<u8, Errno> {
        let plug = self.called(name, KernelCall::Speed)?;
        Ok(plug.device.speed)
    }

    pub fn claim(&mut self, name: Name, interface: u8) -> Result<(), Errno> {
        let plug = self.called(name, KernelCall::Claim)?;
        plug.needs_interface(interface, errno::NOENT)?;
        let at = usize::from(interface);
        if plug.claimed[at] || plug.bound[at] {
            return Err(errno::BUSY);
        }
        plug.claimed[at] = true;
        Ok(())
    }

    pub fn detach_and_claim(&mut self, name: Name, interface: u8) -> Result<(), Errno> {
        let plug = self.called(name, KernelCall::DetachAndClaim)?;
        plug.needs_interface(interface, errno::NOENT)?;
        let at = usize::from(interface);
        if plug.claimed[at] {
            return Err(errno::BUSY);
        }
        plug.claimed[at] = true;
        plug.bound[at] = false;
        Ok(())
    }

    /// Ends a claim. This is never refused.
    pub fn release(&mut self, name: Name, interface: u8) {
        if let Some(plug) = self.plugs.get_mut(name) {
            plug.claimed[usize::from(interface)] = false;
        }
    }

    pub fn detach(&mut self, name: Name, interface: u8) -> Result<(), Errno> {
        let plug = self.called(name, KernelCall::Detach)?;
        plug.needs_interface(interface, errno::INVAL)?;
        let bound = &mut plug.bound[usize::from(interface)];
        if !std::mem::take(bound) {
            return Err(errno::NODATA);
        }
        Ok(())
    }

    pub fn attach(&mut self, name: Name, interface: u8) -> Result<(), Errno> {
        let plug = self.called(name, KernelCall::Attach)?;
        plug.needs_interface(interface, errno::INVAL)?;
        let at = usize::from(interface);
        if plug.bound[at] || plug.claimed[at] {
            return Err(errno::BUSY);
        }
        plug.bound[at] = true;
        Ok(())
    }

    /// Which setting is the current one is for the host to keep.
    pub fn set_interface(&mut self, name: Name, interface: u8, alternate: u8) -> Result<(), Errno> {
        let plug = self.called(name, KernelCall::SetInterface)?;
        let place = SettingPlace {
            configuration: plug.configuration,
            interface,
            alternate,
        };
        plug.device.setting(place).map(|_| ()).ok_or(errno::INVAL)
    }

    /// The deadline of what is handed in now and may take so long.
    pub fn deadline_after(&self, time: u64) -> u64 {
        self.clock.saturating_add(time.min(LONGEST))
    }

    /// Hands a transfer in, which ends at its deadline at the latest, where it has one.
    pub fn submit(&mut self, transfer: Transfer, deadline: Option<u64>) -> Ticket {
        match self.call(transfer.device, KernelCall::Submit) {
            Err(errno) => self.refuse(transfer, errno),
            Ok(()) => self.accept(transfer, deadline),
        }
    }

    /// Hands a control transfer in, whose direction and length the setup packet tells.
    pub fn submit_control(
        &mut self,
        device: Name,
        setup: [u8; 8],
        bytes: Vec<u8>,
        deadline: u64,
    ) -> Ticket {
        let length = usize::from(u16::from_le_bytes([setup[6], setup[7]]));
        let transfer = Transfer {
            device,
            endpoint: setup[0] & 0x80,
            maximum: length,
            requested: length,
            room: length,
            bytes,
            count: 0,
            outcome: None,
            is_reaped: false,
        };
        self.submit(transfer, Some(deadline))
    }

    /// Discards the tickets that are due, by deadline and then number.
    pub fn turn_timer(&mut self) {
        while let Some(&Reverse((deadline, ticket))) = self.deadlines.peek() {
            if deadline > self.clock {
                break;
            }
            self.deadlines.pop();
            self.discard(ticket);
        }
    }

    fn accept(&mut self, transfer: Transfer, deadline: Option<u64>) -> Ticket {
        let ticket = self.transfers.len();
        if let Some(deadline) = deadline {
            self.deadlines.push(Reverse((deadline, ticket)));
        }
        if let Some(plug) = self.plugs.get_mut(transfer.device) {
            plug.open[usize::from(transfer.endpoint)].push_back(ticket);
        }
        self.unreaped += 1;
        self.journal.submit(ticket, &transfer, deadline);
        self.transfers.push(transfer);
        ticket
    }

    /// Gives a refused transfer its ticket, which is finished and reaped at once.
    pub fn refuse(&mut self, transfer: Transfer, errno: Errno) -> Ticket {
        let ticket = self.transfers.len();
        self.journal.refuse(ticket, &transfer, errno);
        let outcome = Some(Outcome::Refused(errno));
        self.transfers.push(Transfer {
            outcome,
            is_reaped: true,
            ..transfer
        });
        ticket
    }

    /// The oldest unfinished ticket of an endpoint.
    fn oldest(&mut self, name: Name, endpoint: u8) -> Option<Ticket> {
        let open = &mut self.plugs.get_mut(name)?.open[usize::from(endpoint)];
        while let Some(&ticket) = open.front() {
            if self.transfers[ticket].outcome.is_none() {
                return Some(ticket);
            }
            open.pop_front();
        }
        None
    }

    fn oldest_towards(&mut self, direction: Direction, name: Name, endpoint: u8) -> Option<Ticket> {
        let has_direction = Direction::of_address(endpoint) == direction;
        has_direction.then(|| self.oldest(name, endpoint)).flatten()
    }

    fn finish(&mut self, ticket: Ticket, outcome: Outcome) {
        self.transfers[ticket].outcome = Some(outcome);
        self.finished.push(Reverse(ticket));
    }

    fn packet(&mut self, ticket: Ticket, mut bytes: Vec<u8>) {
        let transfer = &mut self.transfers[ticket];
        if bytes.len() > transfer.maximum {
            return self.finish(ticket, Outcome::Failed(errno::OVERFLOW));
        }
        transfer.count += bytes.len();
        let is_done = bytes.len() < transfer.maximum || transfer.count >= transfer.requested;
        if transfer.bytes.is_empty() {
            transfer.bytes = bytes;
        } else {
            transfer.bytes.append(&mut bytes);
        }
        if is_done {
            self.finish(ticket, Outcome::Complete);
        }
    }

    fn acknowledge(&mut self, ticket: Ticket) {
        let transfer = &mut self.transfers[ticket];
        transfer.count = transfer.requested.min(transfer.count + transfer.maximum);
        if transfer.count == transfer.requested {
            self.finish(ticket, Outcome::Complete);
        }
    }

    /// The packet that an acknowledgement of the one ticket takes comes to the other.
    fn echo(&mut self, sender: Ticket, taker: Ticket) {
        let start = self.transfers[sender].count;
        self.acknowledge(sender);
        let transfer = &self.transfers[sender];
        let packet = transfer.bytes[start..transfer.count].to_vec();
        self.packet(taker, packet);
    }

    fn unplug(&mut self, name: Name) {
        let Some(plug) = self.plugs.take(name) else {
            return;
        };
        self.journal.event("unplug", name.into());
        for ticket in plug.open.into_iter().flatten() {
            if self.transfers[ticket].outcome.is_none() {
                self.finish(ticket, Outcome::Failed(errno::SHUTDOWN));
            }
        }
    }

    /// Discards a ticket that isn't finished.
    pub fn discard(&mut self, ticket: Ticket) {
        if self.transfers[ticket].outcome.is_none() {
            self.journal.event("discard", ticket as u64);
            self.finish(ticket, Outcome::Failed(errno::NOENT));
        }
    }

    /// Of the tickets that are finished and not reaped the least.
    pub fn lowest_finished(&mut self) -> Option<Ticket> {
        while let Some(&Reverse(ticket)) = self.finished.peek() {
            if !self.transfers[ticket].is_reaped {
                return Some(ticket);
            }
            self.finished.pop();
        }
        None
    }

    /// Reaps a ticket that is finished and not reaped, and gives it back.
    pub fn reap(&mut self, ticket: Ticket) -> Option<Ticket> {
        let transfer = self.transfers.get_mut(ticket)?;
        if transfer.outcome.is_none() || transfer.is_reaped {
            return None;
        }
        transfer.is_reaped = true;
        self.unreaped -= 1;
        self.journal.event("reap", ticket as u64);
        Some(ticket)
    }

    /// Takes a step, and gives the ticket that it reaped.
    pub fn step(&mut self, step: Step) -> Option<Ticket> {
        match step {
            Step::Packet {
                device,
                endpoint,
                bytes,
            } => {
                let ticket = self.oldest_towards(Direction::In, device, endpoint)?;
                self.journal.packet(device, endpoint, &bytes);
                self.packet(ticket, bytes);
            }
            Step::Acknowledge { device, endpoint } => {
                let ticket = self.oldest_towards(Direction::Out, device, endpoint)?;
                self.journal.acknowledge(device, endpoint);
                self.acknowledge(ticket);
            }
            Step::Echo {
                device,
                output,
                input,
            } => {
                let sender = self.oldest_towards(Direction::Out, device, output)?;
                let taker = self.oldest_towards(Direction::In, device, input)?;
                self.journal.echo(device, output, input);
                self.echo(sender, taker);
            }
            Step::Fail {
                device,
                endpoint,
                errno,
            } => {
                let ticket = self.oldest(device, endpoint)?;
                self.journal.fail(device, endpoint, errno);
                self.finish(ticket, Outcome::Failed(errno));
            }
            Step::Unplug { device } => self.unplug(device),
            Step::Clock { to } => self.clock = self.clock.max(to),
            Step::Timer => self.turn_timer(),
            Step::Refuse {
                device,
                call,
                errno,
            } => {
                self.plugs.get_mut(device)?.refusals[call as usize].push_back(errno);
            }
            Step::Reap {
                ticket: Some(ticket),
            } => return self.reap(ticket),
            Step::Reap { ticket: None } => {
                let ticket = self.lowest_finished()?;
                return self.reap(ticket);
            }
        }
        None
    }
}
