//! The host: open devices, claimed interfaces, endpoints, and what became of each ticket.

use crate::descriptors::{DeviceDescriptor, Direction, TransferType};
use crate::errno;
use crate::kernel::{Device, Kernel, KernelCall, Outcome, SettingPlace, Step, Ticket, Transfer};
use crate::names::Name;
use crate::refusal::Refusal;
use crate::text::{Show, Text};
use std::cell::Cell;
use std::collections::VecDeque;
use std::rc::Rc;
use std::sync::Arc;

/// An open device.
#[derive(Clone)]
pub struct OpenDevice {
    pub name: Name,
    pub descriptor: DeviceDescriptor,
    pub device: Arc<Device>,
    /// The value of the active configuration as it was last told or set. The clones of an open
    /// device and its interfaces share it.
    configuration: Rc<Cell<u8>>,
}

struct Interface {
    device: OpenDevice,
    number: u8,
    /// The current setting.
    alternate: u8,
    /// By bits 0 to 3 and 7 of the endpoint's address.
    is_used: [bool; 32],
    /// How many handles it has, and endpoints that are in use.
    owners: usize,
    /// Whether a kernel driver is attached to it when it goes.
    attaches_driver: bool,
}

/// The key of an interface, and that of an endpoint: those of closed ones aren't used again.
pub type InterfaceKey = usize;
pub type EndpointKey = usize;

struct Endpoint {
    interface: InterfaceKey,
    device: Name,
    address: u8,
    /// The maximum packet size.
    maximum: usize,
    pending: VecDeque<Ticket>,
    /// How many tickets keep the address in use, with one for the endpoint itself while it is open.
    uses: usize,
}

/// What is handed in: the length that is wanted, or the bytes.
pub enum Data {
    In(usize),
    Out(Vec<u8>),
}

impl Data {
    fn direction(&self) -> Direction {
        match self {
            Data::In(_) => Direction::In,
            Data::Out(_) => Direction::Out,
        }
    }
}

/// How a ticket's life ended.
#[derive(Clone, Copy)]
pub enum End {
    Taken,
    Dropped,
    Reclaimed,
}

impl Show for End {
    fn show(&self, text: &mut Text) {
        text.word(match self {
            End::Taken => "taken",
            End::Dropped => "dropped",
            End::Reclaimed => "reclaimed",
        });
    }
}

/// What became of a ticket.
#[derive(Clone, Copy)]
pub enum Fate {
    /// It is pending.
    Held,
    /// Its endpoint was closed before it was reaped, or the future of a control transfer, which has
    /// no endpoint.
    Abandoned(Option<EndpointKey>),
    Ended(End),
}

/// A finished transfer that the host took.
pub struct Completion {
    pub outcome: Outcome,
    pub count: usize,
    pub requested: usize,
    /// The capacity of its buffer.
    pub room: usize,
    pub bytes: Vec<u8>,
}

/// The steps of a call that are left.
pub type Steps = std::vec::IntoIter<Step>;

#[derive(Default)]
pub struct Host {
    pub kernel: Kernel,
    interfaces: Vec<Interface>,
    endpoints: Vec<Endpoint>,
    /// By ticket.
    pub fates: Vec<Fate>,
}

const MOST_PENDING: usize = 64;
const MOST_UNREAPED: usize = 1024;

/// Where an address stands among those of its interface that are in use.
fn bit(address: u8) -> usize {
    usize::from(address & 15 | address >> 3 & 16)
}

impl OpenDevice {
    /// The value of the active configuration by the kernel, or where it refuses to tell the last one.
    fn active(&self, kernel: &mut Kernel) -> u8 {
        if let Ok(value) = kernel.configuration(self.name) {
            self.configuration.set(value);
        }
        self.configuration.get()
    }
}

impl Host {
    pub fn open_device(&mut self, bus: u8, address: u8) -> Result<OpenDevice, Refusal> {
        let kernel = &mut self.kernel;
        let (name, device) = kernel
            .find(bus, address)
            .ok_or(Refusal::Open(errno::NOENT))?;
        kernel.call(name, KernelCall::Open).map_err(Refusal::Open)?;
        kernel
            .call(name, KernelCall::ReadDescriptors)
            .map_err(Refusal::ReadDescriptors)?;
        let descriptor =
            DeviceDescriptor::new(&device.bytes).ok_or(Refusal::InvalidDeviceDescriptor)?;
        let configuration = kernel
            .configuration(name)
            .map_err(|_| Refusal::Configuration)?;
        Ok(OpenDevice {
            name,
            descriptor,
            device,
            configuration: Rc::new(Cell::new(configuration)),
        })
    }

    /// The value of a device's active configuration.
    pub fn active(&mut self, device: &OpenDevice) -> u8 {
        device.active(&mut self.kernel)
    }

    /// The code of a device's speed, where the kernel tells it.
    pub fn speed(&mut self, device: &OpenDevice) -> Option<u8> {
        self.kernel.speed(device.name).ok()
    }

    pub fn set_configuration(&mut self, device: &OpenDevice, value: u8) -> Result<(), Refusal> {
        self.kernel
            .set_configuration(device.name, value)
            .map_err(Refusal::SetConfiguration)?;
        device.configuration.set(value);
        Ok(())
    }

    pub fn reset(&mut self, device: &OpenDevice) -> Result<(), Refusal> {
        self.kernel.reset(device.name).map_err(Refusal::Reset)
    }

    pub fn detach(&mut self, device: &OpenDevice, number: u8) -> Result<(), Refusal> {
        self.kernel
            .detach(device.name, number)
            .map_err(Refusal::Detach)
    }

    pub fn attach(&mut self, device: &OpenDevice, number: u8) -> Result<(), Refusal> {
        self.kernel
            .attach(device.name, number)
            .map_err(Refusal::Attach)
    }

    pub fn claim(&mut self, device: OpenDevice, number: u8) -> Result<InterfaceKey, Refusal> {
        self.kernel
            .claim(device.name, number)
            .map_err(Refusal::Claim)?;
        Ok(self.add_interface(device, number, false))
    }

    pub fn detach_and_claim(
        &mut self,
        device: OpenDevice,
        number: u8,
    ) -> Result<InterfaceKey, Refusal> {
        self.kernel
            .detach_and_claim(device.name, number)
            .map_err(Refusal::Claim)?;
        Ok(self.add_interface(device, number, true))
    }

    fn add_interface(
        &mut self,
        device: OpenDevice,
        number: u8,
        attaches_driver: bool,
    ) -> InterfaceKey {
        self.interfaces.push(Interface {
            device,
            number,
            alternate: 0,
            is_used: [false; 32],
            owners: 1,
            attaches_driver,
        });
        self.interfaces.len() - 1
    }

    /// Gives an interface one more handle.
    pub fn clone_interface(&mut self, key: InterfaceKey) -> InterfaceKey {
        self.interfaces[key].owners += 1;
        key
    }

    /// Closes the one owner that an interface has.
    pub fn release(&mut self, key: InterfaceKey) -> Result<(), Refusal> {
        if self.interfaces[key].owners > 1 {
            return Err(Refusal::InterfaceInUse);
        }
        self.leave_interface(key);
        Ok(())
    }

    /// Ends one owner of an interface, and with the last one its claim.
    pub fn leave_interface(&mut self, key: InterfaceKey) {
        let interface = &mut self.interfaces[key];
        interface.owners -= 1;
        if interface.owners > 0 {
            return;
        }
        let (device, number) = (interface.device.name, interface.number);
        self.kernel.release(device, number);
        if interface.attaches_driver {
            // Nobody is left who could be told that this was refused.
            let _ = self.kernel.attach(device, number);
        }
    }

    /// The device of an interface.
    pub fn device(&self, key: InterfaceKey) -> Name {
        self.interfaces[key].device.name
    }

    /// The number of an interface's current setting.
    pub fn alternate(&self, key: InterfaceKey) -> u8 {
        self.interfaces[key].alternate
    }

    pub fn set_alternate(&mut self, key: InterfaceKey, alternate: u8) -> Result<(), Refusal> {
        let interface = &mut self.interfaces[key];
        if interface.is_used.contains(&true) {
            return Err(Refusal::EndpointsInUse);
        }
        self.kernel
            .set_interface(interface.device.name, interface.number, alternate)
            .map_err(Refusal::SetInterface)?;
        interface.alternate = alternate;
        Ok(())
    }

    /// The device of an interface, and where in it the current setting is looked for.
    pub fn setting(&mut self, key: InterfaceKey) -> (Arc<Device>, SettingPlace) {
        let interface = &self.interfaces[key];
        let place = SettingPlace {
            configuration: interface.device.active(&mut self.kernel),
            interface: interface.number,
            alternate: interface.alternate,
        };
        (interface.device.device.clone(), place)
    }

    pub fn open_endpoint(
        &mut self,
        interface: InterfaceKey,
        address: u8,
        kind: TransferType,
        direction: Direction,
    ) -> Result<EndpointKey, Refusal> {
        let (device, place) = self.setting(interface);
        let endpoint = device
            .setting(place)
            .and_then(|setting| setting.endpoints().find(|e| e.address() == address))
            .ok_or(Refusal::NoSuchEndpoint)?;
        let maximum = endpoint.max_packet_size();
        if Direction::of_address(address) != direction {
            return Err(Refusal::IncorrectEndpointDirection);
        }
        if endpoint.transfer_type() != kind {
            return Err(Refusal::IncorrectEndpointType);
        }
        if maximum == 0 {
            return Err(Refusal::EndpointHasNoPacketSize);
        }
        let claimed = &mut self.interfaces[interface];
        if std::mem::replace(&mut claimed.is_used[bit(address)], true) {
            return Err(Refusal::EndpointAlreadyInUse);
        }
        claimed.owners += 1;
        self.endpoints.push(Endpoint {
            interface,
            device: claimed.device.name,
            address,
            maximum,
            pending: VecDeque::new(),
            uses: 1,
        });
        Ok(self.endpoints.len() - 1)
    }

    pub fn clear_halt(&mut self, key: EndpointKey) -> Result<(), Refusal> {
        self.kernel
            .call(self.endpoints[key].device, KernelCall::ClearHalt)
            .map_err(Refusal::ClearHalt)
    }

    /// How many transfers of an endpoint are pending.
    pub fn pending(&self, endpoint: EndpointKey) -> usize {
        self.endpoints[endpoint].pending.len()
    }

    pub fn direction(&self, endpoint: EndpointKey) -> Direction {
        Direction::of_address(self.endpoints[endpoint].address)
    }

    /// The maximum packet size of an endpoint.
    pub fn maximum(&self, endpoint: EndpointKey) -> usize {
        self.endpoints[endpoint].maximum
    }

    /// Whether a transfer may be handed in at all.
    pub fn has_free_ticket(&self) -> bool {
        self.kernel.unreaped < MOST_UNREAPED
    }

    /// Whether so many tickets are unreaped that no call is made.
    pub fn is_crowded(&self) -> bool {
        self.kernel.unreaped > MOST_UNREAPED
    }

    /// Whether the endpoint has the direction of a transfer, and there is room for it.
    fn has_room(&self, key: EndpointKey, data: &Data) -> bool {
        let endpoint = &self.endpoints[key];
        self.direction(key) == data.direction()
            && endpoint.pending.len() < MOST_PENDING
            && self.has_free_ticket()
    }

    /// Hands a transfer in, at most for so long where it has a time, or gives none where the call is
    /// barred.
    pub fn submit(&mut self, key: EndpointKey, data: Data, time: Option<u64>) -> Option<()> {
        if !self.has_room(key, &data) {
            return None;
        }
        let deadline = time.map(|time| self.kernel.deadline_after(time));
        let room = match &data {
            Data::In(length) => *length,
            Data::Out(bytes) => bytes.len(),
        };
        self.hand_in(key, data, room, deadline);
        Some(())
    }

    /// Hands a transfer in, whose buffer has this capacity.
    pub fn hand_in(&mut self, key: EndpointKey, data: Data, room: usize, deadline: Option<u64>) {
        let endpoint = &mut self.endpoints[key];
        let maximum = endpoint.maximum;
        let is_whole = match data {
            Data::In(length) => length > 0 && length.is_multiple_of(maximum),
            Data::Out(_) => true,
        };
        let (requested, bytes) = match data {
            Data::In(length) => (length, Vec::new()),
            Data::Out(bytes) => (bytes.len(), bytes),
        };
        let transfer = Transfer {
            device: endpoint.device,
            endpoint: endpoint.address,
            maximum,
            requested,
            room,
            bytes,
            count: 0,
            outcome: None,
            is_reaped: false,
        };
        let ticket = if is_whole {
            self.kernel.submit(transfer, deadline)
        } else {
            self.kernel.refuse(transfer, errno::INVAL)
        };
        self.fates.push(Fate::Held);
        endpoint.uses += 1;
        endpoint.pending.push_back(ticket);
    }

    /// Takes the oldest pending transfer, where it was reaped.
    pub fn poll(&mut self, key: EndpointKey) -> Option<Completion> {
        let pending = &mut self.endpoints[key].pending;
        let ticket = *pending.front()?;
        let transfer = &mut self.kernel.transfers[ticket];
        let outcome = transfer.outcome.filter(|_| transfer.is_reaped)?;
        pending.pop_front();
        let bytes = std::mem::take(&mut transfer.bytes);
        let (count, requested, room) = (transfer.count, transfer.requested, transfer.room);
        self.end(ticket, Some(key), End::Taken);
        Some(Completion {
            outcome,
            count,
            requested,
            room,
            bytes,
        })
    }

    /// Waits at most this long for the oldest pending transfer.
    pub fn wait(&mut self, key: EndpointKey, time: u64, steps: &mut Steps) -> Option<Completion> {
        let start = self.kernel.clock;
        loop {
            if let Some(completion) = self.poll(key) {
                return Some(completion);
            }
            if self.kernel.clock - start >= time || !self.turn(steps) {
                return None;
            }
        }
    }

    /// Hands a transfer in and waits for it, or gives none where the call is barred. When the time
    /// is up it is cancelled.
    pub fn transfer(
        &mut self,
        key: EndpointKey,
        data: Data,
        time: u64,
        steps: &mut Steps,
    ) -> Option<Completion> {
        if self.pending(key) > 0 {
            return None;
        }
        self.submit(key, data, None)?;
        self.wait(key, time, steps).or_else(|| {
            self.cancel(key);
            self.wait(key, u64::MAX, steps)
        })
    }

    /// Goes on by a step or by a reap, and tells whether there was one.
    pub fn turn(&mut self, steps: &mut Steps) -> bool {
        match steps.next() {
            Some(step) => self.step(step),
            None => match self.kernel.lowest_finished() {
                Some(ticket) => self.reap(ticket),
                None => return false,
            },
        }
        true
    }

    pub fn step(&mut self, step: Step) {
        if let Some(ticket) = self.kernel.step(step) {
            self.reaped(ticket);
        }
    }

    fn reap(&mut self, ticket: Ticket) {
        if let Some(ticket) = self.kernel.reap(ticket) {
            self.reaped(ticket);
        }
    }

    fn reaped(&mut self, ticket: Ticket) {
        if let Fate::Abandoned(endpoint) = self.fates[ticket] {
            self.end(ticket, endpoint, End::Reclaimed);
        }
    }

    fn end(&mut self, ticket: Ticket, endpoint: Option<EndpointKey>, end: End) {
        self.fates[ticket] = Fate::Ended(end);
        if let Some(endpoint) = endpoint {
            self.leave(endpoint);
        }
    }

    /// Ends the ticket of a control transfer that was taken.
    pub fn take_ticket(&mut self, ticket: Ticket) {
        self.end(ticket, None, End::Taken);
    }

    /// Gives a ticket up that nobody has taken.
    pub fn give_up(&mut self, ticket: Ticket, endpoint: Option<EndpointKey>) {
        if self.kernel.transfers[ticket].is_reaped {
            self.end(ticket, endpoint, End::Dropped);
        } else {
            self.fates[ticket] = Fate::Abandoned(endpoint);
        }
    }

    /// Ends one use of an endpoint's address, and with the last one the endpoint's part in its
    /// interface.
    fn leave(&mut self, key: EndpointKey) {
        let endpoint = &mut self.endpoints[key];
        endpoint.uses -= 1;
        if endpoint.uses == 0 {
            let (interface, address) = (endpoint.interface, endpoint.address);
            self.interfaces[interface].is_used[bit(address)] = false;
            self.leave_interface(interface);
        }
    }

    /// Discards what is pending and unfinished, from the last to the first.
    pub fn cancel(&mut self, key: EndpointKey) {
        for ticket in self.endpoints[key].pending.iter().rev() {
            self.kernel.discard(*ticket);
        }
    }

    pub fn close_endpoint(&mut self, key: EndpointKey) {
        self.cancel(key);
        for ticket in std::mem::take(&mut self.endpoints[key].pending) {
            self.give_up(ticket, Some(key));
        }
        self.leave(key);
    }

    /// Discards and reaps all that is left.
    pub fn finish(&mut self) {
        for ticket in 0..self.kernel.transfers.len() {
            self.kernel.discard(ticket);
        }
        for ticket in 0..self.kernel.transfers.len() {
            self.reap(ticket);
        }
    }
}
