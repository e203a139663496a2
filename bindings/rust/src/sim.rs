//! Simulated devices, for tests.
//!
//! A [`Bench`] takes the place of the system's buses for the thread that made it. Devices are
//! plugged in before the first call. A device is a value of [`SimDevice`]: closures ([`Closures`]),
//! a list of replies ([`Replies`]), or a type of the test's own. It is asked when the host waits for
//! it: until then a packet waits in the device.
//!
//! ```
//! use usb_host_core as nusb;
//! use nusb::sim::{Bench, Closures, InReply, Plug};
//!
//! # if nusb::sim::has_answers() {
//! let bench = Bench::new();
//! let device = Closures::new().on_poll(|_| InReply::Packet(vec![1, 2, 3]));
//! bench.plug(Plug::new(include_bytes!("../tests/two_bulk.bin")), device);
//! assert!(bench.script().contains("device k0 1 2 3 1 1201"));
//! # }
//! ```

mod plug;

pub use crate::answers::{Answers, Program};
pub(crate) use plug::hub_path;
pub use plug::Plug;

use crate::session::{Session, PROBE};
use crate::tree::write_tree;
use crate::words::{hex, time};
use crate::Error;
use std::cell::RefCell;
use std::collections::{BTreeMap, VecDeque};
use std::path::Path;
use std::sync::{Arc, Mutex, MutexGuard, PoisonError};
use std::time::Duration;

use crate::transfer::{ControlIn, ControlOut};

/// What a device does when the host asks it for a packet or for the data of a control request.
#[derive(Debug, Clone, PartialEq, Eq)]
pub enum InReply {
    /// It sends this packet. One that is shorter than the endpoint's maximum packet size ends the
    /// transfer; one that is longer makes it fail.
    Packet(Vec<u8>),
    /// It has nothing to send now.
    Nak,
    /// It stalls the endpoint.
    Stall,
    /// The transfer fails with this errno (1 to 4094), as by a fault of the bus.
    Fail(u16),
    /// It is unplugged.
    Unplug,
}

/// What a device does with a packet or with a control request that has data for it.
#[derive(Debug, Clone, Copy, PartialEq, Eq)]
pub enum OutReply {
    /// It takes it.
    Ack,
    /// It does not take it now: the host tries again when it waits next.
    Nak,
    /// It stalls the endpoint.
    Stall,
    /// The transfer fails with this errno (1 to 4094), as by a fault of the bus.
    Fail(u16),
    /// It is unplugged.
    Unplug,
}

/// A simulated device. While it is asked it must not call the host.
pub trait SimDevice: Send + 'static {
    /// What it does when an IN endpoint is asked for a packet.
    fn poll(&mut self, address: u8) -> InReply {
        let _ = address;
        InReply::Nak
    }

    /// What it does with a packet for an OUT endpoint.
    fn out(&mut self, address: u8, packet: &[u8]) -> OutReply {
        let _ = (address, packet);
        OutReply::Ack
    }

    /// What it does with a control request that asks for data. Requests for the descriptors and the
    /// strings of its [`Plug`] do not come here.
    fn control_in(&mut self, request: ControlIn) -> InReply {
        let _ = request;
        InReply::Stall
    }

    /// What it does with a control request that has data for it, or none at all.
    fn control_out(&mut self, request: ControlOut<'_>) -> OutReply {
        let _ = request;
        OutReply::Stall
    }

    /// It is reset.
    fn reset(&mut self) {}
}

type OnPoll = Box<dyn FnMut(u8) -> InReply + Send>;
type OnOut = Box<dyn FnMut(u8, &[u8]) -> OutReply + Send>;
type OnControlIn = Box<dyn FnMut(ControlIn) -> InReply + Send>;
type OnControlOut = Box<dyn FnMut(ControlOut<'_>) -> OutReply + Send>;
type OnReset = Box<dyn FnMut() + Send>;

/// A device of closures. What has none is as in [`SimDevice`].
#[derive(Default)]
pub struct Closures {
    poll: Option<OnPoll>,
    out: Option<OnOut>,
    control_in: Option<OnControlIn>,
    control_out: Option<OnControlOut>,
    reset: Option<OnReset>,
}

impl Closures {
    /// A device without closures.
    pub fn new() -> Closures {
        Closures::default()
    }

    /// What it does when an IN endpoint is asked for a packet.
    pub fn on_poll(mut self, f: impl FnMut(u8) -> InReply + Send + 'static) -> Closures {
        self.poll = Some(Box::new(f));
        self
    }

    /// What it does with a packet for an OUT endpoint.
    pub fn on_out(mut self, f: impl FnMut(u8, &[u8]) -> OutReply + Send + 'static) -> Closures {
        self.out = Some(Box::new(f));
        self
    }

    /// What it does with a control request that asks for data.
    pub fn on_control_in(
        mut self,
        f: impl FnMut(ControlIn) -> InReply + Send + 'static,
    ) -> Closures {
        self.control_in = Some(Box::new(f));
        self
    }

    /// What it does with a control request that has data for it, or none at all.
    pub fn on_control_out(
        mut self,
        f: impl FnMut(ControlOut<'_>) -> OutReply + Send + 'static,
    ) -> Closures {
        self.control_out = Some(Box::new(f));
        self
    }

    /// What it does when it is reset.
    pub fn on_reset(mut self, f: impl FnMut() + Send + 'static) -> Closures {
        self.reset = Some(Box::new(f));
        self
    }
}

impl SimDevice for Closures {
    fn poll(&mut self, address: u8) -> InReply {
        self.poll.as_mut().map_or(InReply::Nak, |f| f(address))
    }

    fn out(&mut self, address: u8, packet: &[u8]) -> OutReply {
        self.out.as_mut().map_or(OutReply::Ack, |f| f(address, packet))
    }

    fn control_in(&mut self, request: ControlIn) -> InReply {
        self.control_in.as_mut().map_or(InReply::Stall, |f| f(request))
    }

    fn control_out(&mut self, request: ControlOut<'_>) -> OutReply {
        self.control_out.as_mut().map_or(OutReply::Stall, |f| f(request))
    }

    fn reset(&mut self) {
        if let Some(f) = self.reset.as_mut() {
            f();
        }
    }
}

/// A device of a list of replies, each for an endpoint. It makes the first one when that endpoint
/// is asked, and has nothing to say to any other meanwhile. Control requests count as endpoint 80
/// where they ask for data, else as endpoint 00.
#[derive(Debug, Default, Clone)]
pub struct Replies {
    replies: VecDeque<(u8, InReply)>,
}

impl Replies {
    /// A device without replies.
    pub fn new() -> Replies {
        Replies::default()
    }

    fn then(mut self, address: u8, reply: InReply) -> Replies {
        self.replies.push_back((address, reply));
        self
    }

    /// Then it sends a packet to this IN endpoint.
    pub fn packet(self, address: u8, bytes: &[u8]) -> Replies {
        self.then(address, InReply::Packet(bytes.to_vec()))
    }

    /// Then it takes a packet of this OUT endpoint.
    pub fn accept(self, address: u8) -> Replies {
        self.then(address, InReply::Packet(Vec::new()))
    }

    /// Then this endpoint has nothing to send, or takes nothing, once.
    pub fn nak(self, address: u8) -> Replies {
        self.then(address, InReply::Nak)
    }

    /// Then it stalls this endpoint.
    pub fn stall(self, address: u8) -> Replies {
        self.then(address, InReply::Stall)
    }

    /// Then a transfer of this endpoint fails with this errno.
    pub fn fail(self, address: u8, errno: u16) -> Replies {
        self.then(address, InReply::Fail(errno))
    }

    /// Then it is unplugged, when this endpoint is asked.
    pub fn unplug(self, address: u8) -> Replies {
        self.then(address, InReply::Unplug)
    }

    fn next(&mut self, address: u8) -> InReply {
        match self.replies.front() {
            Some((first, _)) if *first == address => {
                self.replies.pop_front().map_or(InReply::Nak, |it| it.1)
            }
            _ => InReply::Nak,
        }
    }

    fn next_out(&mut self, address: u8) -> OutReply {
        match self.next(address) {
            InReply::Packet(_) => OutReply::Ack,
            InReply::Nak => OutReply::Nak,
            InReply::Stall => OutReply::Stall,
            InReply::Fail(errno) => OutReply::Fail(errno),
            InReply::Unplug => OutReply::Unplug,
        }
    }
}

impl SimDevice for Replies {
    fn poll(&mut self, address: u8) -> InReply {
        self.next(address)
    }

    fn out(&mut self, address: u8, _: &[u8]) -> OutReply {
        self.next_out(address)
    }

    fn control_in(&mut self, _: ControlIn) -> InReply {
        self.next(0x80)
    }

    fn control_out(&mut self, _: ControlOut<'_>) -> OutReply {
        self.next_out(0x00)
    }
}

/// What a test does to one contact with a device: a packet that goes or is asked for, or a control
/// request.
#[derive(Debug, Clone, Copy, PartialEq, Eq)]
pub enum Fault {
    /// Nothing: the device is asked.
    Pass,
    /// The device is not asked, and has nothing to say.
    Nak,
    /// The endpoint stalls.
    Stall,
    /// The transfer fails with this errno (1 to 4094).
    Fail(u16),
    /// The device's packet is cut to so many bytes.
    Cut(usize),
    /// The device is unplugged.
    Unplug,
}

impl Fault {
    fn reply(self) -> Option<OutReply> {
        match self {
            Fault::Pass | Fault::Cut(_) => None,
            Fault::Nak => Some(OutReply::Nak),
            Fault::Stall => Some(OutReply::Stall),
            Fault::Fail(errno) => Some(OutReply::Fail(errno)),
            Fault::Unplug => Some(OutReply::Unplug),
        }
    }
}

/// A device that is plugged in.
pub(crate) struct Plugged {
    pub(crate) plug: Plug,
    device: Box<dyn SimDevice>,
    faults: BTreeMap<u8, VecDeque<Fault>>,
    is_gone: bool,
}

impl Plugged {
    pub(crate) fn is_gone(&self) -> bool {
        self.is_gone
    }

    pub(crate) fn leave(&mut self) {
        self.is_gone = true;
    }

    pub(crate) fn reset(&mut self) {
        self.device.reset();
        self.leave();
    }

    fn next_fault(&mut self, address: u8) -> Fault {
        let faults = self.faults.get_mut(&address);
        faults.and_then(VecDeque::pop_front).unwrap_or(Fault::Pass)
    }

    fn ask(&mut self, address: u8, ask: impl FnOnce(&mut Plugged) -> InReply) -> InReply {
        let fault = self.next_fault(address);
        match fault.reply() {
            None => match (ask(self), fault) {
                (InReply::Packet(mut bytes), Fault::Cut(len)) => {
                    bytes.truncate(len);
                    InReply::Packet(bytes)
                }
                (reply, _) => reply,
            },
            Some(OutReply::Ack | OutReply::Nak) => InReply::Nak,
            Some(OutReply::Stall) => InReply::Stall,
            Some(OutReply::Fail(errno)) => InReply::Fail(errno),
            Some(OutReply::Unplug) => InReply::Unplug,
        }
    }

    pub(crate) fn poll(&mut self, address: u8) -> InReply {
        self.ask(address, |it| it.device.poll(address))
    }

    pub(crate) fn control_in(&mut self, request: ControlIn) -> InReply {
        self.ask(0x80, |it| match it.plug.standard(request) {
            Some(bytes) => InReply::Packet(bytes),
            None => it.device.control_in(request),
        })
    }

    pub(crate) fn out(&mut self, address: u8, packet: &[u8]) -> OutReply {
        let reply = self.next_fault(address).reply();
        reply.unwrap_or_else(|| self.device.out(address, packet))
    }

    pub(crate) fn control_out(&mut self, request: ControlOut<'_>) -> OutReply {
        let reply = self.next_fault(0x00).reply();
        reply.unwrap_or_else(|| self.device.control_out(request))
    }
}

/// A call to the kernel that can be refused.
#[derive(Debug, Clone, Copy, PartialEq, Eq)]
pub enum KernelCall {
    /// Opens the device.
    Open,
    /// Reads its descriptors.
    ReadDescriptors,
    /// Tells its active configuration.
    GetConfiguration,
    /// Sets its active configuration.
    SetConfiguration,
    /// Resets it.
    Reset,
    /// Claims an interface.
    Claim,
    /// Detaches the kernel's driver of an interface and claims it.
    DetachAndClaim,
    /// Detaches the kernel's driver.
    Detach,
    /// Attaches the kernel's driver.
    Attach,
    /// Sets an alternate setting.
    SetAlternate,
    /// Clears a halt.
    ClearHalt,
    /// Tells the speed.
    Speed,
    /// Accepts a transfer.
    Submit,
}

impl KernelCall {
    fn word(self) -> &'static str {
        match self {
            KernelCall::Open => "open",
            KernelCall::ReadDescriptors => "readdesc",
            KernelCall::GetConfiguration => "getconfig",
            KernelCall::SetConfiguration => "setconfig",
            KernelCall::Reset => "reset",
            KernelCall::Claim => "claim",
            KernelCall::DetachAndClaim => "detachclaim",
            KernelCall::Detach => "detach",
            KernelCall::Attach => "attach",
            KernelCall::SetAlternate => "alt",
            KernelCall::ClearHalt => "halt",
            KernelCall::Speed => "speed",
            KernelCall::Submit => "submit",
        }
    }
}

pub(crate) type Shared = Arc<Mutex<Session>>;

thread_local! {
    static CURRENT: RefCell<Option<Shared>> = const { RefCell::new(None) };
}

/// The session behind a handle. One whose test has panicked can still be closed.
pub(crate) fn lock(shared: &Shared) -> MutexGuard<'_, Session> {
    shared.lock().unwrap_or_else(PoisonError::into_inner)
}

/// The session of this thread's bench.
pub(crate) fn current() -> Result<Shared, Error> {
    CURRENT.with_borrow(Clone::clone).ok_or_else(|| Error {
        kind: crate::ErrorKind::NotFound,
        code: None,
        message: "this thread has no bench of simulated devices".to_owned(),
    })
}

/// What answers scripts: the static library, where it is linked, else the program that the
/// environment variable `NUSB_SIM` names.
#[cfg(usb_core_c)]
fn default_answers() -> Option<Box<dyn Answers>> {
    Some(Box::new(crate::proved::Library::new()))
}

/// What answers scripts: the program that the environment variable `NUSB_SIM` names.
#[cfg(not(usb_core_c))]
fn default_answers() -> Option<Box<dyn Answers>> {
    Program::from_environment().map(|program| Box::new(program) as Box<dyn Answers>)
}

/// Whether scripts can be answered here: whether the static library is linked, or `NUSB_SIM` names
/// the program that does.
pub fn has_answers() -> bool {
    default_answers().is_some()
}

/// The simulated devices that [`list_devices`][crate::list_devices] finds on this thread, and the
/// script of what was done with them. A thread has at most one bench.
pub struct Bench {
    shared: Shared,
}

impl Bench {
    /// A bench without devices, for this thread. Its answers come from the static library, where it
    /// is linked, else from the program that the environment variable `NUSB_SIM` names. Panics
    /// where there is neither.
    #[allow(clippy::new_without_default)]
    pub fn new() -> Bench {
        let answers = default_answers();
        Bench::of(answers.expect("NUSB_SIM names a program, or the static library is linked"))
    }

    /// A bench whose answers come from elsewhere. Panics where this thread has one already.
    pub fn with_answers(answers: impl Answers + 'static) -> Bench {
        Bench::of(Box::new(answers))
    }

    fn of(answers: Box<dyn Answers>) -> Bench {
        let shared = Arc::new(Mutex::new(Session::new(answers)));
        CURRENT.with_borrow_mut(|current| {
            assert!(current.is_none(), "this thread has a bench already");
            *current = Some(shared.clone());
        });
        Bench { shared }
    }

    /// Plugs a device in, which is possible before the first call alone.
    pub fn plug(&self, plug: Plug, device: impl SimDevice) -> Socket {
        let mut session = lock(&self.shared);
        let number = session.devices.len();
        let plug = plug.placed(number);
        write_tree(&mut session, number, &plug);
        session.devices.push(Plugged {
            plug,
            device: Box::new(device),
            faults: BTreeMap::new(),
            is_gone: false,
        });
        Socket { shared: self.shared.clone(), number }
    }

    /// Lets [`watch_devices`][crate::watch_devices] tell that a device has come, behind what was
    /// declared before. This is possible before the first call alone.
    pub fn announce(&self, socket: &Socket) {
        self.packet(socket, "add");
    }

    /// Lets [`watch_devices`][crate::watch_devices] tell that a device has gone. This is possible
    /// before the first call alone.
    pub fn announce_loss(&self, socket: &Socket) {
        self.packet(socket, "remove");
    }

    fn packet(&self, socket: &Socket, action: &str) {
        let mut session = lock(&self.shared);
        let packet = session.devices[socket.number].plug.udev_packet(action);
        session.set_up(&format!("uevent 2 {}", hex(&packet)));
    }

    /// Lets time go by on the model's clock. Nothing else moves it but a control transfer whose
    /// time is up.
    pub fn advance(&self, duration: Duration) {
        let mut session = lock(&self.shared);
        let now = session.what_if("now");
        let now = now.strip_prefix("now ").map_or(0, crate::words::number::<u64>);
        let later = time(Duration::from_nanos(now) + duration);
        session.step(&[format!("clock {later}"), "timer".to_owned()]);
    }

    /// The script so far: the program `nusb_sim` answers it as it was answered here.
    pub fn script(&self) -> String {
        lock(&self.shared).script().to_owned()
    }

    /// Writes the script to a file.
    pub fn save(&self, path: impl AsRef<Path>) -> std::io::Result<()> {
        std::fs::write(path, self.script())
    }

    /// The answers of all calls so far, and a line for the fate of each transfer, as if all ended
    /// now.
    pub fn output(&self) -> String {
        lock(&self.shared).output()
    }

    /// The lines for the fates of the transfers, as if all ended now: number, device, endpoint,
    /// status, count of bytes, and who took it.
    pub fn fates(&self) -> Vec<String> {
        let output = self.output();
        let fates = output.lines().filter(|line| line.starts_with("ticket "));
        fates.map(str::to_owned).collect()
    }
}

impl Drop for Bench {
    fn drop(&mut self) {
        CURRENT.with_borrow_mut(|current| *current = None);
    }
}

/// Where a device is plugged in: what a test does to it.
#[derive(Clone)]
pub struct Socket {
    shared: Shared,
    number: usize,
}

impl Socket {
    /// Does these faults to the next contacts with an endpoint, one to each, behind those that are
    /// waiting. Control requests count as endpoint 80 where they ask for data, else as 00.
    pub fn inject(&self, address: u8, faults: impl IntoIterator<Item = Fault>) {
        let mut session = lock(&self.shared);
        let waiting = session.devices[self.number].faults.entry(address).or_default();
        waiting.extend(faults);
    }

    /// Refuses the next call of this kind with an errno, from 1 to 4094.
    pub fn refuse(&self, call: KernelCall, errno: u16) {
        assert!((1..PROBE).contains(&errno), "an errno is from 1 to 4094");
        let step = format!("refuse k{} {} {errno}", self.number, call.word());
        let mut session = lock(&self.shared);
        session.may_refuse(self.number);
        session.step(&[step]);
    }

    /// Unplugs the device.
    pub fn unplug(&self) {
        let mut session = lock(&self.shared);
        session.devices[self.number].leave();
        session.step(&[format!("unplug k{}", self.number)]);
    }
}
