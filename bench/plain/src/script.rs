//! The grammar of a script.

use crate::control::{Question, Setup};
use crate::descriptors::{Direction, TransferType};
use crate::errno::Errno;
use crate::fault::Fault;
use crate::hex;
use crate::host::Data;
use crate::kernel::{Device, KernelCall, Step};
use crate::names::Name;
use crate::reader::Framing;
use crate::tree::{Selector, Tree};
use std::collections::VecDeque;

pub struct Script {
    pub devices: Vec<(Name, Device)>,
    pub tree: Tree,
    /// Groups and bytes.
    pub packets: VecDeque<(u32, Vec<u8>)>,
    pub lines: Vec<Line>,
}

/// A line behind those of the setup.
pub enum Line {
    Steps(Vec<Step>),
    Call(Call),
}

pub enum Call {
    Now,
    List,
    Buses,
    /// Of the device of a folder.
    Probe(String),
    Match(String, Selector),
    OpenFound(Name, String),
    Hotplug,
    Open(Open),
    CloneDevice(SecondHandle),
    Claim(Claim),
    CloneInterface(SecondHandle),
    OpenEndpoint(OpenEndpoint),
    /// A call on an open device.
    Device(Name, DeviceCall),
    /// A call on a claimed interface.
    Interface(Name, InterfaceCall),
    /// A call on an open endpoint.
    Endpoint(Name, EndpointCall),
    Control(Control, Patience),
    /// Under the name of a future, at most so long.
    StartControl(Name, Control, u64),
    PollFuture(Name),
    WaitFuture(Name, Vec<Step>),
    CloseFuture(Name),
    /// Of an open device.
    Ask(Name, Question, Patience),
    /// Of an open endpoint, with this transfer size.
    OpenReader(Name, Name, usize),
    /// The endpoint's name, and the reader's.
    IntoInner(Name, Name),
    /// A call on a reader.
    Reader(Name, ReaderCall),
    /// Of an open endpoint, with this transfer size.
    OpenWriter(Name, Name, usize),
    /// The endpoint's name, and the writer's.
    WriterIntoInner(Name, Name),
    /// A call on a writer.
    Writer(Name, WriterCall),
    /// Of two open endpoints, OUT and IN.
    OpenClient(Name, Name, Name),
    /// A call on a client of messages.
    Client(Name, ClientCall),
}

impl Call {
    /// The steps of its line.
    pub fn into_steps(self) -> Vec<Step> {
        match self {
            Call::Endpoint(
                _,
                EndpointCall::Wait(patience) | EndpointCall::Transfer(_, patience),
            )
            | Call::Control(_, patience)
            | Call::Ask(_, _, patience) => patience.steps,
            Call::WaitFuture(_, steps)
            | Call::Reader(_, ReaderCall::Read(_, _, steps) | ReaderCall::Fill(_, steps))
            | Call::Writer(
                _,
                WriterCall::Write(_, steps)
                | WriterCall::Flush(steps)
                | WriterCall::FlushEnd(steps),
            )
            | Call::Client(_, ClientCall::Request(_, steps) | ClientCall::Response(steps)) => steps,
            _ => Vec::new(),
        }
    }
}

/// A control transfer.
pub struct Control {
    pub target: Target,
    pub setup: Setup,
    pub data: Data,
}

/// Whom a control transfer goes to.
pub enum Target {
    Device(Name),
    Interface(Name),
}

pub struct Open {
    pub device: Name,
    pub bus: u8,
    pub address: u8,
}

/// A second name for what a first one stands for.
pub struct SecondHandle {
    pub name: Name,
    pub first: Name,
}

pub struct Claim {
    pub device: Name,
    pub number: u8,
    pub interface: Name,
    /// Whether it is taken from its kernel driver.
    pub detaches: bool,
}

pub struct OpenEndpoint {
    pub endpoint: Name,
    pub interface: Name,
    pub address: u8,
    pub kind: TransferType,
    pub direction: Direction,
}

pub enum DeviceCall {
    Descriptor,
    Descriptors,
    Active,
    Speed,
    SetConfiguration(u8),
    Reset,
    /// Of the interface of this number.
    DetachDriver(u8),
    AttachDriver(u8),
    Close,
}

pub enum InterfaceCall {
    SetAlternate(u8),
    Alternate,
    Descriptor,
    Release,
    Close,
}

pub enum EndpointCall {
    /// At most for so long, where it has a time.
    Submit(Data, Option<u64>),
    Pending,
    Poll,
    Wait(Patience),
    Transfer(Data, Patience),
    Cancel,
    ClearHalt,
    Close,
}

pub enum ReaderCall {
    SetDepth(usize),
    SetTime(u64),
    Cancel,
    ClearHalt,
    Close,
    /// At most so many bytes.
    Read(Framing, usize, Vec<Step>),
    PollRead(Framing, usize),
    Fill(Framing, Vec<Step>),
    PollFill(Framing),
    Consume(usize),
    IsEnd,
    ConsumeEnd,
}

pub enum WriterCall {
    SetDepth(usize),
    SetTime(u64),
    Close,
    Write(Vec<u8>, Vec<Step>),
    PollWrite(Vec<u8>),
    Submit,
    End,
    Flush(Vec<Step>),
    PollFlush,
    FlushEnd(Vec<Step>),
    PollFlushEnd,
}

pub enum ClientCall {
    Request(Vec<u8>, Vec<Step>),
    Response(Vec<Step>),
    Outstanding,
    Close,
}

/// How long a call waits, in nanoseconds, and the steps that are taken meanwhile.
pub struct Patience {
    pub time: u64,
    pub steps: Vec<Step>,
}

const MOST_BYTES: usize = 65536;
const MOST_CONTROL_BYTES: usize = 65535;
const MOST_TIME: u64 = 1_000_000_000_000_000_000;

pub fn number<T: TryFrom<u64>>(word: &[u8], most: u64) -> Option<T> {
    // (19 digits fit into 64 bits)
    if !(1..=19).contains(&word.len()) {
        return None;
    }
    let mut number = 0;
    for byte in word {
        number = 10 * number + u64::from(byte.checked_sub(b'0').filter(|digit| *digit < 10)?);
    }
    T::try_from(number).ok().filter(|_| number <= most)
}

fn byte(word: &[u8]) -> Option<u8> {
    number(word, 255)
}

fn errno(word: &[u8]) -> Option<Errno> {
    number(word, 4095).filter(|errno| *errno > 0)
}

fn length(word: &[u8]) -> Option<usize> {
    number(word, MOST_BYTES as u64)
}

fn clock(word: &[u8]) -> Option<u64> {
    number(word, MOST_TIME)
}

fn time(word: &[u8]) -> Option<u64> {
    if word == b"max" {
        Some(u64::MAX)
    } else {
        clock(word)
    }
}

fn name(word: &[u8], letter: u8) -> Option<Name> {
    let digits = word.strip_prefix(&[letter])?;
    let has_leading_zero = digits.len() > 1 && digits[0] == b'0';
    number(digits, 63).filter(|_| !has_leading_zero)
}

fn bytes(word: &[u8]) -> Option<Vec<u8>> {
    match word {
        b"-" => Some(Vec::new()),
        _ => hex::bytes(word).filter(|bytes| bytes.len() <= MOST_BYTES),
    }
}

fn endpoint_kind(word: &[u8]) -> Option<(TransferType, Direction)> {
    Some(match word {
        b"bulk-in" => (TransferType::Bulk, Direction::In),
        b"bulk-out" => (TransferType::Bulk, Direction::Out),
        b"int-in" => (TransferType::Interrupt, Direction::In),
        b"int-out" => (TransferType::Interrupt, Direction::Out),
        _ => return None,
    })
}

fn kernel_call(word: &[u8]) -> Option<KernelCall> {
    Some(match word {
        b"open" => KernelCall::Open,
        b"readdesc" => KernelCall::ReadDescriptors,
        b"getconfig" => KernelCall::Configuration,
        b"setconfig" => KernelCall::SetConfiguration,
        b"reset" => KernelCall::Reset,
        b"claim" => KernelCall::Claim,
        b"detachclaim" => KernelCall::DetachAndClaim,
        b"detach" => KernelCall::Detach,
        b"attach" => KernelCall::Attach,
        b"alt" => KernelCall::SetInterface,
        b"halt" => KernelCall::ClearHalt,
        b"speed" => KernelCall::Speed,
        b"submit" => KernelCall::Submit,
        _ => return None,
    })
}

fn step(words: &[&[u8]]) -> Option<Step> {
    Some(match *words {
        [b"pkt", k, hh, data] => Step::Packet {
            device: name(k, b'k')?,
            endpoint: hex::byte(hh)?,
            bytes: bytes(data)?,
        },
        [b"ack", k, hh] => Step::Acknowledge {
            device: name(k, b'k')?,
            endpoint: hex::byte(hh)?,
        },
        [b"echo", k, output, input] => Step::Echo {
            device: name(k, b'k')?,
            output: hex::byte(output)?,
            input: hex::byte(input)?,
        },
        [b"fail", k, hh, n] => Step::Fail {
            device: name(k, b'k')?,
            endpoint: hex::byte(hh)?,
            errno: errno(n)?,
        },
        [b"unplug", k] => Step::Unplug {
            device: name(k, b'k')?,
        },
        [b"timer"] => Step::Timer,
        [b"clock", to] => Step::Clock { to: clock(to)? },
        [b"refuse", k, call, n] => Step::Refuse {
            device: name(k, b'k')?,
            call: kernel_call(call)?,
            errno: errno(n)?,
        },
        [b"reap"] => Step::Reap { ticket: None },
        [b"reap", t] => Step::Reap {
            ticket: Some(number(t, u64::from(u32::MAX))?),
        },
        _ => return None,
    })
}

/// One step or more, joined by `;`.
fn steps(words: &[&[u8]]) -> Option<Vec<Step>> {
    words.split(|word| *word == b";").map(step).collect()
}

/// The steps of a call, which may be missing.
fn own_steps(words: &[&[u8]]) -> Option<Vec<Step>> {
    match words {
        [] => Some(Vec::new()),
        [b":", words @ ..] => steps(words),
        _ => None,
    }
}

/// A time, and the steps behind it.
fn patience(words: &[&[u8]]) -> Option<Patience> {
    let (word, rest) = words.split_first()?;
    Some(Patience {
        time: time(word)?,
        steps: own_steps(rest)?,
    })
}

fn device(words: &[&[u8]]) -> Option<(Name, Device)> {
    let [k, bus, address, speed, configuration, data] = *words else {
        return None;
    };
    let device = Device {
        bus: byte(bus)?,
        address: byte(address)?,
        speed: byte(speed)?,
        configuration: byte(configuration)?,
        bytes: bytes(data)?,
        drivers: Vec::new(),
    };
    Some((name(k, b'k')?, device))
}

/// A call on an open device, without the device's name.
fn device_call(verb: &[u8], rest: &[&[u8]]) -> Option<DeviceCall> {
    Some(match (verb, rest) {
        (b"devdesc", []) => DeviceCall::Descriptor,
        (b"descriptors", []) => DeviceCall::Descriptors,
        (b"active", []) => DeviceCall::Active,
        (b"speed", []) => DeviceCall::Speed,
        (b"setconfig", [value]) => DeviceCall::SetConfiguration(byte(value)?),
        (b"reset", []) => DeviceCall::Reset,
        (b"detach", [number]) => DeviceCall::DetachDriver(byte(number)?),
        (b"attach", [number]) => DeviceCall::AttachDriver(byte(number)?),
        (b"close", []) => DeviceCall::Close,
        _ => return None,
    })
}

/// A call on a claimed interface, without the interface's name.
fn interface_call(verb: &[u8], rest: &[&[u8]]) -> Option<InterfaceCall> {
    Some(match (verb, rest) {
        (b"alt", [number]) => InterfaceCall::SetAlternate(byte(number)?),
        (b"getalt", []) => InterfaceCall::Alternate,
        (b"ifdesc", []) => InterfaceCall::Descriptor,
        (b"release", []) => InterfaceCall::Release,
        (b"close", []) => InterfaceCall::Close,
        _ => return None,
    })
}

/// A call on an open endpoint, without the endpoint's name.
fn endpoint_call(verb: &[u8], rest: &[&[u8]]) -> Option<EndpointCall> {
    Some(match (verb, rest) {
        (b"poll", []) => EndpointCall::Poll,
        (b"pending", []) => EndpointCall::Pending,
        (b"submitin", [n]) => EndpointCall::Submit(Data::In(length(n)?), None),
        (b"submitout", [data]) => EndpointCall::Submit(Data::Out(bytes(data)?), None),
        (b"dsubmitin", [n, word]) => EndpointCall::Submit(Data::In(length(n)?), Some(time(word)?)),
        (b"dsubmitout", [data, word]) => {
            EndpointCall::Submit(Data::Out(bytes(data)?), Some(time(word)?))
        }
        (b"wait", rest) => EndpointCall::Wait(patience(rest)?),
        (b"xferin", [n, rest @ ..]) => {
            EndpointCall::Transfer(Data::In(length(n)?), patience(rest)?)
        }
        (b"xferout", [data, rest @ ..]) => {
            EndpointCall::Transfer(Data::Out(bytes(data)?), patience(rest)?)
        }
        (b"cancel", []) => EndpointCall::Cancel,
        (b"halt", []) => EndpointCall::ClearHalt,
        (b"close", []) => EndpointCall::Close,
        _ => return None,
    })
}

fn read_length(word: &[u8]) -> Option<usize> {
    length(word).filter(|length| *length > 0)
}

/// A call that reads, where `s` before its name makes it stop at a short packet.
fn reading_call(verb: &[u8], rest: &[&[u8]], framing: Framing) -> Option<ReaderCall> {
    Some(match (verb, rest) {
        (b"read", [most, rest @ ..]) => {
            ReaderCall::Read(framing, read_length(most)?, own_steps(rest)?)
        }
        (b"fill", rest) => ReaderCall::Fill(framing, own_steps(rest)?),
        (b"consume", [count]) => ReaderCall::Consume(length(count)?),
        _ => return None,
    })
}

/// A call on a reader, without the reader's name.
fn reader_call(verb: &[u8], rest: &[&[u8]]) -> Option<ReaderCall> {
    use Framing::{Plain, UntilShort};
    Some(match (verb, rest) {
        (b"num", [count]) => ReaderCall::SetDepth(length(count)?),
        (b"timeout", [word]) => ReaderCall::SetTime(time(word)?),
        (b"cancel", []) => ReaderCall::Cancel,
        (b"halt", []) => ReaderCall::ClearHalt,
        (b"close", []) => ReaderCall::Close,
        (b"pollread", [most]) => ReaderCall::PollRead(Plain, read_length(most)?),
        (b"pollsread", [most]) => ReaderCall::PollRead(UntilShort, read_length(most)?),
        (b"pollfill", []) => ReaderCall::PollFill(Plain),
        (b"pollsfill", []) => ReaderCall::PollFill(UntilShort),
        (b"isend", []) => ReaderCall::IsEnd,
        (b"endmsg", []) => ReaderCall::ConsumeEnd,
        ([b's', verb @ ..], rest) => reading_call(verb, rest, UntilShort)?,
        (verb, rest) => reading_call(verb, rest, Plain)?,
    })
}

/// A call on a writer, without the writer's name.
fn writer_call(verb: &[u8], rest: &[&[u8]]) -> Option<WriterCall> {
    Some(match (verb, rest) {
        (b"num", [count]) => WriterCall::SetDepth(length(count)?),
        (b"timeout", [word]) => WriterCall::SetTime(time(word)?),
        (b"close", []) => WriterCall::Close,
        (b"write", [data, rest @ ..]) => WriterCall::Write(bytes(data)?, own_steps(rest)?),
        (b"pollwrite", [data]) => WriterCall::PollWrite(bytes(data)?),
        (b"wsubmit", []) => WriterCall::Submit,
        (b"wend", []) => WriterCall::End,
        (b"flush", rest) => WriterCall::Flush(own_steps(rest)?),
        (b"pollflush", []) => WriterCall::PollFlush,
        (b"flushend", rest) => WriterCall::FlushEnd(own_steps(rest)?),
        (b"pollflushend", []) => WriterCall::PollFlushEnd,
        _ => return None,
    })
}

/// A call on a client of messages, without the client's name.
fn client_call(verb: &[u8], rest: &[&[u8]]) -> Option<ClientCall> {
    Some(match (verb, rest) {
        (b"mreq", [data, rest @ ..]) => ClientCall::Request(bytes(data)?, own_steps(rest)?),
        (b"mresp", rest) => ClientCall::Response(own_steps(rest)?),
        (b"mcount", []) => ClientCall::Outstanding,
        (b"close", []) => ClientCall::Close,
        _ => return None,
    })
}

fn target(word: &[u8]) -> Option<Target> {
    match name(word, b'd') {
        Some(device) => Some(Target::Device(device)),
        None => name(word, b'i').map(Target::Interface),
    }
}

/// The bits of a request's type and recipient.
fn request_kind(kind: &[u8], recipient: &[u8]) -> Option<u8> {
    let kind = match kind {
        b"standard" => 0,
        b"class" => 0x20,
        b"vendor" => 0x40,
        _ => return None,
    };
    let recipient = match recipient {
        b"device" => 0,
        b"interface" => 1,
        b"endpoint" => 2,
        b"other" => 3,
        _ => return None,
    };
    Some(kind | recipient)
}

/// A control transfer, and the words behind it: what a data word says is told by its reader.
fn control<'w, 'a>(
    words: &'w [&'a [u8]],
    data: fn(&[u8]) -> Option<Data>,
) -> Option<(Control, &'w [&'a [u8]])> {
    let [x, kind, recipient, request, value, index, word, rest @ ..] = words else {
        return None;
    };
    let setup = Setup {
        kind: request_kind(kind, recipient)?,
        request: hex::byte(request)?,
        value: hex_word(value)?,
        index: hex_word(index)?,
    };
    let control = Control {
        target: target(x)?,
        setup,
        data: data(word)?,
    };
    Some((control, rest))
}

fn control_in(word: &[u8]) -> Option<Data> {
    number(word, MOST_CONTROL_BYTES as u64).map(Data::In)
}

fn control_out(word: &[u8]) -> Option<Data> {
    bytes(word)
        .filter(|bytes| bytes.len() <= MOST_CONTROL_BYTES)
        .map(Data::Out)
}

fn control_call(words: &[&[u8]], data: fn(&[u8]) -> Option<Data>) -> Option<Call> {
    let (control, rest) = control(words, data)?;
    Some(Call::Control(control, patience(rest)?))
}

fn start_call(f: &[u8], words: &[&[u8]], data: fn(&[u8]) -> Option<Data>) -> Option<Call> {
    match control(words, data)? {
        (control, [word]) => Some(Call::StartControl(name(f, b'f')?, control, time(word)?)),
        _ => None,
    }
}

/// A question to a device, its name first.
fn question(verb: &[u8], d: &[u8], words: &[&[u8]]) -> Option<Call> {
    let (question, rest) = match (verb, words) {
        (b"getdesc", [kind, index, language, rest @ ..]) => {
            let question = Question::Descriptor {
                kind: byte(kind)?,
                index: byte(index)?,
                language: hex_word(language)?,
            };
            (question, rest)
        }
        (b"langs", rest) => (Question::Languages, rest),
        (b"string", [index, language, rest @ ..]) => {
            let question = Question::Text {
                index: byte(index).filter(|index| *index > 0)?,
                language: hex_word(language)?,
            };
            (question, rest)
        }
        _ => return None,
    };
    Some(Call::Ask(name(d, b'd')?, question, patience(rest)?))
}

/// A call on what the name stands for, whose letter tells its kind.
fn call_on(verb: &[u8], word: &[u8], rest: &[&[u8]]) -> Option<Call> {
    Some(match word.first()? {
        b'd' => Call::Device(name(word, b'd')?, device_call(verb, rest)?),
        b'i' => Call::Interface(name(word, b'i')?, interface_call(verb, rest)?),
        b'e' => Call::Endpoint(name(word, b'e')?, endpoint_call(verb, rest)?),
        b'f' => future_call(name(word, b'f')?, verb, rest)?,
        b'r' => Call::Reader(name(word, b'r')?, reader_call(verb, rest)?),
        b'w' => Call::Writer(name(word, b'w')?, writer_call(verb, rest)?),
        b'm' => Call::Client(name(word, b'm')?, client_call(verb, rest)?),
        _ => return None,
    })
}

fn future_call(name: Name, verb: &[u8], rest: &[&[u8]]) -> Option<Call> {
    Some(match (verb, rest) {
        (b"fpoll", []) => Call::PollFuture(name),
        (b"fwait", rest) => Call::WaitFuture(name, own_steps(rest)?),
        (b"close", []) => Call::CloseFuture(name),
        _ => return None,
    })
}

fn second_handle(new: &[u8], old: &[u8], letter: u8) -> Option<SecondHandle> {
    Some(SecondHandle {
        name: name(new, letter)?,
        first: name(old, letter)?,
    })
}

fn claim(d: &[u8], n: &[u8], i: &[u8], detaches: bool) -> Option<Claim> {
    Some(Claim {
        device: name(d, b'd')?,
        number: byte(n)?,
        interface: name(i, b'i')?,
        detaches,
    })
}

fn text(word: &[u8]) -> Option<String> {
    String::from_utf8(word.to_vec()).ok()
}

/// `/`, or names with a slash before each.
fn path(word: &[u8]) -> Option<String> {
    let names = word.strip_prefix(b"/")?;
    let is_name = |name: &[u8]| !matches!(name, b"" | b"." | b"..");
    let is_path = names.is_empty() || names.split(|byte| *byte == b'/').all(is_name);
    is_path.then(|| text(word))?
}

fn file_name(word: &[u8]) -> Option<String> {
    (!word.contains(&b'/')).then(|| text(word))?
}

/// What stands behind `=`, or bytes.
fn value(word: &[u8]) -> Option<Vec<u8>> {
    match word {
        [b'=', text @ ..] => Some(text.to_vec()),
        _ => bytes(word),
    }
}

fn hex_word(digits: &[u8]) -> Option<u16> {
    let (high, low) = digits.split_at_checked(2)?;
    Some(u16::from_be_bytes([hex::byte(high)?, hex::byte(low)?]))
}

fn selector(mut words: &[&[u8]]) -> Option<Selector> {
    let mut selector = Selector::default();
    while !words.is_empty() {
        words = match *words {
            [b"vid", vid, ref rest @ ..] => {
                selector.vendor = Some(hex_word(vid)?);
                rest
            }
            [b"vidpid", vid, pid, ref rest @ ..] => {
                selector.vendor = Some(hex_word(vid)?);
                selector.product = Some(hex_word(pid)?);
                rest
            }
            [b"class", class, ref rest @ ..] => {
                selector.class[0] = Some(hex::byte(class)?);
                rest
            }
            [b"classsub", class, sub, ref rest @ ..] => {
                selector.class[0] = Some(hex::byte(class)?);
                selector.class[1] = Some(hex::byte(sub)?);
                rest
            }
            [b"classsubproto", class, sub, protocol, ref rest @ ..] => {
                selector.class = [class, sub, protocol].map(hex::byte);
                selector.class.iter().all(Option::is_some).then_some(rest)?
            }
            [b"serial", serial, ref rest @ ..] => {
                selector.serial = Some(String::from_utf8(value(serial)?).ok()?);
                rest
            }
            _ => return None,
        };
    }
    Some(selector)
}

fn call(words: &[&[u8]]) -> Option<Call> {
    Some(match *words {
        [b"now"] => Call::Now,
        [b"list"] => Call::List,
        [b"buses"] => Call::Buses,
        [b"probe", folder] => Call::Probe(path(folder)?),
        [b"match", folder, ref rest @ ..] => Call::Match(path(folder)?, selector(rest)?),
        [b"openpath", d, folder] => Call::OpenFound(name(d, b'd')?, path(folder)?),
        [b"hotplug"] => Call::Hotplug,
        [b"open", d, bus, address] => Call::Open(Open {
            device: name(d, b'd')?,
            bus: byte(bus)?,
            address: byte(address)?,
        }),
        [b"clone", new @ [b'd', ..], old] => Call::CloneDevice(second_handle(new, old, b'd')?),
        [b"clone", new, old] => Call::CloneInterface(second_handle(new, old, b'i')?),
        [b"claim", d, n, i] => Call::Claim(claim(d, n, i, false)?),
        [b"detachclaim", d, n, i] => Call::Claim(claim(d, n, i, true)?),
        [b"endpoint", e, i, hh, word] => {
            let (kind, direction) = endpoint_kind(word)?;
            Call::OpenEndpoint(OpenEndpoint {
                endpoint: name(e, b'e')?,
                interface: name(i, b'i')?,
                address: hex::byte(hh)?,
                kind,
                direction,
            })
        }
        [b"reader", r, e, n] => Call::OpenReader(name(r, b'r')?, name(e, b'e')?, length(n)?),
        [b"writer", w, e, n] => Call::OpenWriter(name(w, b'w')?, name(e, b'e')?, length(n)?),
        [b"msg", m, output, input] => {
            Call::OpenClient(name(m, b'm')?, name(output, b'e')?, name(input, b'e')?)
        }
        [b"inner", e, w @ [b'w', ..]] => Call::WriterIntoInner(name(e, b'e')?, name(w, b'w')?),
        [b"inner", e, r] => Call::IntoInner(name(e, b'e')?, name(r, b'r')?),
        [b"ctlin", ref words @ ..] => control_call(words, control_in)?,
        [b"ctlout", ref words @ ..] => control_call(words, control_out)?,
        [b"fin", f, ref words @ ..] => start_call(f, words, control_in)?,
        [b"fout", f, ref words @ ..] => start_call(f, words, control_out)?,
        [
            verb @ (b"getdesc" | b"langs" | b"string"),
            d,
            ref words @ ..,
        ] => question(verb, d, words)?,
        [verb, word, ref rest @ ..] => call_on(verb, word, rest)?,
        _ => return None,
    })
}

/// Splits a line at its spaces, where it has no other bytes than a line may have.
fn split<'a>(line: &'a [u8], words: &mut Vec<&'a [u8]>) -> Option<()> {
    words.clear();
    if !line.iter().all(|byte| matches!(byte, b' '..=b'~')) {
        return None;
    }
    words.extend(
        line.split(|byte| *byte == b' ')
            .filter(|word| !word.is_empty()),
    );
    Some(())
}

impl Script {
    /// Reads a script of at most 2^20 bytes.
    pub fn parse(text: &[u8]) -> Result<Script, Fault> {
        let mut script = Script {
            devices: Vec::new(),
            tree: Tree::default(),
            packets: VecDeque::new(),
            lines: Vec::new(),
        };
        let mut words = Vec::new();
        for (number, line) in (1..).zip(text.split(|byte| *byte == b'\n')) {
            let line = line.strip_suffix(b"\r").unwrap_or(line);
            let first = line.iter().find(|byte| **byte != b' ');
            if matches!(first, None | Some(b'#')) {
                continue;
            }
            split(line, &mut words)
                .and_then(|()| script.add(&words))
                .ok_or(Fault::Malformed(number))?;
        }
        Ok(script)
    }

    fn add(&mut self, words: &[&[u8]]) -> Option<()> {
        if let [
            b"attr" | b"deny" | b"child" | b"link" | b"entry" | b"root" | b"uevent",
            ..,
        ] = words
        {
            return self.lines.is_empty().then(|| self.set(words))?;
        }
        let line = match words {
            [b"device", words @ ..] => return self.add_device(device(words)?),
            [b"driver", k, number] => return self.bind_driver(name(k, b'k')?, byte(number)?),
            [b"!", words @ ..] => Line::Steps(steps(words)?),
            _ => Line::Call(call(words)?),
        };
        self.lines.push(line);
        Some(())
    }

    /// A setup line stands before all others, and no name and no place is used twice.
    fn add_device(&mut self, (name, device): (Name, Device)) -> Option<()> {
        let is_other = |(n, d): &(Name, Device)| {
            *n != name && (d.bus, d.address) != (device.bus, device.address)
        };
        if !self.lines.is_empty() || !self.devices.iter().all(is_other) {
            return None;
        }
        self.devices.push((name, device));
        Some(())
    }

    /// A line that sets a place of the tree, or a packet.
    fn set(&mut self, words: &[&[u8]]) -> Option<()> {
        match *words {
            [b"attr", folder, name, content] => {
                let content = Ok(value(content)?);
                self.tree.set(&path(folder)?, &file_name(name)?, content);
            }
            [b"deny", folder, name, code] => {
                self.tree
                    .set(&path(folder)?, &file_name(name)?, Err(errno(code)?));
            }
            [b"child", folder, name] => self.tree.add_child(&path(folder)?, &file_name(name)?),
            [b"link", folder, name, target] => {
                self.tree
                    .set_link(&path(folder)?, &file_name(name)?, &text(target)?);
            }
            [b"entry", name, folder] => self.tree.set_entry(&file_name(name)?, &path(folder)?),
            [b"root", code] => self.tree.refuse(errno(code)?),
            [b"uevent", groups, packet] => {
                let groups = number(groups, u32::MAX.into())?;
                self.packets.push_back((groups, value(packet)?));
            }
            _ => return None,
        }
        Some(())
    }

    /// A driver is bound to a device that stands before it.
    fn bind_driver(&mut self, name: Name, number: u8) -> Option<()> {
        if !self.lines.is_empty() {
            return None;
        }
        if let Some((_, device)) = self.devices.iter_mut().find(|(n, _)| *n == name) {
            device.drivers.push(number);
        }
        Some(())
    }
}
