//! The lines of a script that stand for nusb's calls: the whole list.
//!
//! docs/SCRIPT.md says what each line does. The answers are those of the session: nothing here
//! decides one.

use crate::enumeration::{BusWords, DeviceWords};
use crate::error::ActiveConfigurationError;
use crate::session::{Session, Stream, Ticket, Work};
use crate::told::{
    bytes_or_error, data_of, descriptor_error, done_of, done_or_error, io_error, is_none,
    is_timed_out, unexpected, Done,
};
use crate::transfer::{ControlIn, ControlOut, ControlType, Recipient, TransferError};
use crate::words::{hex, number, text_of, time, whole_packets, MOST_BYTES};
use crate::{DeviceSelector, Error, GetDescriptorError, Speed};
use std::collections::VecDeque;
use std::io;
use std::time::Duration;

/// An open endpoint: its name, where it is, and its maximum packet size in bytes.
#[derive(Clone, Copy)]
pub(crate) struct Line {
    pub(crate) name: u32,
    pub(crate) device: usize,
    pub(crate) address: u8,
    pub(crate) max: usize,
}

/// A handle to which control requests go.
#[derive(Clone, Copy)]
pub(crate) enum Target {
    Device(u32),
    Interface(u32),
}

impl Target {
    fn name(self) -> String {
        match self {
            Target::Device(name) => format!("d{name}"),
            Target::Interface(name) => format!("i{name}"),
        }
    }
}

/// The five words of CTL.
fn request_words(
    control_type: ControlType,
    recipient: Recipient,
    (request, value, index): (u8, u16, u16),
) -> String {
    let control_type = match control_type {
        ControlType::Standard => "standard",
        ControlType::Class => "class",
        ControlType::Vendor => "vendor",
    };
    let recipient = match recipient {
        Recipient::Device => "device",
        Recipient::Interface => "interface",
        Recipient::Endpoint => "endpoint",
        Recipient::Other => "other",
    };
    format!("{control_type} {recipient} {request:02x} {value:04x} {index:04x}")
}

/// The words of SEL.
fn selector_words(selector: &DeviceSelector) -> String {
    let mut words = String::new();
    match (selector.vendor_id(), selector.product_id()) {
        (Some(vendor), Some(product)) => words += &format!(" vidpid {vendor:04x} {product:04x}"),
        (Some(vendor), None) => words += &format!(" vid {vendor:04x}"),
        (None, _) => {}
    }
    match (selector.class(), selector.subclass(), selector.protocol()) {
        (Some(class), Some(subclass), Some(protocol)) => {
            words += &format!(" classsubproto {class:02x} {subclass:02x} {protocol:02x}");
        }
        (Some(class), Some(subclass), None) => {
            words += &format!(" classsub {class:02x} {subclass:02x}");
        }
        (Some(class), None, _) => words += &format!(" class {class:02x}"),
        (None, _, _) => {}
    }
    if let Some(serial) = selector.serial_number() {
        words += &format!(" serial {}", hex(serial.as_bytes()));
    }
    words
}

/// What is listed and watched.
impl Session {
    /// `list`, and `probe` of each device.
    pub(crate) fn list(&mut self) -> Result<Vec<DeviceWords>, Error> {
        let answer = self.call("list");
        let Some(places) = answer.strip_prefix("list ") else {
            return done_or_error(&answer).map(|()| Vec::new());
        };
        let places: Vec<(u8, u8)> = places
            .split(' ')
            .skip(1)
            .filter_map(|place| place.split_once(':'))
            .map(|(bus, address)| (number(bus), number(address)))
            .collect();
        Ok(places.into_iter().filter_map(|place| self.probe_at(place)).collect())
    }

    fn probe_at(&mut self, place: (u8, u8)) -> Option<DeviceWords> {
        let mut plugs = self.devices.iter().map(|it| &it.plug);
        let path = plugs.find(|plug| (plug.bus, plug.address) == place)?.path();
        self.probe_path(&path)
    }

    /// `probe PATH`.
    pub(crate) fn probe_path(&mut self, path: &str) -> Option<DeviceWords> {
        let answer = self.call(&format!("probe {path}"));
        let words = answer.strip_prefix("info ")?;
        Some(DeviceWords::new(words, path))
    }

    /// `buses`, and `probe` of each root hub.
    pub(crate) fn buses(&mut self) -> Result<Vec<BusWords>, Error> {
        let answer = self.call("buses");
        let Some(buses) = answer.strip_prefix("buses ") else {
            return done_or_error(&answer).map(|()| Vec::new());
        };
        let buses: Vec<Vec<&str>> =
            buses.split(' ').skip(1).map(|bus| bus.split(':').collect()).collect();
        let mut found = Vec::new();
        for bus in buses {
            let [busnum, controller, driver, _] = bus[..] else { unexpected(&answer) };
            let path = crate::sim::hub_path(number(busnum));
            if let Some(root_hub) = self.probe_path(&path) {
                let (controller, driver) = (controller.to_owned(), driver.to_owned());
                found.push(BusWords { controller, driver, root_hub });
            }
        }
        Ok(found)
    }

    /// `match PATH SEL`.
    pub(crate) fn matches(&mut self, path: &str, selector: &DeviceSelector) -> bool {
        self.call(&format!("match {path}{}", selector_words(selector))) == "match true"
    }

    /// `hotplug`: a device that has come, the bus and the address of one that has gone, or nothing.
    pub(crate) fn hotplug(&mut self) -> Option<Result<DeviceWords, (u8, u8)>> {
        let answer = self.call("hotplug");
        let (word, rest) = answer.split_once(' ')?;
        let mut words = rest.split(' ').map(number::<u8>);
        let place = (words.next()?, words.next()?);
        if word == "disconnected" {
            return Some(Err(place));
        }
        let plug = self.devices.iter().map(|it| &it.plug).find(|it| (it.bus, it.address) == place);
        Some(Ok(DeviceWords::new(rest, &plug?.path())))
    }
}

/// Devices and interfaces.
impl Session {
    /// `open d BUS ADDRESS`.
    pub(crate) fn open(&mut self, bus: u8, address: u8) -> Result<u32, Error> {
        let name = self.take_name('d');
        let answer = self.call(&format!("open d{name} {bus} {address}"));
        self.named('d', name, &answer)
    }

    /// The name of a new handle, which is free again where the call was refused.
    fn named(&mut self, letter: char, name: u32, answer: &str) -> Result<u32, Error> {
        let result = done_or_error(answer);
        if result.is_err() {
            self.free_name(letter, name);
        }
        result.map(|()| name)
    }

    /// `close d`, `close i`.
    pub(crate) fn close(&mut self, letter: char, name: u32) {
        self.say(&format!("close {letter}{name}"));
        self.free_name(letter, name);
    }

    /// `speed d`.
    pub(crate) fn speed(&mut self, device: u32) -> Option<Speed> {
        let answer = self.call(&format!("speed d{device}"));
        Speed::from_word(answer.strip_prefix("speed ").unwrap_or_else(|| unexpected(&answer)))
    }

    /// `active d`: the value of the active configuration. The question is not kept in the script,
    /// since nusb does not ask the kernel either.
    pub(crate) fn active(&mut self, device: u32) -> Result<u8, ActiveConfigurationError> {
        let answer = self.what_if(&format!("active d{device}"));
        match answer.strip_prefix("config ") {
            Some(value) => Ok(number(value)),
            None => {
                let last = answer.rsplit(' ').next().unwrap_or_default();
                Err(ActiveConfigurationError { configuration_value: last.parse().unwrap_or(0) })
            }
        }
    }

    /// `setconfig d VALUE`.
    pub(crate) fn set_configuration(&mut self, device: u32, value: u8) -> Result<(), Error> {
        done_or_error(&self.call(&format!("setconfig d{device} {value}")))
    }

    /// `reset d`.
    pub(crate) fn reset(&mut self, device: u32, number: usize) -> Result<(), Error> {
        let result = done_or_error(&self.call(&format!("reset d{device}")));
        if result.is_ok() {
            self.devices[number].reset();
        }
        result
    }

    /// `claim d NUMBER i`, `detachclaim d NUMBER i`.
    pub(crate) fn claim(&mut self, call: &str, device: u32, number: u8) -> Result<u32, Error> {
        let name = self.take_name('i');
        let answer = self.call(&format!("{call} d{device} {number} i{name}"));
        self.named('i', name, &answer)
    }

    /// `detach d NUMBER`, `attach d NUMBER`.
    pub(crate) fn kernel_driver(
        &mut self,
        call: &str,
        device: u32,
        number: u8,
    ) -> Result<(), Error> {
        done_or_error(&self.call(&format!("{call} d{device} {number}")))
    }

    /// `clone i i`.
    pub(crate) fn clone_interface(&mut self, interface: u32) -> u32 {
        let name = self.take_name('i');
        self.say(&format!("clone i{name} i{interface}"));
        name
    }

    /// `release i`.
    pub(crate) fn release(&mut self, interface: u32) -> Result<(), Error> {
        let result = done_or_error(&self.call(&format!("release i{interface}")));
        match result {
            Ok(()) => self.free_name('i', interface),
            Err(_) => self.close('i', interface),
        }
        result
    }

    /// `alt i SETTING`.
    pub(crate) fn set_alternate(&mut self, interface: u32, setting: u8) -> Result<(), Error> {
        done_or_error(&self.call(&format!("alt i{interface} {setting}")))
    }

    /// `getalt i`. The question is not kept in the script.
    pub(crate) fn alternate(&mut self, interface: u32) -> u8 {
        let answer = self.what_if(&format!("getalt i{interface}"));
        number(answer.strip_prefix("alt ").unwrap_or_else(|| unexpected(&answer)))
    }
}

/// Control transfers.
impl Session {
    /// `ctlin X CTL N TIME`.
    pub(crate) fn control_in(
        &mut self,
        target: Target,
        device: usize,
        request: ControlIn,
        timeout: Duration,
    ) -> Result<Vec<u8>, TransferError> {
        let words = request_words(
            request.control_type,
            request.recipient,
            (request.request, request.value, request.index),
        );
        let words = format!("{} {words} {} {}", target.name(), request.length, time(timeout));
        let ticket = Ticket { place: (device, 0x80), work: Work::ControlIn(request) };
        data_of(&self.exchange(&format!("ctlin {words}"), &format!("fin f0 {words}"), ticket))
    }

    /// `ctlout X CTL BYTES TIME`.
    pub(crate) fn control_out(
        &mut self,
        target: Target,
        device: usize,
        head: ControlOut<'static>,
        bytes: Vec<u8>,
        timeout: Duration,
    ) -> Result<(), TransferError> {
        assert!(bytes.len() <= usize::from(u16::MAX), "a request has at most 65535 bytes");
        let words = request_words(
            head.control_type,
            head.recipient,
            (head.request, head.value, head.index),
        );
        let words = format!("{} {words} {} {}", target.name(), hex(&bytes), time(timeout));
        let ticket = Ticket { place: (device, 0x00), work: Work::ControlOut { head, bytes } };
        let answer = self.exchange(&format!("ctlout {words}"), &format!("fout f0 {words}"), ticket);
        data_of(&answer).map(|_| ())
    }

    /// A request for a descriptor by this line.
    fn descriptor_exchange(
        &mut self,
        line: &str,
        (handle, device): (u32, usize),
        (kind, index, language): (u8, u8, u16),
        timeout: Duration,
    ) -> String {
        let request = ControlIn {
            control_type: ControlType::Standard,
            recipient: Recipient::Device,
            request: 6,
            value: u16::from_le_bytes([index, kind]),
            index: language,
            length: 4096,
        };
        let (value, time) = (request.value, time(timeout));
        let twin =
            format!("fin f0 d{handle} standard device 06 {value:04x} {language:04x} 4096 {time}");
        let ticket = Ticket { place: (device, 0x80), work: Work::ControlIn(request) };
        self.exchange(&format!("{line} {time}"), &twin, ticket)
    }

    /// `getdesc d TYPE INDEX LANGUAGE TIME`.
    pub(crate) fn descriptor(
        &mut self,
        handle: (u32, usize),
        (kind, index, language): (u8, u8, u16),
        timeout: Duration,
    ) -> Result<Vec<u8>, GetDescriptorError> {
        let line = format!("getdesc d{} {kind} {index} {language:04x}", handle.0);
        let answer = self.descriptor_exchange(&line, handle, (kind, index, language), timeout);
        data_of(&answer).map_err(GetDescriptorError::Transfer)
    }

    /// `langs d TIME`.
    pub(crate) fn languages(
        &mut self,
        handle: (u32, usize),
        timeout: Duration,
    ) -> Result<Vec<u16>, GetDescriptorError> {
        let line = format!("langs d{}", handle.0);
        let answer = self.descriptor_exchange(&line, handle, (3, 0, 0), timeout);
        let mut words = answer.split(' ');
        match words.next() {
            Some("langs") => Ok(words.map(crate::words::hex_number).collect()),
            _ => Err(descriptor_error(&answer)),
        }
    }

    /// `string d INDEX LANGUAGE TIME`.
    pub(crate) fn string(
        &mut self,
        handle: (u32, usize),
        (index, language): (u8, u16),
        timeout: Duration,
    ) -> Result<String, GetDescriptorError> {
        let line = format!("string d{} {index} {language:04x}", handle.0);
        let answer = self.descriptor_exchange(&line, handle, (3, index, language), timeout);
        match answer.strip_prefix("string ") {
            Some(word) => Ok(text_of(word).unwrap_or_default()),
            None => Err(descriptor_error(&answer)),
        }
    }
}

/// Endpoints.
impl Session {
    /// `endpoint e i ADDRESS KIND`.
    pub(crate) fn endpoint(
        &mut self,
        interface: u32,
        address: u8,
        kind: &str,
    ) -> Result<u32, Error> {
        let name = self.take_name('e');
        let answer = self.call(&format!("endpoint e{name} i{interface} {address:02x} {kind}"));
        self.named('e', name, &answer)
    }

    /// `submitin e N`.
    pub(crate) fn submit_in(&mut self, line: Line, len: usize) {
        assert!(len <= MOST_BYTES, "a transfer asks for at most {MOST_BYTES} bytes");
        let work = Work::In { len, max: line.max };
        let ticket = Ticket { place: (line.device, line.address), work };
        self.hand_in(&format!("submitin e{} {len}", line.name), ticket);
    }

    /// `submitout e BYTES`.
    pub(crate) fn submit_out(&mut self, line: Line, bytes: &[u8]) {
        let work = Work::Out { bytes: bytes.to_vec(), max: line.max };
        let ticket = Ticket { place: (line.device, line.address), work };
        self.hand_in(&format!("submitout e{} {}", line.name, hex(bytes)), ticket);
    }

    /// `pending e`.
    pub(crate) fn pending(&mut self, line: Line) -> usize {
        let answer = self.call(&format!("pending e{}", line.name));
        number(answer.strip_prefix("count ").unwrap_or_else(|| unexpected(&answer)))
    }

    /// `poll e`, behind what the devices do now and the reaps of what is finished.
    pub(crate) fn poll(&mut self, line: Line) -> Option<Done> {
        self.go_on();
        self.reap((line.device, line.address));
        done_of(&self.call(&format!("poll e{}", line.name)))
    }

    /// `wait e TIME`.
    pub(crate) fn wait_done(&mut self, line: Line, timeout: Duration) -> Option<Done> {
        done_of(&self.wait(&format!("wait e{} {}", line.name, time(timeout)), is_none))
    }

    /// `xferin e N TIME`.
    pub(crate) fn transfer_in(&mut self, line: Line, len: usize, timeout: Duration) -> Done {
        assert!(len <= MOST_BYTES, "a transfer asks for at most {MOST_BYTES} bytes");
        let work = Work::In { len, max: line.max };
        self.transfer(line, "in", &len.to_string(), work, timeout)
    }

    /// `xferout e BYTES TIME`.
    pub(crate) fn transfer_out(&mut self, line: Line, bytes: &[u8], timeout: Duration) -> Done {
        let work = Work::Out { bytes: bytes.to_vec(), max: line.max };
        self.transfer(line, "out", &hex(bytes), work, timeout)
    }

    fn transfer(
        &mut self,
        line: Line,
        way: &str,
        what: &str,
        work: Work,
        timeout: Duration,
    ) -> Done {
        let ticket = Ticket { place: (line.device, line.address), work };
        let words = format!("{way} e{} {what}", line.name);
        let call = format!("xfer{words} {}", time(timeout));
        let answer = self.exchange(&call, &format!("submit{words}"), ticket);
        done_of(&answer).unwrap_or_else(|| unexpected(&answer))
    }

    /// `cancel e`, `cancel r`.
    pub(crate) fn cancel(&mut self, letter: char, name: u32) {
        self.say(&format!("cancel {letter}{name}"));
    }

    /// `halt e`.
    pub(crate) fn clear_halt(&mut self, line: Line) -> Result<(), Error> {
        done_or_error(&self.call(&format!("halt e{}", line.name)))
    }

    /// `close e`, `close r`, `close w`. What was pending is reaped then, as by the event loop of a
    /// system, so that the address is free for the next.
    pub(crate) fn close_endpoint(&mut self, letter: char, line: Line) {
        self.discover();
        let place = (line.device, line.address);
        self.close(letter, line.name);
        self.streams.remove(&place);
        self.reap(place);
    }
}

/// Readers.
impl Session {
    /// `reader r e N`. Its transfers ask for whole packets, at least one.
    pub(crate) fn reader(&mut self, line: Line, len: usize) -> Line {
        let name = self.take_name('r');
        self.say(&format!("reader r{name} e{} {len}", line.name));
        self.free_name('e', line.name);
        let stream = Stream::Reader { len: whole_packets(len, line.max), max: line.max };
        self.streams.insert((line.device, line.address), stream);
        Line { name, ..line }
    }

    /// `inner e r`, `inner e w`.
    pub(crate) fn end_stream(&mut self, letter: char, line: Line) -> Line {
        self.discover();
        let name = self.take_name('e');
        self.say(&format!("inner e{name} {letter}{}", line.name));
        self.free_name(letter, line.name);
        self.streams.remove(&(line.device, line.address));
        Line { name, ..line }
    }

    /// `num r N`, `num w N`.
    pub(crate) fn set_transfers(&mut self, letter: char, line: Line, count: usize) {
        let answer = self.call(&format!("num {letter}{} {count}", line.name));
        done_or_error(&answer).unwrap_or_else(|_| unexpected(&answer));
    }

    /// `timeout r TIME`, `timeout w TIME`.
    pub(crate) fn set_timeout(&mut self, letter: char, line: Line, timeout: Duration) {
        self.say(&format!("timeout {letter}{} {}", line.name, time(timeout)));
    }

    /// `read r N`, or `sread r N` up to a short packet.
    pub(crate) fn read(&mut self, line: Line, most: usize, short: &str) -> io::Result<Vec<u8>> {
        let call = format!("{short}read r{} {}", line.name, most.clamp(1, MOST_BYTES));
        let answer = self.wait(&call, is_timed_out);
        bytes_or_error(&answer, "read ")
    }

    /// `fill r`, or `sfill r` up to a short packet.
    pub(crate) fn fill(&mut self, line: Line, short: &str) -> io::Result<Vec<u8>> {
        let answer = self.wait(&format!("{short}fill r{}", line.name), is_timed_out);
        bytes_or_error(&answer, "buf ")
    }

    /// `consume r N`, `sconsume r N`.
    pub(crate) fn consume(&mut self, line: Line, count: usize, short: &str) {
        self.say(&format!("{short}consume r{} {count}", line.name));
    }

    /// `isend r`. The question is not kept in the script.
    pub(crate) fn is_end(&mut self, line: Line) -> bool {
        self.what_if(&format!("isend r{}", line.name)) == "end true"
    }

    /// `endmsg r`: whether an end was next.
    pub(crate) fn consume_end(&mut self, line: Line) -> bool {
        self.call(&format!("endmsg r{}", line.name)) == "ok"
    }
}

/// Writers.
impl Session {
    /// `writer w e N`. Its transfers take whole packets, at least one.
    pub(crate) fn writer(&mut self, line: Line, len: usize) -> Line {
        let name = self.take_name('w');
        self.say(&format!("writer w{name} e{} {len}", line.name));
        self.free_name('e', line.name);
        let stream = Stream::Writer {
            len: whole_packets(len, line.max),
            max: line.max,
            standing: Vec::new(),
            handed_in: VecDeque::new(),
        };
        self.streams.insert((line.device, line.address), stream);
        Line { name, ..line }
    }

    /// `write w BYTES`: how many of them it takes.
    pub(crate) fn write(&mut self, line: Line, bytes: &[u8]) -> io::Result<usize> {
        let bytes = &bytes[..bytes.len().min(MOST_BYTES)];
        let answer = self.wait(&format!("write w{} {}", line.name, hex(bytes)), is_timed_out);
        let Some(count) = answer.strip_prefix("wrote ") else {
            return Err(io_error(&answer));
        };
        let count = number(count);
        let stream = self.streams.get_mut(&(line.device, line.address));
        if let Some(Stream::Writer { len, standing, handed_in, .. }) = stream {
            standing.extend_from_slice(&bytes[..count]);
            if standing.len() == *len {
                handed_in.push_back(std::mem::take(standing));
            }
        }
        Ok(count)
    }

    /// `wsubmit w`: the bytes that stand are handed in, if any do.
    pub(crate) fn submit_written(&mut self, line: Line) {
        let stream = self.streams.get_mut(&(line.device, line.address));
        if let Some(Stream::Writer { standing, handed_in, .. }) = stream {
            if !standing.is_empty() {
                handed_in.push_back(std::mem::take(standing));
            }
        }
        let answer = self.call(&format!("wsubmit w{}", line.name));
        done_or_error(&answer).unwrap_or_else(|_| unexpected(&answer));
    }

    /// `wend w`: the bytes that stand are handed in, or none; and none behind whole packets.
    pub(crate) fn end_written(&mut self, line: Line) {
        let stream = self.streams.get_mut(&(line.device, line.address));
        if let Some(Stream::Writer { max, standing, handed_in, .. }) = stream {
            let bytes = std::mem::take(standing);
            let needs_end = !bytes.is_empty() && bytes.len() % *max == 0;
            handed_in.push_back(bytes);
            if needs_end {
                handed_in.push_back(Vec::new());
            }
        }
        let answer = self.call(&format!("wend w{}", line.name));
        done_or_error(&answer).unwrap_or_else(|_| unexpected(&answer));
    }

    /// `flush w`.
    pub(crate) fn flush(&mut self, line: Line) -> io::Result<()> {
        let answer = self.wait(&format!("flush w{}", line.name), is_timed_out);
        match answer.as_str() {
            "ok" => Ok(()),
            _ => Err(io_error(&answer)),
        }
    }
}
