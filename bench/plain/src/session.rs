//! A session: the host, and what the names of its script stand for.

use crate::answer::{Answer, TicketEnd};
use crate::client::{Client, MessageFailure};
use crate::control::{Future, Question, Received, units};
use crate::descriptors::Direction;
use crate::host::{Data, EndpointKey, Fate, Host, InterfaceKey, OpenDevice, Steps};
use crate::journal::Journal;
use crate::kernel::{Device, Step};
use crate::names::{Name, Names};
use crate::reader::{Framing, ReadFailure, Reader};
use crate::refusal::Refusal;
use crate::script::{
    Call, Claim, ClientCall, Control, DeviceCall, EndpointCall, InterfaceCall, Line, Open,
    OpenEndpoint, Patience, ReaderCall, SecondHandle, Target, WriterCall,
};
use crate::text::Text;
use crate::tree::{DeviceInfo, Tree};
use crate::udev::{self, Notice};
use crate::writer::{WriteFailure, Writer};
use std::collections::VecDeque;

#[derive(Default)]
pub struct Session {
    host: Host,
    devices: Names<OpenDevice>,
    interfaces: Names<InterfaceKey>,
    endpoints: Names<EndpointKey>,
    readers: Names<Reader>,
    writers: Names<Writer>,
    clients: Names<Client>,
    futures: Names<Future>,
    tree: Tree,
    packets: VecDeque<(u32, Vec<u8>)>,
}

/// Puts what was opened into its name's place, and answers the call.
fn opened<T>(place: &mut Option<T>, tried: Result<T, Refusal>) -> Answer {
    match tried {
        Ok(value) => {
            *place = Some(value);
            Answer::Ok
        }
        Err(refusal) => Answer::Refused(refusal),
    }
}

/// Answers a call that gives nothing.
fn done(tried: Result<(), Refusal>) -> Answer {
    tried.map_or_else(Answer::Refused, |()| Answer::Ok)
}

/// Answers a poll of a writer.
fn polled<T>(tried: Result<T, WriteFailure>, ready: impl FnOnce(T) -> Answer) -> Answer {
    match tried {
        Ok(value) => ready(value),
        Err(WriteFailure::TimedOut) => Answer::Pending,
        Err(failure) => Answer::NotWritten(failure),
    }
}

/// What the bytes that came say about a question.
fn told(question: &Question, received: Received) -> Answer {
    match (question, received) {
        (Question::Descriptor { .. }, received) | (_, received @ Err(_)) => {
            Answer::Received(received)
        }
        (Question::Languages, Ok(bytes)) => {
            units(&bytes).map_or(Answer::InvalidDescriptor, Answer::Languages)
        }
        (Question::Text { .. }, Ok(bytes)) => match units(&bytes) {
            Some(units) => Answer::Text(String::from_utf16_lossy(&units)),
            None => Answer::InvalidDescriptor,
        },
    }
}

impl Session {
    pub fn new(
        devices: Vec<(Name, Device)>,
        tree: Tree,
        packets: VecDeque<(u32, Vec<u8>)>,
    ) -> Session {
        let mut session = Session {
            tree,
            packets,
            ..Session::default()
        };
        for (name, device) in devices {
            session.host.kernel.plug(name, device);
        }
        session
    }

    /// Takes a line, and gives its answer, where it is a call.
    pub fn take(&mut self, line: Line) -> Option<Answer> {
        match line {
            Line::Steps(steps) => {
                self.take_steps(steps.into_iter());
                None
            }
            Line::Call(call) if self.host.is_crowded() => {
                self.take_steps(call.into_steps().into_iter());
                Some(Answer::Condition)
            }
            Line::Call(call) => Some(self.call(call).unwrap_or(Answer::Condition)),
        }
    }

    fn take_steps(&mut self, steps: impl Iterator<Item = Step>) {
        steps.for_each(|step| self.host.step(step));
    }

    /// The answer to a call, or none where it is barred.
    fn call(&mut self, call: Call) -> Option<Answer> {
        match call {
            Call::Now => Some(Answer::Now(self.host.kernel.clock)),
            Call::List => Some(match self.tree.devices() {
                Ok(devices) => Answer::Devices(devices),
                Err(errno) => Answer::Refused(Refusal::Listing(errno)),
            }),
            Call::Buses => Some(match self.tree.buses() {
                Ok(buses) => Answer::Buses(buses),
                Err(errno) => Answer::Refused(Refusal::Listing(errno)),
            }),
            Call::Probe(folder) => Some(self.found(&folder, Answer::Found)),
            Call::Match(folder, selector) => {
                Some(self.found(&folder, |it| Answer::Matches(selector.matches(&it))))
            }
            Call::OpenFound(name, folder) => self.open_found(name, &folder),
            Call::Hotplug => Some(self.hotplug().unwrap_or(Answer::Pending)),
            Call::Open(open) => self.open(open),
            Call::CloneDevice(handle) => self.clone_device(handle),
            Call::Claim(claim) => self.claim(claim),
            Call::CloneInterface(handle) => self.clone_interface(handle),
            Call::OpenEndpoint(endpoint) => self.open_endpoint(endpoint),
            Call::Device(name, call) => self.device_call(name, call),
            Call::Interface(name, call) => self.interface_call(name, call),
            Call::Endpoint(name, call) => self.endpoint_call(name, call),
            Call::Control(control, patience) => self.control(control, patience),
            Call::StartControl(name, control, time) => self.start(name, control, time),
            Call::PollFuture(name) => self.poll_future(name),
            Call::WaitFuture(name, steps) => self.wait_future(name, steps),
            Call::CloseFuture(name) => {
                self.host.close_future(self.futures.take(name)?);
                Some(Answer::Ok)
            }
            Call::Ask(name, question, patience) => self.ask(name, question, patience),
            Call::OpenReader(name, endpoint, size) => self.open_reader(name, endpoint, size),
            Call::OpenWriter(name, endpoint, size) => self.open_writer(name, endpoint, size),
            Call::WriterIntoInner(endpoint, name) => self.writer_into_inner(endpoint, name),
            Call::Writer(name, call) => self.writer_call(name, call),
            Call::OpenClient(name, output, input) => self.open_client(name, output, input),
            Call::Client(name, call) => self.client_call(name, call),
            Call::IntoInner(endpoint, name) => self.into_inner(endpoint, name),
            Call::Reader(name, call) => self.reader_call(name, call),
        }
    }

    /// The device that a control transfer goes to.
    fn target(&self, target: &Target) -> Option<Name> {
        match target {
            Target::Device(name) => self.devices.get(*name).map(|device| device.name),
            Target::Interface(name) => self.interfaces.get(*name).map(|key| self.host.device(*key)),
        }
    }

    fn control(&mut self, control: Control, patience: Patience) -> Option<Answer> {
        let device = self.target(&control.target);
        self.with_steps(patience, |host, time, steps| {
            let is_out = matches!(control.data, Data::Out(_));
            let received = host.control(device?, control.setup, control.data, time, steps)?;
            Some(match received {
                Ok(_) if is_out => Answer::Ok,
                received => Answer::Received(received),
            })
        })
    }

    fn start(&mut self, name: Name, control: Control, time: u64) -> Option<Answer> {
        let device = self.target(&control.target)?;
        let place = self.futures.vacant(name)?;
        *place = Some(self.host.start(device, control.setup, control.data, time)?);
        Some(Answer::Ok)
    }

    fn poll_future(&mut self, name: Name) -> Option<Answer> {
        let future = self.futures.get(name)?;
        let Some(received) = self.host.poll_future(future) else {
            return Some(Answer::Pending);
        };
        self.futures.take(name);
        Some(Answer::Received(received))
    }

    fn wait_future(&mut self, name: Name, steps: Vec<Step>) -> Option<Answer> {
        let future = self.futures.take(name);
        let patience = Patience {
            time: u64::MAX,
            steps,
        };
        self.with_steps(patience, |host, _, steps| {
            Some(Answer::Received(host.wait_future(future?, steps)))
        })
    }

    fn ask(&mut self, name: Name, question: Question, patience: Patience) -> Option<Answer> {
        let device = self.devices.get(name).map(|device| device.name);
        let received = self.with_steps(patience, |host, time, steps| {
            host.ask(device?, &question, time, steps)
        });
        Some(told(&question, received?))
    }

    /// The answer about the device of a folder.
    fn found(&self, folder: &str, answer: impl FnOnce(DeviceInfo) -> Answer) -> Answer {
        self.tree
            .probe(folder)
            .map_or_else(Answer::NotFound, answer)
    }

    fn open_found(&mut self, name: Name, folder: &str) -> Option<Answer> {
        let place = self.devices.vacant(name)?;
        Some(match self.tree.probe(folder) {
            Ok(found) => opened(place, self.host.open_device(found.bus, found.address)),
            Err(bad) => Answer::NotFound(bad),
        })
    }

    fn hotplug(&mut self) -> Option<Answer> {
        let (groups, packet) = self.packets.pop_front()?;
        Some(match udev::notice(groups, &packet)? {
            Notice::Came(folder) => Answer::Came(self.tree.probe(&folder).ok()?),
            Notice::Went(bus, address) => Answer::Went(bus, address),
        })
    }

    fn open(&mut self, open: Open) -> Option<Answer> {
        let place = self.devices.vacant(open.device)?;
        let tried = self.host.open_device(open.bus, open.address);
        Some(opened(place, tried))
    }

    fn clone_device(&mut self, handle: SecondHandle) -> Option<Answer> {
        let device = self.devices.get(handle.first)?.clone();
        let place = self.devices.vacant(handle.name)?;
        Some(opened(place, Ok(device)))
    }

    fn claim(&mut self, claim: Claim) -> Option<Answer> {
        let place = self.interfaces.vacant(claim.interface)?;
        let device = self.devices.get(claim.device)?.clone();
        let tried = if claim.detaches {
            self.host.detach_and_claim(device, claim.number)
        } else {
            self.host.claim(device, claim.number)
        };
        Some(opened(place, tried))
    }

    fn clone_interface(&mut self, handle: SecondHandle) -> Option<Answer> {
        let interface = *self.interfaces.get(handle.first)?;
        let place = self.interfaces.vacant(handle.name)?;
        let clone = self.host.clone_interface(interface);
        Some(opened(place, Ok(clone)))
    }

    fn open_endpoint(&mut self, call: OpenEndpoint) -> Option<Answer> {
        let place = self.endpoints.vacant(call.endpoint)?;
        let interface = *self.interfaces.get(call.interface)?;
        let host = &mut self.host;
        let tried = host.open_endpoint(interface, call.address, call.kind, call.direction);
        Some(opened(place, tried))
    }

    fn device_call(&mut self, name: Name, call: DeviceCall) -> Option<Answer> {
        let device = self.devices.get(name)?;
        let host = &mut self.host;
        Some(match call {
            DeviceCall::Descriptor => Answer::DeviceDescriptor(device.descriptor),
            DeviceCall::Descriptors => Answer::Descriptors(device.device.clone()),
            DeviceCall::Active => Answer::Active(device.device.clone(), host.active(device)),
            DeviceCall::Speed => Answer::Speed(host.speed(device)),
            DeviceCall::SetConfiguration(value) => done(host.set_configuration(device, value)),
            DeviceCall::Reset => done(host.reset(device)),
            DeviceCall::DetachDriver(number) => done(host.detach(device, number)),
            DeviceCall::AttachDriver(number) => done(host.attach(device, number)),
            DeviceCall::Close => {
                self.devices.take(name);
                Answer::Ok
            }
        })
    }

    fn interface_call(&mut self, name: Name, call: InterfaceCall) -> Option<Answer> {
        let interface = *self.interfaces.get(name)?;
        let host = &mut self.host;
        Some(match call {
            InterfaceCall::SetAlternate(number) => done(host.set_alternate(interface, number)),
            InterfaceCall::Alternate => Answer::Alternate(host.alternate(interface)),
            InterfaceCall::Descriptor => {
                let (device, place) = host.setting(interface);
                Answer::Setting(device, place)
            }
            InterfaceCall::Release => {
                let tried = host.release(interface);
                if tried.is_ok() {
                    self.interfaces.take(name);
                }
                done(tried)
            }
            InterfaceCall::Close => {
                self.interfaces.take(name);
                host.leave_interface(interface);
                Answer::Ok
            }
        })
    }

    fn endpoint_call(&mut self, name: Name, call: EndpointCall) -> Option<Answer> {
        let endpoint = self.endpoints.get(name).copied();
        match call {
            EndpointCall::Submit(data, time) => {
                self.host.submit(endpoint?, data, time)?;
                Some(Answer::Ok)
            }
            EndpointCall::Pending => Some(Answer::Count(self.host.pending(endpoint?))),
            EndpointCall::Poll => {
                let endpoint = endpoint.filter(|key| self.host.pending(*key) > 0)?;
                let completion = self.host.poll(endpoint);
                Some(completion.map_or(Answer::Pending, Answer::Done))
            }
            EndpointCall::Wait(patience) => self.with_steps(patience, |host, time, steps| {
                let endpoint = endpoint.filter(|key| host.pending(*key) > 0)?;
                let completion = host.wait(endpoint, time, steps);
                Some(completion.map_or(Answer::Nothing, Answer::Done))
            }),
            EndpointCall::Transfer(data, patience) => {
                self.with_steps(patience, |host, time, steps| {
                    let completion = host.transfer(endpoint?, data, time, steps)?;
                    Some(Answer::Done(completion))
                })
            }
            EndpointCall::Cancel => {
                self.host.cancel(endpoint?);
                Some(Answer::Ok)
            }
            EndpointCall::ClearHalt => Some(done(self.host.clear_halt(endpoint?))),
            EndpointCall::Close => {
                self.host.close_endpoint(self.endpoints.take(name)?);
                Some(Answer::Ok)
            }
        }
    }

    fn open_reader(&mut self, name: Name, endpoint: Name, size: usize) -> Option<Answer> {
        let place = self.readers.vacant(name)?;
        let key = *self.endpoints.get(endpoint)?;
        if self.host.direction(key) != Direction::In {
            return None;
        }
        *place = Some(Reader::new(key, self.host.maximum(key), size));
        self.endpoints.take(endpoint);
        Some(Answer::Ok)
    }

    fn into_inner(&mut self, endpoint: Name, name: Name) -> Option<Answer> {
        let place = self.endpoints.vacant(endpoint)?;
        *place = Some(self.readers.take(name)?.endpoint);
        Some(Answer::Ok)
    }

    fn reader_call(&mut self, name: Name, call: ReaderCall) -> Option<Answer> {
        match call {
            ReaderCall::Read(framing, most, steps) => {
                self.read(name, framing, Some(most), None, steps)
            }
            ReaderCall::PollRead(framing, most) => {
                self.read(name, framing, Some(most), Some(0), Vec::new())
            }
            ReaderCall::Fill(framing, steps) => self.read(name, framing, None, None, steps),
            ReaderCall::PollFill(framing) => self.read(name, framing, None, Some(0), Vec::new()),
            call => self.set_reader(name, call),
        }
    }

    /// A call that reads, and takes at most so many bytes off, where it takes any. One that has a
    /// time of its own is a poll.
    fn read(
        &mut self,
        name: Name,
        framing: Framing,
        most: Option<usize>,
        time: Option<u64>,
        steps: Vec<Step>,
    ) -> Option<Answer> {
        let mut steps = steps.into_iter();
        let (reader, host) = (self.readers.get_mut(name), &mut self.host);
        let reader = reader.filter(|reader| host.may_read(reader, framing));
        let answer = reader.map(|reader| {
            let waits = time.unwrap_or(reader.time);
            let bytes = match host.fill(reader, framing, waits, &mut steps) {
                Ok(bytes) => bytes[..most.unwrap_or(bytes.len()).min(bytes.len())].to_vec(),
                Err(ReadFailure::TimedOut) if time.is_some() => return Answer::Pending,
                Err(failure) => return Answer::NotRead(failure),
            };
            if most.is_none() {
                return Answer::Filled(bytes);
            }
            reader.consume(bytes.len());
            Answer::Read(bytes)
        });
        self.take_steps(steps);
        answer
    }

    fn set_reader(&mut self, name: Name, call: ReaderCall) -> Option<Answer> {
        if let ReaderCall::Close = call {
            self.host.close_endpoint(self.readers.take(name)?.endpoint);
            return Some(Answer::Ok);
        }
        let reader = self.readers.get_mut(name)?;
        match call {
            ReaderCall::SetDepth(depth) => self.host.set_depth(reader, depth)?,
            ReaderCall::SetTime(time) => reader.time = time,
            ReaderCall::Cancel => self.host.cancel_reader(reader),
            ReaderCall::ClearHalt => return Some(done(self.host.clear_reader_halt(reader))),
            ReaderCall::Consume(count) => {
                if count > reader.available() {
                    return None;
                }
                reader.consume(count);
            }
            ReaderCall::IsEnd => return Some(Answer::IsEnd(reader.is_end())),
            ReaderCall::ConsumeEnd => {
                return Some(match reader.consume_end() {
                    Some(()) => Answer::Ok,
                    None => Answer::NoEnd,
                });
            }
            _ => return None,
        }
        Some(Answer::Ok)
    }

    fn open_writer(&mut self, name: Name, endpoint: Name, size: usize) -> Option<Answer> {
        let place = self.writers.vacant(name)?;
        let key = *self.endpoints.get(endpoint)?;
        if self.host.direction(key) != Direction::Out {
            return None;
        }
        *place = Some(Writer::new(key, self.host.maximum(key), size));
        self.endpoints.take(endpoint);
        Some(Answer::Ok)
    }

    fn writer_into_inner(&mut self, endpoint: Name, name: Name) -> Option<Answer> {
        let place = self.endpoints.vacant(endpoint)?;
        *place = Some(self.writers.take(name)?.endpoint);
        Some(Answer::Ok)
    }

    fn writer_call(&mut self, name: Name, call: WriterCall) -> Option<Answer> {
        match call {
            WriterCall::Write(bytes, steps) => {
                self.write(name, steps, Host::may_write, |host, writer, steps| {
                    let count = host.write(writer, &bytes, writer.time, steps);
                    count.map_or_else(Answer::NotWritten, Answer::Wrote)
                })
            }
            WriterCall::PollWrite(bytes) => {
                self.write(name, Vec::new(), Host::may_write, |host, writer, steps| {
                    polled(host.write(writer, &bytes, 0, steps), Answer::Wrote)
                })
            }
            WriterCall::Submit => {
                self.write(name, Vec::new(), Host::may_flush, |host, writer, _| {
                    host.send_buffer(writer);
                    Answer::Ok
                })
            }
            WriterCall::End => self.write(name, Vec::new(), Host::may_end, |host, writer, _| {
                host.send_end(writer);
                Answer::Ok
            }),
            call => self.flush(name, call),
        }
    }

    fn flush(&mut self, name: Name, call: WriterCall) -> Option<Answer> {
        match call {
            WriterCall::Flush(steps) => {
                self.write(name, steps, Host::may_flush, |host, writer, steps| {
                    host.send_buffer(writer);
                    let drained = host.drain(writer, writer.time, steps);
                    drained.map_or_else(Answer::NotWritten, |()| Answer::Ok)
                })
            }
            WriterCall::PollFlush => {
                self.write(name, Vec::new(), Host::may_flush, |host, writer, steps| {
                    host.send_buffer(writer);
                    polled(host.drain(writer, 0, steps), |()| Answer::Ok)
                })
            }
            WriterCall::FlushEnd(steps) => {
                self.write(name, steps, Host::may_end, |host, writer, steps| {
                    host.send_end(writer);
                    let drained = host.drain(writer, writer.time, steps);
                    drained.map_or_else(Answer::NotWritten, |()| Answer::Ok)
                })
            }
            WriterCall::PollFlushEnd => self.write(
                name,
                Vec::new(),
                Host::may_poll_end,
                |host, writer, steps| polled(host.poll_end(writer, steps), |()| Answer::Ok),
            ),
            call => self.set_writer(name, call),
        }
    }

    /// A call on a writer, where it may be made. The steps that are left are taken right after it.
    fn write(
        &mut self,
        name: Name,
        steps: Vec<Step>,
        may: impl FnOnce(&Host, &Writer) -> bool,
        call: impl FnOnce(&mut Host, &mut Writer, &mut Steps) -> Answer,
    ) -> Option<Answer> {
        let mut steps = steps.into_iter();
        let (writer, host) = (self.writers.get_mut(name), &mut self.host);
        let writer = writer.filter(|writer| may(host, writer));
        let answer = writer.map(|writer| call(host, writer, &mut steps));
        self.take_steps(steps);
        answer
    }

    fn set_writer(&mut self, name: Name, call: WriterCall) -> Option<Answer> {
        if let WriterCall::Close = call {
            self.host.close_endpoint(self.writers.take(name)?.endpoint);
            return Some(Answer::Ok);
        }
        let writer = self.writers.get_mut(name)?;
        match call {
            WriterCall::SetDepth(depth) => writer.set_depth(depth)?,
            WriterCall::SetTime(time) => writer.time = time,
            _ => return None,
        }
        Some(Answer::Ok)
    }

    /// An endpoint of a client: with nothing pending, and its packet size.
    fn client_endpoint(&self, name: Name, direction: Direction) -> Option<(EndpointKey, usize)> {
        let key = *self.endpoints.get(name)?;
        let is_idle = self.host.direction(key) == direction && self.host.pending(key) == 0;
        is_idle.then(|| (key, self.host.maximum(key)))
    }

    fn open_client(&mut self, name: Name, output: Name, input: Name) -> Option<Answer> {
        let out_endpoint = self.client_endpoint(output, Direction::Out)?;
        let in_endpoint = self.client_endpoint(input, Direction::In)?;
        *self.clients.vacant(name)? = Some(Client::new(out_endpoint, in_endpoint));
        self.endpoints.take(output);
        self.endpoints.take(input);
        Some(Answer::Ok)
    }

    fn client_call(&mut self, name: Name, call: ClientCall) -> Option<Answer> {
        match call {
            ClientCall::Request(body, steps) => self.message(
                name,
                steps,
                |host, client| host.may_request(client, &body),
                |host, client, steps| host.request(client, &body, steps).map(Answer::Requested),
            ),
            ClientCall::Response(steps) => {
                self.message(name, steps, Host::may_respond, |host, client, steps| {
                    host.respond(client, steps).map(Answer::Responded)
                })
            }
            ClientCall::Outstanding => {
                let count = self.clients.get(name)?.outstanding();
                Some(Answer::Count(count as usize))
            }
            ClientCall::Close => {
                self.host.close_client(&self.clients.take(name)?);
                Some(Answer::Ok)
            }
        }
    }

    /// A call of a client, where it may be made. The steps that are left are taken right after it.
    fn message(
        &mut self,
        name: Name,
        steps: Vec<Step>,
        may: impl FnOnce(&Host, &Client) -> bool,
        call: impl FnOnce(&mut Host, &mut Client, &mut Steps) -> Result<Answer, MessageFailure>,
    ) -> Option<Answer> {
        let mut steps = steps.into_iter();
        let (client, host) = (self.clients.get_mut(name), &mut self.host);
        let client = client.filter(|client| may(host, client));
        let answer = client.map(|it| call(host, it, &mut steps).unwrap_or_else(Answer::NoMessage));
        self.take_steps(steps);
        answer
    }

    /// Makes a call that waits. The steps that are left are taken right after it.
    fn with_steps<A>(
        &mut self,
        patience: Patience,
        call: impl FnOnce(&mut Host, u64, &mut Steps) -> Option<A>,
    ) -> Option<A> {
        let mut steps = patience.steps.into_iter();
        let answer = call(&mut self.host, patience.time, &mut steps);
        self.take_steps(steps);
        answer
    }

    /// Closes the clients, the readers, the writers, the endpoints, the futures and then the interfaces, and ends each ticket. Of a device
    /// nothing is left to close.
    pub fn finish(&mut self) {
        for (_, client) in self.clients.iter() {
            self.host.close_client(client);
        }
        for (_, reader) in self.readers.iter() {
            self.host.close_endpoint(reader.endpoint);
        }
        for (_, writer) in self.writers.iter() {
            self.host.close_endpoint(writer.endpoint);
        }
        for (_, endpoint) in self.endpoints.iter() {
            self.host.close_endpoint(*endpoint);
        }
        for number in 0..64 {
            if let Some(future) = self.futures.take(number) {
                self.host.close_future(future);
            }
        }
        for (_, interface) in self.interfaces.iter() {
            self.host.leave_interface(*interface);
        }
        self.host.finish();
    }

    /// Keeps the journal of what follows.
    pub fn keep_journal(&mut self) {
        self.host.kernel.journal = Journal::begun();
    }

    /// The trace of the run, once the session is finished.
    pub fn trace(self) -> Text {
        let kernel = self.host.kernel;
        kernel.journal.end(&kernel.transfers)
    }

    /// How each ticket ended: once the session is finished all have.
    pub fn ticket_ends(&self) -> impl Iterator<Item = TicketEnd<'_>> {
        let transfers = self.host.kernel.transfers.iter();
        let tickets = transfers.zip(&self.host.fates).enumerate();
        tickets.filter_map(|(ticket, (transfer, fate))| {
            let Fate::Ended(end) = *fate else { return None };
            let outcome = transfer.outcome?;
            Some(TicketEnd {
                ticket,
                transfer,
                outcome,
                end,
            })
        })
    }
}
