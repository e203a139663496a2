//! The lines that calls and tickets are answered by.

use crate::client::MessageFailure;
use crate::control::Received;
use crate::descriptors::{DeviceDescriptor, configurations};
use crate::host::{Completion, End};
use crate::kernel::{Device, Outcome, SettingPlace, Ticket, Transfer};
use crate::reader::ReadFailure;
use crate::refusal::Refusal;
use crate::text::{Show, Text};
use crate::tree::{BadAttribute, BusInfo, DeviceInfo, InterfaceInfo};
use crate::writer::WriteFailure;
use std::sync::Arc;

pub enum Answer {
    Ok,
    /// The call was not made.
    Condition,
    Refused(Refusal),
    DeviceDescriptor(DeviceDescriptor),
    Descriptors(Arc<Device>),
    /// The configuration of this value is active.
    Active(Arc<Device>, u8),
    /// The code of the speed, where it is known.
    Speed(Option<u8>),
    /// The number of the current setting.
    Alternate(u8),
    /// The setting that stands there.
    Setting(Arc<Device>, SettingPlace),
    Count(usize),
    /// The oldest transfer isn't back.
    Pending,
    /// A wait ended without a transfer.
    Nothing,
    Done(Completion),
    /// By a control transfer.
    Received(Received),
    /// What a device told is no string descriptor.
    InvalidDescriptor,
    Languages(Vec<u16>),
    Text(String),
    /// The bytes that a read took.
    Read(Vec<u8>),
    /// The bytes that stand.
    Filled(Vec<u8>),
    NotRead(ReadFailure),
    /// How many bytes were accepted.
    Wrote(usize),
    NotWritten(WriteFailure),
    /// The tag of a request.
    Requested(u32),
    /// The body of a response.
    Responded(Vec<u8>),
    NoMessage(MessageFailure),
    IsEnd(bool),
    /// No end is next.
    NoEnd,
    /// Nanoseconds.
    Now(u64),
    Devices(Vec<DeviceInfo>),
    Buses(Vec<BusInfo>),
    Found(DeviceInfo),
    NotFound(BadAttribute),
    Matches(bool),
    Came(DeviceInfo),
    /// The bus and the address.
    Went(u8, u8),
}

impl Show for Answer {
    fn show(&self, text: &mut Text) {
        match self {
            Answer::Ok => text.word("ok"),
            Answer::Condition => text.word("condition"),
            Answer::Refused(refusal) => text.word("error ").show(refusal),
            Answer::DeviceDescriptor(descriptor) => text.word("device ").show(descriptor),
            Answer::Descriptors(device) => configurations(&device.bytes)
                .fold(text.word("desc"), |text, it| text.word(" ").show(&it)),
            Answer::Active(device, value) => show_active(text, device, *value),
            Answer::Speed(code) => text.word("speed ").word(speed_name(*code)),
            Answer::Alternate(number) => text.word("alt ").number((*number).into()),
            Answer::Setting(device, place) => match device.setting(*place) {
                Some(setting) => text.show(&setting),
                None => text.word("none"),
            },
            Answer::Count(count) => text.word("count ").number(*count as u64),
            Answer::Pending => text.word("pending"),
            Answer::Nothing => text.word("none"),
            Answer::Done(completion) => text.word("done ").show(completion),
            Answer::Received(Ok(bytes)) => bytes_or_dash(text.word("data "), bytes),
            Answer::Received(Err(outcome)) => text.word("failed ").show(outcome),
            Answer::InvalidDescriptor => text.word("failed invalid-descriptor"),
            Answer::Languages(languages) => {
                let text = text.word("langs");
                languages
                    .iter()
                    .fold(text, |text, it| text.word(" ").hex(&it.to_be_bytes()))
            }
            Answer::Text(string) => bytes_or_dash(text.word("string "), string.as_bytes()),
            Answer::Read(bytes) => counted(text.word("read "), bytes),
            Answer::Filled(bytes) => counted(text.word("buf "), bytes),
            Answer::NotRead(failure) => text.word("io ").show(failure),
            Answer::Wrote(count) => text.word("wrote ").number(*count as u64),
            Answer::NotWritten(failure) => text.word("io ").show(failure),
            Answer::Requested(tag) => text.word("request ").number((*tag).into()),
            Answer::Responded(body) => bytes_or_dash(text.word("response "), body),
            Answer::NoMessage(failure) => text.show(failure),
            Answer::IsEnd(true) => text.word("end true"),
            Answer::IsEnd(false) => text.word("end false"),
            Answer::NoEnd => text.word("expected short packet"),
            Answer::Now(clock) => text.word("now ").number(*clock),
            Answer::Devices(devices) => show_devices(text, devices),
            Answer::Buses(buses) => show_buses(text, buses),
            Answer::Found(device) => text.word("info ").show(device),
            Answer::NotFound(bad) => text.word("sysfs ").show(bad),
            Answer::Matches(true) => text.word("match true"),
            Answer::Matches(false) => text.word("match false"),
            Answer::Came(device) => text.word("connected ").show(device),
            Answer::Went(bus, address) => text
                .word("disconnected ")
                .number((*bus).into())
                .word(" ")
                .number((*address).into()),
        };
    }
}

fn show_devices<'a>(text: &'a mut Text, devices: &[DeviceInfo]) -> &'a mut Text {
    let text = text.word("list ").number(devices.len() as u64);
    devices.iter().fold(text, |text, it| {
        text.word(" ")
            .number(it.bus.into())
            .word(":")
            .number(it.address.into())
    })
}

fn show_buses<'a>(text: &'a mut Text, buses: &[BusInfo]) -> &'a mut Text {
    let text = text.word("buses ").number(buses.len() as u64);
    buses.iter().fold(text, |text, it| {
        let text = text
            .word(" ")
            .number(it.hub.bus.into())
            .word(":")
            .word(it.controller());
        let text = text
            .word(":")
            .word(it.driver.as_deref().unwrap_or("none"))
            .word(":");
        string(text, &it.hub.product_text)
    })
}

fn bytes_or_dash<'a>(text: &'a mut Text, bytes: &[u8]) -> &'a mut Text {
    match bytes {
        [] => text.word("-"),
        _ => text.hex(bytes),
    }
}

/// How many bytes there are, and which.
fn counted<'a>(text: &'a mut Text, bytes: &[u8]) -> &'a mut Text {
    bytes_or_dash(text.number(bytes.len() as u64).word(" "), bytes)
}

fn string<'a>(text: &'a mut Text, string: &Option<String>) -> &'a mut Text {
    match string {
        Some(string) => bytes_or_dash(text, string.as_bytes()),
        None => text.word("none"),
    }
}

impl Show for BadAttribute {
    fn show(&self, text: &mut Text) {
        let text = text.word(&self.path);
        match &self.why {
            Ok(held) => bytes_or_dash(text.word(" parse "), held.as_bytes()),
            Err(errno) => text.word(" io ").number((*errno).into()),
        };
    }
}

impl Show for InterfaceInfo {
    fn show(&self, text: &mut Text) {
        let text = text.number(self.number.into());
        let text = self
            .class
            .iter()
            .fold(text, |text, code| text.word(":").hex(&[*code]));
        string(text.word(":"), &self.text);
    }
}

impl Show for DeviceInfo {
    fn show(&self, text: &mut Text) {
        text.number(self.bus.into())
            .word(" ")
            .number(self.address.into())
            .word(" ");
        for (at, port) in self.ports.iter().enumerate() {
            text.word(if at == 0 { "" } else { "." })
                .number((*port).into());
        }
        text.word(if self.ports.is_empty() { "-" } else { "" });
        for word in [self.vendor, self.product, self.version, self.usb] {
            text.word(" ").hex(&word.to_be_bytes());
        }
        for code in self.class {
            text.word(" ").hex(&[code]);
        }
        text.word(" ").word(self.speed.unwrap_or("none"));
        for it in [&self.manufacturer, &self.product_text, &self.serial] {
            string(text.word(" "), it);
        }
        for interface in &self.interfaces {
            text.word(" ").show(interface);
        }
    }
}

fn show_active<'a>(text: &'a mut Text, device: &Device, value: u8) -> &'a mut Text {
    match (device.configuration(value), value) {
        (Some(_), _) => text.word("config ").number(value.into()),
        (None, 0) => text.word("noconfig device is not configured"),
        (None, _) => text
            .word("noconfig no descriptor found for active configuration ")
            .number(value.into()),
    }
}

fn speed_name(code: Option<u8>) -> &'static str {
    match code {
        Some(1) => "Low",
        Some(2) => "Full",
        Some(3) => "High",
        Some(5) => "Super",
        Some(6) => "SuperPlus",
        _ => "none",
    }
}

impl Show for Completion {
    fn show(&self, text: &mut Text) {
        text.show(&self.outcome).word(" ").number(self.count as u64);
        text.word(" ").number(self.requested as u64).word(" ");
        match self.bytes.as_slice() {
            [] => text.word("-"),
            bytes => text.hex(bytes),
        };
    }
}

/// How a ticket ended.
pub struct TicketEnd<'a> {
    pub ticket: Ticket,
    pub transfer: &'a Transfer,
    pub outcome: Outcome,
    pub end: End,
}

impl Show for TicketEnd<'_> {
    fn show(&self, text: &mut Text) {
        let transfer = self.transfer;
        text.word("ticket ").number(self.ticket as u64);
        text.word(" k").number(transfer.device.into());
        text.word(" ")
            .hex(&[transfer.endpoint])
            .word(" ")
            .show(&self.outcome);
        text.word(" ")
            .number(transfer.count as u64)
            .word(" ")
            .show(&self.end);
    }
}
