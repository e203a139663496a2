//! Descriptors by their offsets: USB 2.0, section 9.6.

use crate::text::{Show, Text};

const DEVICE: u8 = 1;
const CONFIGURATION: u8 = 2;
const INTERFACE: u8 = 4;
const ENDPOINT: u8 = 5;

#[derive(Clone, Copy, PartialEq)]
pub enum Direction {
    In,
    Out,
}

impl Direction {
    pub fn of_address(address: u8) -> Direction {
        if address & 0x80 == 0 {
            Direction::Out
        } else {
            Direction::In
        }
    }
}

#[derive(Clone, Copy, PartialEq)]
pub enum TransferType {
    Control,
    Isochronous,
    Bulk,
    Interrupt,
}

impl Show for TransferType {
    fn show(&self, text: &mut Text) {
        text.word(match self {
            TransferType::Control => "control",
            TransferType::Isochronous => "iso",
            TransferType::Bulk => "bulk",
            TransferType::Interrupt => "interrupt",
        });
    }
}

fn word(bytes: &[u8], at: usize) -> u16 {
    u16::from_le_bytes([bytes[at], bytes[at + 1]])
}

/// The length of the descriptor in front, if a whole one stands there.
fn first_length(bytes: &[u8]) -> Option<usize> {
    let [length, _kind, ..] = *bytes else {
        return None;
    };
    let length = usize::from(length);
    (2..=bytes.len()).contains(&length).then_some(length)
}

/// The groups of one type: a descriptor of the type that is long enough, and those that follow it
/// up to the next of the type or to one of two bytes.
struct Groups<'a> {
    rest: &'a [u8],
    kind: u8,
    least: usize,
}

impl<'a> Iterator for Groups<'a> {
    type Item = &'a [u8];

    fn next(&mut self) -> Option<&'a [u8]> {
        let mut first = first_length(self.rest)?;
        while self.rest[1] != self.kind || first < self.least {
            self.rest = &self.rest[first..];
            first = first_length(self.rest)?;
        }
        let mut end = first;
        while let Some(length) = first_length(&self.rest[end..]) {
            if length <= 2 || self.rest[end + 1] == self.kind {
                break;
            }
            end += length;
        }
        let (group, behind) = self.rest.split_at(end);
        self.rest = behind;
        Some(group)
    }
}

/// What is behind the descriptor in front of a group.
fn behind_first(group: &[u8]) -> &[u8] {
    &group[usize::from(group[0])..]
}

/// A device descriptor.
#[derive(Clone, Copy)]
pub struct DeviceDescriptor([u8; DeviceDescriptor::LENGTH]);

impl DeviceDescriptor {
    const LENGTH: usize = 18;

    /// The device descriptor in front of a device's bytes, if a whole one stands there.
    pub fn new(bytes: &[u8]) -> Option<DeviceDescriptor> {
        let descriptor: [u8; Self::LENGTH] = *bytes.first_chunk()?;
        let is_device = usize::from(descriptor[0]) >= Self::LENGTH && descriptor[1] == DEVICE;
        is_device.then_some(DeviceDescriptor(descriptor))
    }
}

/// The configurations behind the device descriptor, which may itself be of any content.
pub fn configurations(bytes: &[u8]) -> impl Iterator<Item = Configuration<'_>> {
    let mut rest = bytes.get(DeviceDescriptor::LENGTH..).unwrap_or_default();
    std::iter::from_fn(move || {
        let (first, behind) = first_configuration(rest)?;
        rest = behind;
        Some(first)
    })
}

/// The configuration in front, if a whole one stands there, and what is behind it.
fn first_configuration(bytes: &[u8]) -> Option<(Configuration<'_>, &[u8])> {
    if bytes.len() < 9 || bytes[0] < 9 || bytes[1] != CONFIGURATION {
        return None;
    }
    let total = usize::from(word(bytes, 2));
    if total < usize::from(bytes[0]) {
        return None;
    }
    let (first, behind) = bytes.split_at_checked(total)?;
    Some((Configuration(first), behind))
}

/// A configuration descriptor and those behind it, of its total length.
#[derive(Clone, Copy)]
pub struct Configuration<'a>(&'a [u8]);

impl<'a> Configuration<'a> {
    pub fn value(self) -> u8 {
        self.0[5]
    }

    pub fn settings(self) -> impl Iterator<Item = Setting<'a>> {
        Groups {
            rest: behind_first(self.0),
            kind: INTERFACE,
            least: 9,
        }
        .map(Setting)
    }
}

/// An interface descriptor and those of this setting behind it.
#[derive(Clone, Copy)]
pub struct Setting<'a>(&'a [u8]);

impl<'a> Setting<'a> {
    pub fn interface_number(self) -> u8 {
        self.0[2]
    }

    pub fn alternate_setting(self) -> u8 {
        self.0[3]
    }

    pub fn endpoints(self) -> impl Iterator<Item = Endpoint<'a>> {
        Groups {
            rest: behind_first(self.0),
            kind: ENDPOINT,
            least: 7,
        }
        .map(Endpoint)
    }
}

/// An endpoint descriptor.
#[derive(Clone, Copy)]
pub struct Endpoint<'a>(&'a [u8]);

impl Endpoint<'_> {
    pub fn address(self) -> u8 {
        self.0[2]
    }

    pub fn transfer_type(self) -> TransferType {
        match self.0[3] & 3 {
            0 => TransferType::Control,
            1 => TransferType::Isochronous,
            2 => TransferType::Bulk,
            _ => TransferType::Interrupt,
        }
    }

    pub fn max_packet_size(self) -> usize {
        usize::from(word(self.0, 4) & 0x7ff)
    }
}

/// The words of a device descriptor, as `devdesc` prints them.
impl Show for DeviceDescriptor {
    fn show(&self, text: &mut Text) {
        let d = self.0;
        let hex_word = |text: &mut Text, at| {
            text.hex(&word(&d, at).to_be_bytes()).word(" ");
        };
        hex_word(text, 2);
        for at in 4..7 {
            text.hex(&d[at..=at]).word(" ");
        }
        text.number(d[7].into()).word(" ");
        for at in [8, 10, 12] {
            hex_word(text, at);
        }
        text.number(d[14].into());
        for byte in &d[15..] {
            text.word(" ").number(u64::from(*byte));
        }
    }
}

/// A configuration's part of the answer to `descriptors`.
impl Show for Configuration<'_> {
    fn show(&self, text: &mut Text) {
        text.word("cfg ").number(self.value().into());
        let mut settings: Vec<Setting> = self.settings().collect();
        settings.sort_by_key(|setting| setting.interface_number());
        for setting in settings {
            text.word(" ").show(&setting);
        }
    }
}

impl Show for Setting<'_> {
    fn show(&self, text: &mut Text) {
        let [class, subclass, protocol] = [5, 6, 7].map(|at| [self.0[at]]);
        text.word("if ").number(self.interface_number().into());
        text.word(".").number(self.alternate_setting().into());
        text.word(" ")
            .hex(&class)
            .word(" ")
            .hex(&subclass)
            .word(" ")
            .hex(&protocol);
        for endpoint in self.endpoints() {
            text.word(" ").show(&endpoint);
        }
    }
}

impl Show for Endpoint<'_> {
    fn show(&self, text: &mut Text) {
        text.word("ep ")
            .hex(&[self.address()])
            .word(" ")
            .show(&self.transfer_type());
        text.word(" ").number(self.max_packet_size() as u64);
        text.word(" ").number(self.0[6].into());
    }
}
