use crate::descriptors::{language_id, DeviceDescriptor};
use crate::transfer::{ControlIn, ControlType, Recipient};
use crate::Speed;
use std::collections::BTreeMap;
use std::sync::Arc;

const GET_DESCRIPTOR: u8 = 6;

/// What the system knows of a device: its descriptors and strings, and where it is plugged in.
#[derive(Debug, Clone)]
pub struct Plug {
    pub(crate) descriptors: Arc<[u8]>,
    pub(crate) strings: BTreeMap<u8, String>,
    pub(crate) bus: u8,
    pub(crate) address: u8,
    pub(crate) ports: String,
    pub(crate) speed: Speed,
    pub(crate) configuration: u8,
    pub(crate) drivers: Vec<u8>,
}

impl Plug {
    /// A device of these descriptors: that of the device, and then its configurations. It is a high
    /// speed device on bus 1, and its first configuration is active.
    pub fn new(descriptors: &[u8]) -> Plug {
        let first = crate::descriptors::configurations(descriptors.get(18..).unwrap_or(&[])).next();
        Plug {
            descriptors: descriptors.into(),
            strings: BTreeMap::new(),
            bus: 1,
            address: 0,
            ports: String::new(),
            speed: Speed::High,
            configuration: first.map_or(0, |it| it.configuration_value()),
            drivers: Vec::new(),
        }
    }

    /// With a string descriptor of this index, in US English. Those that the device descriptor
    /// names are the texts of `DeviceInfo` too.
    pub fn string(mut self, index: u8, text: &str) -> Plug {
        self.strings.insert(index, text.to_owned());
        self
    }

    /// At this bus and this address, behind these ports: decimal numbers with dots between them.
    pub fn at(mut self, bus: u8, address: u8, ports: &str) -> Plug {
        (self.bus, self.address) = (bus, address);
        ports.clone_into(&mut self.ports);
        self
    }

    /// At this speed.
    pub fn speed(mut self, speed: Speed) -> Plug {
        self.speed = speed;
        self
    }

    /// With the configuration of this value active; 0 for none.
    pub fn configuration(mut self, value: u8) -> Plug {
        self.configuration = value;
        self
    }

    /// With a kernel driver bound to the interface of this number.
    pub fn driver(mut self, interface: u8) -> Plug {
        self.drivers.push(interface);
        self
    }

    /// The same device, with an address and a port where it has none yet.
    pub(crate) fn placed(mut self, number: usize) -> Plug {
        if self.address == 0 {
            let number = u8::try_from(number).expect("a bench has at most 64 devices");
            self.address = number + 2;
            self.ports = (number + 1).to_string();
        }
        self
    }

    /// The folder of the device in the system's tree.
    pub(crate) fn path(&self) -> String {
        format!("{}/{}", self.hub_path(), self.entry())
    }

    /// The folder of the root hub of its bus.
    pub(crate) fn hub_path(&self) -> String {
        hub_path(self.bus)
    }

    /// The name of its entry in the system's listing.
    pub(crate) fn entry(&self) -> String {
        format!("{}-{}", self.bus, self.ports)
    }

    /// A packet of udev which tells that the device has come or has gone.
    pub(crate) fn udev_packet(&self, action: &str) -> Vec<u8> {
        let folder = self.path();
        let properties = format!(
            "ACTION={action}\0SUBSYSTEM=usb\0DEVTYPE=usb_device\0DEVPATH={}\0BUSNUM={:03}\0DEVNUM={:03}\0",
            folder.trim_start_matches("/sys"),
            self.bus,
            self.address
        );
        let mut packet = b"libudev\0\xfe\xed\xca\xfe".to_vec();
        let length = u32::try_from(properties.len()).expect("properties are short");
        for word in [40, 40, length, 0, 0, 0, 0] {
            packet.extend(u32::to_le_bytes(word));
        }
        packet.extend(properties.bytes());
        packet
    }

    /// The answer to a request for one of its descriptors (USB 2.0, section 9.4.3).
    pub(crate) fn standard(&self, request: ControlIn) -> Option<Vec<u8>> {
        let is_for_descriptor = request.control_type == ControlType::Standard
            && request.recipient == Recipient::Device
            && request.request == GET_DESCRIPTOR;
        let [index, kind] = request.value.to_le_bytes();
        let mut bytes = match (is_for_descriptor, kind) {
            (true, 1) => DeviceDescriptor::new(&self.descriptors)?.as_bytes().to_vec(),
            (true, 2) => {
                let bytes = self.descriptors.get(18..)?;
                let mut configurations = crate::descriptors::configurations(bytes);
                configurations.nth(usize::from(index))?.as_bytes().to_vec()
            }
            (true, 3) if index == 0 && !self.strings.is_empty() => {
                let [low, high] = language_id::US_ENGLISH.to_le_bytes();
                vec![4, 3, low, high]
            }
            (true, 3) => string_descriptor(self.strings.get(&index)?),
            _ => return None,
        };
        bytes.truncate(usize::from(request.length));
        Some(bytes)
    }

    /// The string of an index of the device descriptor.
    pub(crate) fn text(&self, index: Option<std::num::NonZeroU8>) -> Option<&str> {
        self.strings.get(&index?.get()).map(String::as_str)
    }
}

pub(crate) fn hub_path(bus: u8) -> String {
    format!("/sys/devices/pci0000:00/0000:00:{:02x}.0/usb{bus}", 0x13 + u16::from(bus))
}

/// A string descriptor (USB 2.0, table 9-16). Of a text that is too long the end is left out.
fn string_descriptor(text: &str) -> Vec<u8> {
    let mut bytes = vec![0, 3];
    for unit in text.encode_utf16().take(126) {
        bytes.extend(unit.to_le_bytes());
    }
    bytes[0] = bytes.len() as u8;
    bytes
}
