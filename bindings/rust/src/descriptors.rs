//! Descriptors: what a device tells of itself (USB 2.0, section 9.6).
//!
//! Where the library `usb_core_c` is linked its proved walks tell where each descriptor stands: a
//! device, a configuration, a setting, an endpoint, and the next one of raw descriptors. No library
//! lends bytes, so the iterators here cut them out at these places. A field is read at its place in
//! the bytes, and `interfaces` puts settings together by their number. Where no library is linked
//! src/walk.rs tells the places, and the tests compare the two.

#[cfg(usb_core_c)]
use crate::proved as walk;
use crate::transfer::Direction;
#[cfg(not(usb_core_c))]
use crate::walk;
use std::collections::BTreeMap;
use std::fmt;
use std::num::NonZeroU8;
use std::ops::Deref;

const INTERFACE_TYPE: u8 = 4;
const ENDPOINT_TYPE: u8 = 5;
const INTERFACE_LENGTH: u8 = 9;
const ENDPOINT_LENGTH: u8 = 7;

/// Languages of strings.
pub mod language_id {
    /// US English.
    pub const US_ENGLISH: u16 = 0x0409;
}

fn word_at(bytes: &[u8], at: usize) -> u16 {
    u16::from_le_bytes([bytes[at], bytes[at + 1]])
}

/// One descriptor: its bytes, of which the first is its length and the second its type.
#[derive(Clone, Debug, PartialEq, Eq)]
pub struct Descriptor<'a>(&'a [u8]);

impl<'a> Descriptor<'a> {
    /// The descriptor in these bytes: at least two, and as many as its length says.
    #[allow(clippy::new_ret_no_self)]
    pub fn new(bytes: &[u8]) -> Option<Descriptor<'_>> {
        let is_whole = bytes.len() >= 2 && bytes.len() >= usize::from(bytes[0]);
        is_whole.then_some(Descriptor(bytes))
    }

    /// Its length, as its first byte says.
    #[doc(alias = "bLength")]
    pub fn descriptor_len(&self) -> usize {
        usize::from(self.0[0])
    }

    /// Its type, the second byte.
    #[doc(alias = "bDescriptorType")]
    pub fn descriptor_type(&self) -> u8 {
        self.0[1]
    }

    /// Its bytes.
    pub fn as_bytes(&self) -> &'a [u8] {
        self.0
    }
}

impl Deref for Descriptor<'_> {
    type Target = [u8];

    fn deref(&self) -> &[u8] {
        self.0
    }
}

/// Descriptors one behind the other.
#[derive(Clone)]
pub struct DescriptorIter<'a>(&'a [u8]);

impl<'a> DescriptorIter<'a> {
    /// The bytes of those that are left.
    pub fn as_bytes(&self) -> &'a [u8] {
        self.0
    }
}

impl<'a> Iterator for DescriptorIter<'a> {
    type Item = Descriptor<'a>;

    fn next(&mut self) -> Option<Descriptor<'a>> {
        let (first, rest) = self.0.split_at(walk::descriptor_len(self.0)?);
        self.0 = rest;
        Some(Descriptor(first))
    }
}

/// The descriptors of one type, each with those behind it up to the next of its type. One that is
/// too short is left out, and a descriptor of two bytes ends a group.
#[derive(Clone)]
struct Groups<'a> {
    rest: &'a [u8],
    kind: u8,
    least: u8,
}

impl<'a> Iterator for Groups<'a> {
    type Item = &'a [u8];

    fn next(&mut self) -> Option<&'a [u8]> {
        let group = walk::group(self.rest, self.kind, self.least)?;
        let (front, rest) = self.rest.split_at(group.end);
        self.rest = rest;
        Some(&front[group.start..])
    }
}

/// What a device tells of itself (USB 2.0, table 9-8).
#[derive(Clone)]
pub struct DeviceDescriptor([u8; 18]);

impl DeviceDescriptor {
    /// The device descriptor at the front of these bytes.
    pub fn new(bytes: &[u8]) -> Option<Self> {
        let bytes = bytes.first_chunk().filter(|it| walk::is_device(*it))?;
        Some(DeviceDescriptor(*bytes))
    }

    /// Its bytes.
    pub fn as_bytes(&self) -> &[u8] {
        &self.0
    }

    /// The version of USB, in binary-coded decimal.
    #[doc(alias = "bcdUSB")]
    pub fn usb_version(&self) -> u16 {
        word_at(&self.0, 2)
    }

    /// The class code.
    #[doc(alias = "bDeviceClass")]
    pub fn class(&self) -> u8 {
        self.0[4]
    }

    /// The subclass code.
    #[doc(alias = "bDeviceSubClass")]
    pub fn subclass(&self) -> u8 {
        self.0[5]
    }

    /// The protocol code.
    #[doc(alias = "bDeviceProtocol")]
    pub fn protocol(&self) -> u8 {
        self.0[6]
    }

    /// The maximum packet size of endpoint 0, in bytes.
    #[doc(alias = "bMaxPacketSize0")]
    pub fn max_packet_size_0(&self) -> u8 {
        self.0[7]
    }

    /// The vendor's number.
    #[doc(alias = "idVendor")]
    pub fn vendor_id(&self) -> u16 {
        word_at(&self.0, 8)
    }

    /// The product's number.
    #[doc(alias = "idProduct")]
    pub fn product_id(&self) -> u16 {
        word_at(&self.0, 10)
    }

    /// The version of the device, in binary-coded decimal.
    #[doc(alias = "bcdDevice")]
    pub fn device_version(&self) -> u16 {
        word_at(&self.0, 12)
    }

    /// The index of the manufacturer's string.
    #[doc(alias = "iManufacturer")]
    pub fn manufacturer_string_index(&self) -> Option<NonZeroU8> {
        NonZeroU8::new(self.0[14])
    }

    /// The index of the product's string.
    #[doc(alias = "iProduct")]
    pub fn product_string_index(&self) -> Option<NonZeroU8> {
        NonZeroU8::new(self.0[15])
    }

    /// The index of the string of the serial number.
    #[doc(alias = "iSerialNumber")]
    pub fn serial_number_string_index(&self) -> Option<NonZeroU8> {
        NonZeroU8::new(self.0[16])
    }

    /// How many configurations there are.
    #[doc(alias = "bNumConfigurations")]
    pub fn num_configurations(&self) -> u8 {
        self.0[17]
    }
}

impl fmt::Debug for DeviceDescriptor {
    fn fmt(&self, f: &mut fmt::Formatter<'_>) -> fmt::Result {
        f.debug_struct("DeviceDescriptor")
            .field("usb_version", &format_args!("0x{:04X}", self.usb_version()))
            .field("class", &format_args!("0x{:02X}", self.class()))
            .field("vendor_id", &format_args!("0x{:04X}", self.vendor_id()))
            .field("product_id", &format_args!("0x{:04X}", self.product_id()))
            .field("num_configurations", &self.num_configurations())
            .finish_non_exhaustive()
    }
}

/// A configuration with its interfaces and endpoints (USB 2.0, table 9-10).
#[derive(Clone)]
pub struct ConfigurationDescriptor<'a>(&'a [u8]);

impl<'a> ConfigurationDescriptor<'a> {
    /// The configuration at the front of these bytes: its descriptor and those behind it, as many
    /// as its total length says.
    #[allow(clippy::new_ret_no_self)]
    pub fn new(bytes: &[u8]) -> Option<ConfigurationDescriptor<'_>> {
        let length = walk::configuration_len(bytes)?;
        Some(ConfigurationDescriptor(&bytes[..length]))
    }

    /// The bytes of the whole configuration.
    pub fn as_bytes(&self) -> &'a [u8] {
        self.0
    }

    /// The descriptors behind its own.
    pub fn descriptors(&self) -> DescriptorIter<'a> {
        DescriptorIter(&self.0[usize::from(self.0[0])..])
    }

    /// All settings of its interfaces, in the order of their descriptors.
    pub fn interface_alt_settings(&self) -> impl Iterator<Item = InterfaceDescriptor<'a>> {
        let rest = self.descriptors().as_bytes();
        let groups = Groups { rest, kind: INTERFACE_TYPE, least: INTERFACE_LENGTH };
        groups.map(InterfaceDescriptor)
    }

    /// Its interfaces by rising number, each with its settings.
    pub fn interfaces(&self) -> impl Iterator<Item = InterfaceDescriptors<'a>> {
        let mut settings: BTreeMap<u8, Vec<InterfaceDescriptor<'a>>> = BTreeMap::new();
        for setting in self.interface_alt_settings() {
            settings.entry(setting.interface_number()).or_default().push(setting);
        }
        settings.into_iter().map(|(number, settings)| InterfaceDescriptors { number, settings })
    }

    /// How many interfaces it has, as its descriptor says.
    #[doc(alias = "bNumInterfaces")]
    pub fn num_interfaces(&self) -> u8 {
        self.0[4]
    }

    /// The value by which it is made the active one.
    #[doc(alias = "bConfigurationValue")]
    pub fn configuration_value(&self) -> u8 {
        self.0[5]
    }

    /// The index of its string.
    #[doc(alias = "iConfiguration")]
    pub fn string_index(&self) -> Option<NonZeroU8> {
        NonZeroU8::new(self.0[6])
    }

    /// Its attributes, as bits.
    #[doc(alias = "bmAttributes")]
    pub fn attributes(&self) -> u8 {
        self.0[7]
    }

    /// The current that it draws at most, in units of 2 mA (8 mA from USB 3.0 on).
    #[doc(alias = "bMaxPower")]
    pub fn max_power(&self) -> u8 {
        self.0[8]
    }
}

impl fmt::Debug for ConfigurationDescriptor<'_> {
    fn fmt(&self, f: &mut fmt::Formatter<'_>) -> fmt::Result {
        let settings: Vec<_> = self.interface_alt_settings().collect();
        f.debug_struct("Configuration")
            .field("configuration_value", &self.configuration_value())
            .field("num_interfaces", &self.num_interfaces())
            .field("attributes", &self.attributes())
            .field("max_power", &self.max_power())
            .field("string_index", &self.string_index())
            .field("interface_alt_settings", &settings)
            .finish()
    }
}

/// An interface with all its settings.
#[derive(Clone)]
pub struct InterfaceDescriptors<'a> {
    number: u8,
    settings: Vec<InterfaceDescriptor<'a>>,
}

impl<'a> InterfaceDescriptors<'a> {
    /// The interface's number.
    #[doc(alias = "bInterfaceNumber")]
    pub fn interface_number(&self) -> u8 {
        self.number
    }

    /// Its settings, in the order of their descriptors: at least one.
    pub fn alt_settings(&self) -> impl Iterator<Item = InterfaceDescriptor<'a>> + '_ {
        self.settings.iter().cloned()
    }

    /// The first of them.
    pub fn first_alt_setting(&self) -> InterfaceDescriptor<'a> {
        self.settings[0].clone()
    }
}

/// A setting of an interface, with its endpoints (USB 2.0, table 9-12).
#[derive(Clone)]
pub struct InterfaceDescriptor<'a>(&'a [u8]);

impl<'a> InterfaceDescriptor<'a> {
    /// The bytes of its descriptor and of those behind it.
    pub fn as_bytes(&self) -> &[u8] {
        self.0
    }

    /// The descriptors behind its own.
    pub fn descriptors(&self) -> DescriptorIter<'a> {
        DescriptorIter(&self.0[usize::from(self.0[0])..])
    }

    /// Its endpoints, in the order of their descriptors.
    pub fn endpoints(&self) -> impl Iterator<Item = EndpointDescriptor<'a>> {
        let rest = self.descriptors().as_bytes();
        let groups = Groups { rest, kind: ENDPOINT_TYPE, least: ENDPOINT_LENGTH };
        groups.map(EndpointDescriptor)
    }

    /// The interface's number.
    #[doc(alias = "bInterfaceNumber")]
    pub fn interface_number(&self) -> u8 {
        self.0[2]
    }

    /// The setting's number.
    #[doc(alias = "bAlternateSetting")]
    pub fn alternate_setting(&self) -> u8 {
        self.0[3]
    }

    /// How many endpoints it has, as its descriptor says.
    #[doc(alias = "bNumEndpoints")]
    pub fn num_endpoints(&self) -> u8 {
        self.0[4]
    }

    /// The class code.
    #[doc(alias = "bInterfaceClass")]
    pub fn class(&self) -> u8 {
        self.0[5]
    }

    /// The subclass code.
    #[doc(alias = "bInterfaceSubClass")]
    pub fn subclass(&self) -> u8 {
        self.0[6]
    }

    /// The protocol code.
    #[doc(alias = "bInterfaceProtocol")]
    pub fn protocol(&self) -> u8 {
        self.0[7]
    }

    /// The index of its string.
    #[doc(alias = "iInterface")]
    pub fn string_index(&self) -> Option<NonZeroU8> {
        NonZeroU8::new(self.0[8])
    }
}

impl fmt::Debug for InterfaceDescriptor<'_> {
    fn fmt(&self, f: &mut fmt::Formatter<'_>) -> fmt::Result {
        let endpoints: Vec<_> = self.endpoints().collect();
        f.debug_struct("InterfaceAltSetting")
            .field("interface_number", &self.interface_number())
            .field("alternate_setting", &self.alternate_setting())
            .field("num_endpoints", &self.num_endpoints())
            .field("class", &self.class())
            .field("subclass", &self.subclass())
            .field("protocol", &self.protocol())
            .field("string_index", &self.string_index())
            .field("endpoints", &endpoints)
            .finish()
    }
}

/// An endpoint of a setting (USB 2.0, table 9-13).
pub struct EndpointDescriptor<'a>(&'a [u8]);

impl<'a> EndpointDescriptor<'a> {
    /// The bytes of its descriptor and of those behind it.
    pub fn as_bytes(&self) -> &'a [u8] {
        self.0
    }

    /// The descriptors behind its own.
    pub fn descriptors(&self) -> DescriptorIter<'a> {
        DescriptorIter(&self.0[usize::from(self.0[0])..])
    }

    /// Its address: a number, and the direction as bit 7.
    #[doc(alias = "bEndpointAddress")]
    pub fn address(&self) -> u8 {
        self.0[2]
    }

    /// Its direction.
    pub fn direction(&self) -> Direction {
        Direction::from_address(self.address())
    }

    /// Its attributes, as bits.
    #[doc(alias = "bmAttributes")]
    pub fn attributes(&self) -> u8 {
        self.0[3]
    }

    /// Its transfer type, the two lowest bits of its attributes.
    pub fn transfer_type(&self) -> TransferType {
        match self.attributes() & 3 {
            0 => TransferType::Control,
            1 => TransferType::Isochronous,
            2 => TransferType::Bulk,
            _ => TransferType::Interrupt,
        }
    }

    /// The bits that tell its maximum packet size.
    #[doc(alias = "wMaxPacketSize")]
    pub fn max_packet_size_raw(&self) -> u16 {
        word_at(self.0, 4)
    }

    /// Its maximum packet size in bytes, bits 0 to 10.
    pub fn max_packet_size(&self) -> usize {
        usize::from(self.max_packet_size_raw() & 0x7FF)
    }

    /// How many packets go in a microframe, from bits 11 and 12.
    pub fn packets_per_microframe(&self) -> u8 {
        ((self.max_packet_size_raw() >> 11) & 3) as u8 + 1
    }

    /// Its interval, as the descriptor has it.
    #[doc(alias = "bInterval")]
    pub fn interval(&self) -> u8 {
        self.0[6]
    }
}

impl fmt::Debug for EndpointDescriptor<'_> {
    fn fmt(&self, f: &mut fmt::Formatter<'_>) -> fmt::Result {
        f.debug_struct("Endpoint")
            .field("address", &format_args!("0x{:02X}", self.address()))
            .field("direction", &self.direction())
            .field("transfer_type", &self.transfer_type())
            .field("max_packet_size", &self.max_packet_size())
            .field("packets_per_microframe", &self.packets_per_microframe())
            .field("interval", &self.interval())
            .finish()
    }
}

/// The transfer type of an endpoint (USB 2.0, table 9-13).
#[derive(Debug, Copy, Clone, PartialEq, Eq)]
pub enum TransferType {
    /// Control transfers.
    Control = 0,
    /// Isochronous transfers, which can't be opened.
    Isochronous = 1,
    /// Bulk transfers.
    Bulk = 2,
    /// Interrupt transfers.
    Interrupt = 3,
}

/// The configurations in these bytes, one behind the other, up to one that is not valid.
pub(crate) fn configurations(bytes: &[u8]) -> impl Iterator<Item = ConfigurationDescriptor<'_>> {
    let mut rest = bytes;
    std::iter::from_fn(move || {
        let configuration = ConfigurationDescriptor::new(rest)?;
        rest = &rest[configuration.as_bytes().len()..];
        Some(configuration)
    })
}
