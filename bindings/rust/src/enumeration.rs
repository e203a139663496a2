use crate::maybe_future::Action;
use crate::sim::{lock, Shared};
use crate::words::{hex_number, number, text_of};
use crate::{Device, Error, MaybeFuture};
use std::fmt;
use std::path::{Path, PathBuf};

/// Which device it is: its bus and its address.
#[derive(Copy, Clone, PartialEq, Eq, Debug, Hash)]
pub struct DeviceId {
    pub(crate) bus: u8,
    pub(crate) address: u8,
}

/// The words of `info` in an answer.
pub(crate) struct DeviceWords {
    path: PathBuf,
    place: (u8, u8),
    ports: Vec<u8>,
    /// Vendor, product, version of the device, version of USB.
    numbers: [u16; 4],
    /// Class, subclass, protocol.
    codes: [u8; 3],
    speed: Option<Speed>,
    /// Manufacturer, product, serial number.
    texts: [Option<String>; 3],
    interfaces: Vec<InterfaceInfo>,
}

/// A number of two hexadecimal digits.
fn code(word: &str) -> u8 {
    hex_number(word).to_le_bytes()[0]
}

impl DeviceWords {
    pub(crate) fn new(words: &str, path: &str) -> DeviceWords {
        let words: Vec<&str> = words.split(' ').collect();
        let ports = match words[2] {
            "-" => Vec::new(),
            ports => ports.split('.').map(number).collect(),
        };
        DeviceWords {
            path: PathBuf::from(path),
            place: (number(words[0]), number(words[1])),
            ports,
            numbers: [3, 4, 5, 6].map(|at| hex_number(words[at])),
            codes: [7, 8, 9].map(|at| code(words[at])),
            speed: Speed::from_word(words[10]),
            texts: [11, 12, 13].map(|at| text_of(words[at])),
            interfaces: words[14..].iter().map(|it| InterfaceInfo::new(it)).collect(),
        }
    }

    pub(crate) fn at(self, shared: &Shared) -> DeviceInfo {
        let [vendor_id, product_id, device_version, usb_version] = self.numbers;
        let [class, subclass, protocol] = self.codes;
        let [manufacturer, product, serial_number] = self.texts;
        DeviceInfo {
            shared: shared.clone(),
            path: self.path,
            bus_id: format!("{:03}", self.place.0),
            id: DeviceId { bus: self.place.0, address: self.place.1 },
            port_chain: self.ports,
            vendor_id,
            product_id,
            device_version,
            usb_version,
            class,
            subclass,
            protocol,
            speed: self.speed,
            manufacturer,
            product,
            serial_number,
            interfaces: self.interfaces,
        }
    }
}

/// What the system tells of a device that is plugged in.
#[derive(Clone)]
pub struct DeviceInfo {
    pub(crate) shared: Shared,
    path: PathBuf,
    bus_id: String,
    id: DeviceId,
    port_chain: Vec<u8>,
    vendor_id: u16,
    product_id: u16,
    device_version: u16,
    usb_version: u16,
    class: u8,
    subclass: u8,
    protocol: u8,
    speed: Option<Speed>,
    manufacturer: Option<String>,
    product: Option<String>,
    serial_number: Option<String>,
    interfaces: Vec<InterfaceInfo>,
}

/// A text that the system has, as an action that gives it.
fn ready(text: &Option<String>) -> impl MaybeFuture<Output = Result<Option<String>, Error>> {
    let text = text.clone();
    Action(move || Ok(text))
}

impl DeviceInfo {
    /// Which device it is.
    pub fn id(&self) -> DeviceId {
        self.id
    }

    /// The device's folder in the system's tree.
    pub fn sysfs_path(&self) -> &Path {
        &self.path
    }

    /// The number of the bus.
    pub fn busnum(&self) -> u8 {
        self.id.bus
    }

    /// The ports behind which it is plugged in, from the root hub on.
    pub fn port_chain(&self) -> &[u8] {
        &self.port_chain
    }

    /// The bus, as a text.
    pub fn bus_id(&self) -> &str {
        &self.bus_id
    }

    /// The address on the bus.
    pub fn device_address(&self) -> u8 {
        self.id.address
    }

    /// The vendor's number.
    #[doc(alias = "idVendor")]
    pub fn vendor_id(&self) -> u16 {
        self.vendor_id
    }

    /// The product's number.
    #[doc(alias = "idProduct")]
    pub fn product_id(&self) -> u16 {
        self.product_id
    }

    /// The version of the device, in binary-coded decimal.
    #[doc(alias = "bcdDevice")]
    pub fn device_version(&self) -> u16 {
        self.device_version
    }

    /// The version of USB, in binary-coded decimal.
    #[doc(alias = "bcdUSB")]
    pub fn usb_version(&self) -> u16 {
        self.usb_version
    }

    /// The class code.
    #[doc(alias = "bDeviceClass")]
    pub fn class(&self) -> u8 {
        self.class
    }

    /// The subclass code.
    #[doc(alias = "bDeviceSubClass")]
    pub fn subclass(&self) -> u8 {
        self.subclass
    }

    /// The protocol code.
    #[doc(alias = "bDeviceProtocol")]
    pub fn protocol(&self) -> u8 {
        self.protocol
    }

    /// The speed, where the system tells it.
    pub fn speed(&self) -> Option<Speed> {
        self.speed
    }

    /// The name of the manufacturer.
    #[doc(alias = "iManufacturer")]
    pub fn manufacturer_string(&self) -> Option<&str> {
        self.manufacturer.as_deref()
    }

    /// The name of the manufacturer.
    #[doc(alias = "iManufacturer")]
    pub fn get_manufacturer_string(
        &self,
    ) -> impl MaybeFuture<Output = Result<Option<String>, Error>> {
        ready(&self.manufacturer)
    }

    /// The name of the product.
    #[doc(alias = "iProduct")]
    pub fn product_string(&self) -> Option<&str> {
        self.product.as_deref()
    }

    /// The name of the product.
    pub fn get_product_string(&self) -> impl MaybeFuture<Output = Result<Option<String>, Error>> {
        ready(&self.product)
    }

    /// The serial number.
    #[doc(alias = "iSerial")]
    pub fn serial_number(&self) -> Option<&str> {
        self.serial_number.as_deref()
    }

    /// The serial number.
    #[doc(alias = "iSerial")]
    pub fn get_serial_number_string(
        &self,
    ) -> impl MaybeFuture<Output = Result<Option<String>, Error>> {
        ready(&self.serial_number)
    }

    /// The interfaces of the active configuration, by rising number.
    pub fn interfaces(&self) -> impl Iterator<Item = &InterfaceInfo> {
        self.interfaces.iter()
    }

    /// Whether all that the selector has is true of the device.
    pub fn matches(&self, s: &DeviceSelector) -> bool {
        lock(&self.shared).matches(&self.path.to_string_lossy(), s)
    }

    /// Opens the device.
    pub fn open(&self) -> impl MaybeFuture<Output = Result<Device, Error>> {
        Device::open(self)
    }
}

impl fmt::Debug for DeviceInfo {
    fn fmt(&self, f: &mut fmt::Formatter<'_>) -> fmt::Result {
        f.debug_struct("DeviceInfo")
            .field("bus_id", &self.bus_id)
            .field("device_address", &self.id.address)
            .field("port_chain", &format_args!("{:?}", self.port_chain))
            .field("speed", &self.speed)
            .field("vendor_id", &format_args!("0x{:04X}", self.vendor_id))
            .field("product_id", &format_args!("0x{:04X}", self.product_id))
            .field("device_version", &format_args!("0x{:04X}", self.device_version))
            .field("usb_version", &format_args!("0x{:04X}", self.usb_version))
            .field("class", &format_args!("0x{:02X}", self.class))
            .field("subclass", &format_args!("0x{:02X}", self.subclass))
            .field("protocol", &format_args!("0x{:02X}", self.protocol))
            .field("manufacturer_string", &self.manufacturer)
            .field("product_string", &self.product)
            .field("serial_number", &self.serial_number)
            .field("sysfs_path", &self.path)
            .field("interfaces", &self.interfaces)
            .finish()
    }
}

/// The speed of a device.
#[derive(Copy, Clone, Eq, PartialOrd, Ord, PartialEq, Hash, Debug)]
#[non_exhaustive]
pub enum Speed {
    /// Low speed, 1.5 Mbit/s.
    Low,
    /// Full speed, 12 Mbit/s.
    Full,
    /// High speed, 480 Mbit/s.
    High,
    /// Super speed, 5 Gbit/s.
    Super,
    /// Super speed plus, 10 Gbit/s.
    SuperPlus,
}

impl Speed {
    pub(crate) fn from_word(word: &str) -> Option<Speed> {
        match word {
            "Low" => Some(Speed::Low),
            "Full" => Some(Speed::Full),
            "High" => Some(Speed::High),
            "Super" => Some(Speed::Super),
            "SuperPlus" => Some(Speed::SuperPlus),
            _ => None,
        }
    }
}

/// What the system tells of an interface.
#[derive(Clone)]
pub struct InterfaceInfo {
    interface_number: u8,
    class: u8,
    subclass: u8,
    protocol: u8,
    text: Option<String>,
}

impl InterfaceInfo {
    /// The word `NUM:CC:SS:PP:STRING` of an answer.
    fn new(word: &str) -> InterfaceInfo {
        let words: Vec<&str> = word.split(':').collect();
        InterfaceInfo {
            interface_number: number(words[0]),
            class: code(words[1]),
            subclass: code(words[2]),
            protocol: code(words[3]),
            text: text_of(words[4]),
        }
    }

    /// The interface's number.
    #[doc(alias = "bInterfaceNumber")]
    pub fn interface_number(&self) -> u8 {
        self.interface_number
    }

    /// The class code.
    #[doc(alias = "bInterfaceClass")]
    pub fn class(&self) -> u8 {
        self.class
    }

    /// The subclass code.
    #[doc(alias = "bInterfaceSubClass")]
    pub fn subclass(&self) -> u8 {
        self.subclass
    }

    /// The protocol code.
    #[doc(alias = "bInterfaceProtocol")]
    pub fn protocol(&self) -> u8 {
        self.protocol
    }

    /// The text of the interface.
    pub fn interface_string(&self) -> Option<&str> {
        self.text.as_deref()
    }

    /// The text of the interface.
    #[doc(alias = "iInterface")]
    pub fn get_interface_string(&self) -> impl MaybeFuture<Output = Result<Option<String>, Error>> {
        ready(&self.text)
    }
}

impl fmt::Debug for InterfaceInfo {
    fn fmt(&self, f: &mut fmt::Formatter<'_>) -> fmt::Result {
        f.debug_struct("InterfaceInfo")
            .field("interface_number", &self.interface_number)
            .field("class", &format_args!("0x{:02X}", self.class))
            .field("subclass", &format_args!("0x{:02X}", self.subclass))
            .field("protocol", &format_args!("0x{:02X}", self.protocol))
            .field("interface_string", &self.text)
            .finish()
    }
}

/// The kind of a host controller.
#[derive(Copy, Clone, Eq, PartialOrd, Ord, PartialEq, Hash, Debug)]
#[non_exhaustive]
pub enum UsbControllerType {
    /// xHCI, of USB 3.0 and later.
    XHCI,
    /// EHCI, of USB 2.0.
    EHCI,
    /// OHCI, of USB 1.1.
    OHCI,
    /// UHCI, of USB 1.
    UHCI,
    /// VHCI, a virtual one.
    VHCI,
}

/// A bus in an answer: the words of its controller's kind and driver, and its root hub.
pub(crate) struct BusWords {
    pub(crate) controller: String,
    pub(crate) driver: String,
    pub(crate) root_hub: DeviceWords,
}

impl BusWords {
    pub(crate) fn at(self, shared: &Shared) -> BusInfo {
        let controller_type = match self.controller.as_str() {
            "XHCI" => Some(UsbControllerType::XHCI),
            "EHCI" => Some(UsbControllerType::EHCI),
            "OHCI" => Some(UsbControllerType::OHCI),
            "UHCI" => Some(UsbControllerType::UHCI),
            "VHCI" => Some(UsbControllerType::VHCI),
            _ => None,
        };
        BusInfo {
            root_hub: self.root_hub.at(shared),
            driver: (self.driver != "none").then_some(self.driver),
            controller_type,
        }
    }
}

/// What the system tells of a bus.
pub struct BusInfo {
    root_hub: DeviceInfo,
    driver: Option<String>,
    controller_type: Option<UsbControllerType>,
}

impl BusInfo {
    /// The folder of its root hub in the system's tree.
    pub fn sysfs_path(&self) -> &Path {
        self.root_hub.sysfs_path()
    }

    /// Its number.
    pub fn busnum(&self) -> u8 {
        self.root_hub.busnum()
    }

    /// Its root hub.
    pub fn root_hub(&self) -> &DeviceInfo {
        &self.root_hub
    }

    /// The driver of its controller.
    pub fn driver(&self) -> Option<&str> {
        self.driver.as_deref()
    }

    /// Its number, as a text.
    pub fn bus_id(&self) -> &str {
        self.root_hub.bus_id()
    }

    /// The kind of its controller.
    pub fn controller_type(&self) -> Option<UsbControllerType> {
        self.controller_type
    }

    /// The name of the root hub's product.
    pub fn system_name(&self) -> Option<&str> {
        self.root_hub.product_string()
    }
}

impl fmt::Debug for BusInfo {
    fn fmt(&self, f: &mut fmt::Formatter<'_>) -> fmt::Result {
        f.debug_struct("BusInfo")
            .field("sysfs_path", &self.sysfs_path())
            .field("busnum", &self.busnum())
            .field("bus_id", &self.bus_id())
            .field("system_name", &self.system_name())
            .field("controller_type", &self.controller_type)
            .field("driver", &self.driver)
            .finish()
    }
}

/// What a device has to be, for [`request_device`][crate::request_device].
#[derive(Default, Clone)]
pub struct DeviceSelector {
    vendor_id: Option<u16>,
    product_id: Option<u16>,
    class: Option<u8>,
    subclass: Option<u8>,
    protocol: Option<u8>,
    serial_number: Option<String>,
}

impl DeviceSelector {
    /// Any device.
    pub const fn all() -> DeviceSelector {
        DeviceSelector {
            vendor_id: None,
            product_id: None,
            class: None,
            subclass: None,
            protocol: None,
            serial_number: None,
        }
    }

    /// With this vendor.
    pub const fn with_vid(mut self, vendor_id: u16) -> DeviceSelector {
        self.vendor_id = Some(vendor_id);
        self
    }

    /// With this vendor and this product.
    pub const fn with_vid_pid(mut self, vendor_id: u16, product_id: u16) -> DeviceSelector {
        self.vendor_id = Some(vendor_id);
        self.product_id = Some(product_id);
        self
    }

    /// With this class, of itself or of one of its interfaces.
    pub const fn with_class(mut self, class_code: u8) -> DeviceSelector {
        self.class = Some(class_code);
        self
    }

    /// With this class and subclass, of itself or of one of its interfaces.
    pub const fn with_class_subclass(
        mut self,
        class_code: u8,
        subclass_code: u8,
    ) -> DeviceSelector {
        self.class = Some(class_code);
        self.subclass = Some(subclass_code);
        self
    }

    /// With this class, subclass and protocol, of itself or of one of its interfaces.
    pub const fn with_class_subclass_protocol(
        mut self,
        class_code: u8,
        subclass_code: u8,
        protocol_code: u8,
    ) -> DeviceSelector {
        self.class = Some(class_code);
        self.subclass = Some(subclass_code);
        self.protocol = Some(protocol_code);
        self
    }

    /// With this serial number.
    pub fn with_serial_number(mut self, serial_number: String) -> DeviceSelector {
        self.serial_number = Some(serial_number);
        self
    }

    /// The vendor that is asked for.
    pub fn vendor_id(&self) -> Option<u16> {
        self.vendor_id
    }

    /// The product that is asked for.
    pub fn product_id(&self) -> Option<u16> {
        self.product_id
    }

    /// The class that is asked for.
    pub fn class(&self) -> Option<u8> {
        self.class
    }

    /// The subclass that is asked for.
    pub fn subclass(&self) -> Option<u8> {
        self.subclass
    }

    /// The protocol that is asked for.
    pub fn protocol(&self) -> Option<u8> {
        self.protocol
    }

    /// The serial number that is asked for.
    pub fn serial_number(&self) -> Option<&str> {
        self.serial_number.as_deref()
    }
}

impl fmt::Debug for DeviceSelector {
    fn fmt(&self, f: &mut fmt::Formatter<'_>) -> fmt::Result {
        let mut fields = f.debug_struct("DeviceSelector");
        if let Some(vendor_id) = self.vendor_id {
            fields.field("vendor_id", &format_args!("0x{vendor_id:04X}"));
        }
        if let Some(product_id) = self.product_id {
            fields.field("product_id", &format_args!("0x{product_id:04X}"));
        }
        let codes =
            [("class", self.class), ("subclass", self.subclass), ("protocol", self.protocol)];
        for (name, code) in codes {
            if let Some(code) = code {
                fields.field(name, &format_args!("0x{code:02X}"));
            }
        }
        if let Some(serial_number) = &self.serial_number {
            fields.field("serial_number", serial_number);
        }
        fields.finish()
    }
}
