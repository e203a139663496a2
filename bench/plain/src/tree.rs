//! The tree of attributes, and what is read of it.

use crate::errno::{self, Errno};
use std::collections::{BTreeSet, HashMap};
use std::rc::Rc;

/// What stands in for the file system under `/sys`. A folder and a name are a place.
#[derive(Default)]
pub struct Tree {
    attributes: HashMap<(Rc<str>, String), Result<Vec<u8>, Errno>>,
    children: HashMap<Rc<str>, BTreeSet<String>>,
    links: HashMap<(Rc<str>, String), String>,
    entries: Vec<(String, Rc<str>)>,
    places: HashMap<String, usize>,
    refusal: Option<Errno>,
}

/// Why a folder tells of no device: the attribute's path, and its errno or what it holds.
pub struct BadAttribute {
    pub path: String,
    pub why: Result<String, Errno>,
}

pub struct InterfaceInfo {
    pub number: u8,
    pub class: [u8; 3],
    pub text: Option<String>,
}

pub struct DeviceInfo {
    pub folder: Rc<str>,
    pub bus: u8,
    pub address: u8,
    pub vendor: u16,
    pub product: u16,
    pub version: u16,
    pub usb: u16,
    pub class: [u8; 3],
    pub ports: Vec<u8>,
    pub speed: Option<&'static str>,
    pub manufacturer: Option<String>,
    pub product_text: Option<String>,
    pub serial: Option<String>,
    pub interfaces: Vec<InterfaceInfo>,
}

pub struct BusInfo {
    pub hub: DeviceInfo,
    pub driver: Option<String>,
}

/// What a device is asked to be.
#[derive(Default)]
pub struct Selector {
    pub vendor: Option<u16>,
    pub product: Option<u16>,
    pub class: [Option<u8>; 3],
    pub serial: Option<String>,
}

fn inside(folder: &str, name: &str) -> String {
    let slash = if folder == "/" { "" } else { "/" };
    format!("{folder}{slash}{name}")
}

fn hex_byte(text: &str) -> Option<u8> {
    u8::from_str_radix(text.strip_prefix("0x").unwrap_or(text), 16).ok()
}

fn hex_word(text: &str) -> Option<u16> {
    u16::from_str_radix(text.strip_prefix("0x").unwrap_or(text), 16).ok()
}

fn version(text: &str) -> Option<u16> {
    text.split('.').try_fold(0u16, |before, part| {
        Some(before << 8 | u16::from_str_radix(part, 16).ok()?)
    })
}

fn ports(text: &str) -> Vec<u8> {
    if text == "0" {
        return Vec::new();
    }
    let parts = text.split('.').map(|part| part.parse().ok());
    parts.collect::<Option<_>>().unwrap_or_default()
}

fn speed(text: &str) -> Option<&'static str> {
    match text {
        "low" | "1.5" => Some("Low"),
        "full" | "12" => Some("Full"),
        "high" | "480" => Some("High"),
        "super" | "5000" => Some("Super"),
        "super+" | "10000" => Some("SuperPlus"),
        _ => None,
    }
}

impl Tree {
    pub fn set(&mut self, folder: &str, name: &str, content: Result<Vec<u8>, Errno>) {
        self.attributes
            .insert((folder.into(), name.into()), content);
    }

    pub fn add_child(&mut self, folder: &str, name: &str) {
        self.children
            .entry(folder.into())
            .or_default()
            .insert(name.into());
    }

    pub fn set_link(&mut self, folder: &str, name: &str, target: &str) {
        self.links
            .insert((folder.into(), name.into()), target.into());
    }

    pub fn set_entry(&mut self, name: &str, folder: &str) {
        let place = *self.places.entry(name.into()).or_insert(self.entries.len());
        let entry = (name.into(), folder.into());
        if place == self.entries.len() {
            self.entries.push(entry);
        } else {
            self.entries[place] = entry;
        }
    }

    pub fn refuse(&mut self, errno: Errno) {
        self.refusal = Some(errno);
    }

    fn text(&self, folder: &Rc<str>, name: &str) -> Result<&str, Errno> {
        match self.attributes.get(&(folder.clone(), name.into())) {
            None => Err(errno::NOENT),
            Some(Err(errno)) => Err(*errno),
            Some(Ok(bytes)) => std::str::from_utf8(bytes).map_err(|_| errno::ILSEQ),
        }
    }

    fn value<T>(
        &self,
        folder: &Rc<str>,
        name: &str,
        parse: impl Fn(&str) -> Option<T>,
    ) -> Result<T, BadAttribute> {
        let why = match self.text(folder, name) {
            Err(errno) => Err(errno),
            Ok(text) => match parse(text.trim()) {
                Some(value) => return Ok(value),
                None => Ok(text.to_owned()),
            },
        };
        Err(BadAttribute {
            path: inside(folder, name),
            why,
        })
    }

    fn string(&self, folder: &Rc<str>, name: &str) -> Option<String> {
        Some(self.text(folder, name).ok()?.trim().to_owned())
    }

    fn interface(&self, folder: &Rc<str>) -> Result<InterfaceInfo, BadAttribute> {
        Ok(InterfaceInfo {
            number: self.value(folder, "bInterfaceNumber", hex_byte)?,
            class: [
                self.value(folder, "bInterfaceClass", hex_byte)?,
                self.value(folder, "bInterfaceSubClass", hex_byte)?,
                self.value(folder, "bInterfaceProtocol", hex_byte)?,
            ],
            text: self.string(folder, "interface"),
        })
    }

    fn interfaces(&self, folder: &Rc<str>) -> Vec<InterfaceInfo> {
        let names = self.children.get(folder).into_iter().flatten();
        let folders = names
            .filter(|name| name.contains(':'))
            .map(|name| inside(folder, name));
        let mut found: Vec<_> = folders
            .filter_map(|it| self.interface(&it.into()).ok())
            .collect();
        found.sort_by_key(|interface| interface.number);
        found
    }

    pub fn probe(&self, folder: &str) -> Result<DeviceInfo, BadAttribute> {
        let folder: Rc<str> = folder.into();
        let decimal = |text: &str| text.parse::<u8>().ok();
        Ok(DeviceInfo {
            bus: self.value(&folder, "busnum", decimal)?,
            address: self.value(&folder, "devnum", decimal)?,
            vendor: self.value(&folder, "idVendor", hex_word)?,
            product: self.value(&folder, "idProduct", hex_word)?,
            version: self.value(&folder, "bcdDevice", hex_word)?,
            usb: self.value(&folder, "version", version)?,
            class: [
                self.value(&folder, "bDeviceClass", hex_byte)?,
                self.value(&folder, "bDeviceSubClass", hex_byte)?,
                self.value(&folder, "bDeviceProtocol", hex_byte)?,
            ],
            ports: self
                .string(&folder, "devpath")
                .map_or(Vec::new(), |text| ports(&text)),
            speed: self.string(&folder, "speed").and_then(|text| speed(&text)),
            manufacturer: self.string(&folder, "manufacturer"),
            product_text: self.string(&folder, "product"),
            serial: self.string(&folder, "serial"),
            interfaces: self.interfaces(&folder),
            folder,
        })
    }

    fn listed(&self, is_named: fn(&str) -> bool) -> Result<Vec<DeviceInfo>, Errno> {
        if let Some(errno) = self.refusal {
            return Err(errno);
        }
        let named = self.entries.iter().filter(|(name, _)| is_named(name));
        Ok(named
            .filter_map(|(_, folder)| self.probe(folder).ok())
            .collect())
    }

    pub fn devices(&self) -> Result<Vec<DeviceInfo>, Errno> {
        self.listed(|name| name.bytes().all(|b| matches!(b, b'0'..=b'9' | b'-' | b'.')))
    }

    pub fn buses(&self) -> Result<Vec<BusInfo>, Errno> {
        let hubs = self.listed(|name| name.starts_with("usb"))?;
        Ok(hubs.into_iter().filter_map(|hub| self.bus(hub)).collect())
    }

    fn bus(&self, hub: DeviceInfo) -> Option<BusInfo> {
        if &*hub.folder == "/" {
            return None;
        }
        let (above, _) = hub.folder.rsplit_once('/')?;
        let above = if above.is_empty() { "/" } else { above };
        let target = self.links.get(&(above.into(), "driver".into()));
        let last = target.and_then(|it| it.split('/').rfind(|name| !matches!(*name, "" | ".")));
        let driver = last.filter(|name| *name != "..").map(str::to_owned);
        Some(BusInfo { hub, driver })
    }
}

impl BusInfo {
    pub fn controller(&self) -> &'static str {
        let name = self.driver.as_deref().unwrap_or("").to_ascii_lowercase();
        let before = name.find("hci").and_then(|at| at.checked_sub(1));
        match before.map(|at| name.as_bytes()[at]) {
            Some(b'x') => "XHCI",
            Some(b'e') => "EHCI",
            Some(b'o') => "OHCI",
            Some(b'u') => "UHCI",
            Some(b'v') => "VHCI",
            _ => "none",
        }
    }
}

impl Selector {
    fn is_class(&self, class: [u8; 3]) -> bool {
        let mut asked = self.class.iter().zip(class);
        asked.all(|(asked, code)| asked.is_none_or(|asked| asked == code))
    }

    pub fn matches(&self, device: &DeviceInfo) -> bool {
        self.vendor.is_none_or(|vendor| vendor == device.vendor)
            && self.product.is_none_or(|product| product == device.product)
            && (self.serial.is_none() || self.serial == device.serial)
            && (self.is_class(device.class)
                || device.interfaces.iter().any(|it| self.is_class(it.class)))
    }
}
