//! The lines that declare a device: itself, and what the system's tree tells of it.

use crate::descriptors::{configurations, ConfigurationDescriptor, DeviceDescriptor};
use crate::session::Session;
use crate::sim::Plug;
use crate::words::hex;
use crate::Speed;
use std::num::NonZeroU8;

/// The number of a speed in the kernel, and its attribute.
fn speed_words(speed: Speed) -> (u8, &'static str) {
    match speed {
        Speed::Low => (1, "1.5"),
        Speed::Full => (2, "12"),
        Speed::High => (3, "480"),
        Speed::Super => (5, "5000"),
        Speed::SuperPlus => (6, "10000"),
    }
}

fn attribute(session: &mut Session, folder: &str, name: &str, value: &str) {
    session.set_up(&format!("attr {folder} {name} {}", hex(value.as_bytes())));
}

/// Declares a device, and the root hub of its bus where no device before it is on this bus.
pub(crate) fn write_tree(session: &mut Session, number: usize, plug: &Plug) {
    if !session.devices.iter().any(|it| it.plug.bus == plug.bus) {
        write_hub(session, plug);
    }
    let (speed, speed_text) = speed_words(plug.speed);
    session.set_up(&format!(
        "device k{number} {} {} {speed} {} {}",
        plug.bus,
        plug.address,
        plug.configuration,
        hex(&plug.descriptors)
    ));
    for interface in &plug.drivers {
        session.set_up(&format!("driver k{number} {interface}"));
    }
    let Some(device) = DeviceDescriptor::new(&plug.descriptors) else {
        return;
    };
    let folder = plug.path();
    session.set_up(&format!("entry {} {folder}", plug.entry()));
    let place = [("busnum", plug.bus), ("devnum", plug.address)];
    for (name, value) in place {
        attribute(session, &folder, name, &value.to_string());
    }
    attribute(session, &folder, "devpath", &plug.ports);
    attribute(session, &folder, "speed", speed_text);
    write_device(session, &folder, &device);
    write_texts(session, plug, &device);
    let bytes = plug.descriptors.get(18..).unwrap_or(&[]);
    let active = configurations(bytes).find(|it| it.configuration_value() == plug.configuration);
    if let Some(configuration) = active {
        write_interfaces(session, plug, &configuration);
    }
}

/// What the device descriptor tells.
fn write_device(session: &mut Session, folder: &str, device: &DeviceDescriptor) {
    let words = [
        ("idVendor", device.vendor_id()),
        ("idProduct", device.product_id()),
        ("bcdDevice", device.device_version()),
    ];
    for (name, value) in words {
        attribute(session, folder, name, &format!("{value:04x}"));
    }
    let [low, high] = device.usb_version().to_le_bytes();
    attribute(session, folder, "version", &format!("{high:2x}.{low:02x}\n"));
    let codes = [
        ("bDeviceClass", device.class()),
        ("bDeviceSubClass", device.subclass()),
        ("bDeviceProtocol", device.protocol()),
    ];
    for (name, value) in codes {
        attribute(session, folder, name, &format!("{value:02x}"));
    }
}

/// The strings that the device descriptor names.
fn write_texts(session: &mut Session, plug: &Plug, device: &DeviceDescriptor) {
    let texts = [
        ("manufacturer", device.manufacturer_string_index()),
        ("product", device.product_string_index()),
        ("serial", device.serial_number_string_index()),
    ];
    for (name, index) in texts {
        if let Some(text) = plug.text(index) {
            attribute(session, &plug.path(), name, text);
        }
    }
}

/// The folders of the interfaces: of each its first setting.
fn write_interfaces(
    session: &mut Session,
    plug: &Plug,
    configuration: &ConfigurationDescriptor<'_>,
) {
    let (folder, value) = (plug.path(), configuration.configuration_value());
    for interface in configuration.interfaces() {
        let setting = interface.first_alt_setting();
        let name = format!("{}:{value}.{}", plug.entry(), interface.interface_number());
        session.set_up(&format!("child {folder} {name}"));
        let folder = format!("{folder}/{name}");
        let codes = [
            ("bInterfaceNumber", setting.interface_number()),
            ("bInterfaceClass", setting.class()),
            ("bInterfaceSubClass", setting.subclass()),
            ("bInterfaceProtocol", setting.protocol()),
        ];
        for (name, value) in codes {
            attribute(session, &folder, name, &format!("{value:02x}"));
        }
        let index: Option<NonZeroU8> = setting.string_index();
        if let Some(text) = plug.text(index) {
            attribute(session, &folder, "interface", text);
        }
    }
}

/// The root hub of a bus.
fn write_hub(session: &mut Session, plug: &Plug) {
    let folder = plug.hub_path();
    session.set_up(&format!("entry usb{} {folder}", plug.bus));
    let (controller, _) = folder.rsplit_once('/').expect("a hub has a controller");
    session.set_up(&format!("link {controller} driver ../../../bus/pci/drivers/xhci_hcd"));
    let attributes = [
        ("busnum", plug.bus.to_string()),
        ("devnum", "1".to_owned()),
        ("devpath", "0".to_owned()),
        ("idVendor", "1d6b".to_owned()),
        ("idProduct", "0002".to_owned()),
        ("bcdDevice", "0606".to_owned()),
        ("version", " 2.00\n".to_owned()),
        ("bDeviceClass", "09".to_owned()),
        ("bDeviceSubClass", "00".to_owned()),
        ("bDeviceProtocol", "01".to_owned()),
        ("speed", "480".to_owned()),
        ("product", "xHCI Host Controller".to_owned()),
    ];
    for (name, value) in &attributes {
        attribute(session, &folder, name, value);
    }
}
