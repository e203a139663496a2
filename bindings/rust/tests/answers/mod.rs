//! What descriptors say of bytes, in the words of the repository's rows. A row is a question and its
//! answer: the question is a word, and bytes in hexadecimal digits.

use std::num::NonZeroU8;
use usb_host_core::descriptors::{
    ConfigurationDescriptor, Descriptor, DeviceDescriptor, EndpointDescriptor, InterfaceDescriptor,
    InterfaceDescriptors, TransferType,
};
use usb_host_core::transfer::Direction;

/// The bytes of hexadecimal digits; `-` stands for none.
pub fn bytes_of(digits: &str) -> Vec<u8> {
    let pairs = digits.trim_matches('-').as_bytes().chunks_exact(2);
    let pairs = pairs.map(|pair| std::str::from_utf8(pair).unwrap());
    pairs.map(|pair| u8::from_str_radix(pair, 16).unwrap()).collect()
}

/// The answer to a question on descriptors; `None` where the word is not one of these.
pub fn answer(word: &str, bytes: &[u8]) -> Option<String> {
    Some(match word {
        "one" => single_words(bytes),
        "dev" => device_words(bytes),
        "cfg" => configuration_words(bytes),
        "all" => all_words(bytes),
        "both" => format!("{}; {}", device_words(bytes), all_words(bytes)),
        "order" => order_words(bytes),
        #[cfg(usb_core_c)]
        "str" => string_words(bytes),
        _ => return None,
    })
}

fn number_of(index: Option<NonZeroU8>) -> u8 {
    index.map_or(0, NonZeroU8::get)
}

fn single_words(bytes: &[u8]) -> String {
    Descriptor::new(bytes).map_or("none".to_owned(), |it| {
        format!("{} {} {}", it.descriptor_len(), it.descriptor_type(), it.as_bytes().len())
    })
}

fn device_words(bytes: &[u8]) -> String {
    let Some(it) = DeviceDescriptor::new(bytes) else {
        return "none".to_owned();
    };
    let codes = format!("{:02x} {:02x} {:02x}", it.class(), it.subclass(), it.protocol());
    let ids = format!("{:04x} {:04x} {:04x}", it.vendor_id(), it.product_id(), it.device_version());
    let strings = [
        it.manufacturer_string_index(),
        it.product_string_index(),
        it.serial_number_string_index(),
    ];
    let [manufacturer, product, serial] = strings.map(number_of);
    format!(
        "device {:04x} {codes} {} {ids} {manufacturer} {product} {serial} {} bytes {}",
        it.usb_version(),
        it.max_packet_size_0(),
        it.num_configurations(),
        it.as_bytes().len()
    )
}

fn configuration_words(bytes: &[u8]) -> String {
    let Some(it) = ConfigurationDescriptor::new(bytes) else {
        return "none".to_owned();
    };
    let chain: String = it.descriptors().map(|it| chain_words(&it)).collect();
    format!(
        "cfg {} len {} n {} str {} attr {:02x} pow {}{} chain{chain}",
        it.configuration_value(),
        it.as_bytes().len(),
        it.num_interfaces(),
        number_of(it.string_index()),
        it.attributes(),
        it.max_power(),
        interfaces_words(&it, true)
    )
}

fn chain_words(it: &Descriptor<'_>) -> String {
    format!(" {:02x}:{:02x}:{}", it.descriptor_len(), it.descriptor_type(), it.as_bytes().len())
}

/// The configurations behind the device descriptor, where that is valid.
fn all_words(bytes: &[u8]) -> String {
    if DeviceDescriptor::new(bytes).is_none() {
        return "invalid".to_owned();
    }
    let mut rest = bytes.get(18..).unwrap_or(&[]);
    let mut words = "desc".to_owned();
    while let Some(configuration) = ConfigurationDescriptor::new(rest) {
        let value = configuration.configuration_value();
        words += &format!(" cfg {value}{}", interfaces_words(&configuration, false));
        rest = &rest[configuration.as_bytes().len()..];
    }
    words
}

fn interfaces_words(configuration: &ConfigurationDescriptor<'_>, has_details: bool) -> String {
    let mut words = String::new();
    for interface in configuration.interfaces() {
        words.extend(interface.alt_settings().map(|it| setting_words(&it, has_details)));
    }
    words
}

/// The number of each interface, its first setting and all of them in their order.
fn order_words(bytes: &[u8]) -> String {
    ConfigurationDescriptor::new(bytes).map_or("none".to_owned(), |it| {
        let interfaces: String = it.interfaces().map(|it| interface_words(&it)).collect();
        format!("order{interfaces}")
    })
}

fn interface_words(it: &InterfaceDescriptors<'_>) -> String {
    let settings: String =
        it.alt_settings().map(|it| format!(" {}", it.alternate_setting())).collect();
    let first = it.first_alt_setting().alternate_setting();
    format!(" if {} first {first} all{settings}", it.interface_number())
}

fn setting_words(it: &InterfaceDescriptor<'_>, has_details: bool) -> String {
    let codes = format!("{:02x} {:02x} {:02x}", it.class(), it.subclass(), it.protocol());
    let mut words = format!(" if {}.{} {codes}", it.interface_number(), it.alternate_setting());
    if has_details {
        let (length, string) = (it.as_bytes().len(), number_of(it.string_index()));
        words += &format!(" [len {length} n {} str {string}]", it.num_endpoints());
    }
    words.extend(it.endpoints().map(|it| endpoint_words(&it, has_details)));
    words
}

fn endpoint_words(it: &EndpointDescriptor<'_>, has_details: bool) -> String {
    let kind = match it.transfer_type() {
        TransferType::Control => "control",
        TransferType::Isochronous => "iso",
        TransferType::Bulk => "bulk",
        TransferType::Interrupt => "interrupt",
    };
    let (address, max) = (it.address(), it.max_packet_size());
    let mut words = format!(" ep {address:02x} {kind} {max} {}", it.interval());
    if has_details {
        words += &format!(
            " [len {} attr {:02x} raw {:04x} ppm {} in {}]",
            it.as_bytes().len(),
            it.attributes(),
            it.max_packet_size_raw(),
            it.packets_per_microframe(),
            u8::from(it.direction() == Direction::In)
        );
    }
    words
}

/// The text of a string descriptor, as the library reads it.
#[cfg(usb_core_c)]
fn string_words(bytes: &[u8]) -> String {
    match usb_host_core::proved::string(bytes).as_deref() {
        None => "invalid".to_owned(),
        Some("") => "string -".to_owned(),
        Some(text) => {
            text.bytes().fold("string ".to_owned(), |words, it| format!("{words}{it:02x}"))
        }
    }
}
