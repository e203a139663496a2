//! Descriptors, on the questions and answers that the repository's tests have.

mod answers;

use usb_host_core::descriptors::{ConfigurationDescriptor, DeviceDescriptor};

const FILES: [&str; 3] = [
    include_str!("../../../crates/test_formats/src/descriptors/examples.rt"),
    include_str!("../../../crates/test_formats/src/descriptors/questions.rt"),
    include_str!("questions.txt"),
];

/// The rows, each of a word, bytes and their answer.
fn rows() -> impl Iterator<Item = (&'static str, Vec<u8>, &'static str)> {
    let lines = FILES.iter().flat_map(|file| file.lines());
    lines.filter(|line| !line.starts_with(['/', '#'])).filter_map(|line| {
        let (question, answer) = line.trim_end_matches("\";").split_once(" = ")?;
        let (word, digits) = question.split_once(' ')?;
        let is_of_descriptors = answers::answer(word, &[]).is_some();
        is_of_descriptors.then(|| (word, answers::bytes_of(digits), answer))
    })
}

#[test]
fn descriptors_are_read_as_the_rows_say() {
    assert!(rows().count() > 500, "the rows were found");
    for (word, bytes, answer) in rows() {
        assert_eq!(answers::answer(word, &bytes).unwrap(), answer, "{word} {bytes:02x?}");
    }
}

#[test]
fn a_device_descriptor_needs_its_length_and_its_type() {
    let whole: Vec<u8> = include_bytes!("two_bulk.bin")[..18].to_vec();
    let changed = |at: usize, value: u8| {
        let mut bytes = whole.clone();
        bytes[at] = value;
        DeviceDescriptor::new(&bytes).is_some()
    };
    let rows = [(0, 18, true), (0, 17, false), (0, 19, true), (1, 1, true), (1, 2, false)];
    for (at, value, is_valid) in rows {
        assert_eq!(changed(at, value), is_valid, "{value} at {at}");
    }
    assert!(DeviceDescriptor::new(&whole[..17]).is_none());
}

#[test]
fn a_configuration_needs_its_length_its_type_and_its_total() {
    let whole: Vec<u8> = include_bytes!("two_bulk.bin")[18..].to_vec();
    let changed = |at: usize, value: u8| {
        let mut bytes = whole.clone();
        bytes[at] = value;
        ConfigurationDescriptor::new(&bytes).map(|it| it.as_bytes().len())
    };
    let rows = [
        (0, 9, Some(32)),
        (0, 8, None),
        (1, 5, None),
        (2, 33, None),
        (2, 9, Some(9)),
        (2, 8, None),
        (3, 1, None),
    ];
    for (at, value, length) in rows {
        assert_eq!(changed(at, value), length, "{value} at {at}");
    }
}

/// The numbers that the library tells of descriptors, and what this crate reads at the places that
/// the library tells.
#[cfg(usb_core_c)]
mod beside_the_library {
    use super::*;
    use usb_host_core::descriptors::{EndpointDescriptor, InterfaceDescriptor};
    use usb_host_core::proved;

    fn compare_device(bytes: &[u8]) {
        let told = proved::device(bytes);
        let walked = DeviceDescriptor::new(bytes).map(|it| proved::Device {
            usb_version: it.usb_version(),
            class: it.class(),
            subclass: it.subclass(),
            protocol: it.protocol(),
            max_packet_size_0: it.max_packet_size_0(),
            vendor: it.vendor_id(),
            product: it.product_id(),
            version: it.device_version(),
            configurations: it.num_configurations(),
        });
        assert_eq!(told, walked, "{bytes:02x?}");
    }

    fn setting_of(it: &InterfaceDescriptor<'_>) -> proved::Setting {
        proved::Setting {
            number: it.interface_number(),
            alternate: it.alternate_setting(),
            class: it.class(),
            subclass: it.subclass(),
            protocol: it.protocol(),
        }
    }

    fn endpoint_of(it: &EndpointDescriptor<'_>) -> proved::Endpoint {
        proved::Endpoint {
            address: it.address(),
            attributes: it.attributes(),
            interval: it.interval(),
            max_packet_size: it.max_packet_size(),
        }
    }

    fn compare_configuration(bytes: &[u8]) {
        let configuration = ConfigurationDescriptor::new(bytes);
        let settings: Vec<_> =
            configuration.iter().flat_map(|it| it.interface_alt_settings()).collect();
        let walked: Vec<_> = settings.iter().map(setting_of).collect();
        assert_eq!(proved::settings(bytes).collect::<Vec<_>>(), walked, "{bytes:02x?}");
        for (index, setting) in settings.iter().enumerate() {
            let walked: Vec<_> = setting.endpoints().map(|it| endpoint_of(&it)).collect();
            let told: Vec<_> = proved::endpoints(bytes, index).collect();
            assert_eq!(told, walked, "{bytes:02x?}");
        }
        assert_eq!(proved::setting(bytes, settings.len()), None);
        assert_eq!(proved::endpoint(bytes, settings.len(), 0), None);
        assert_eq!(proved::endpoint(bytes, usize::MAX, usize::MAX), None);
    }

    #[test]
    fn rows_are_walked_the_same() {
        for (_, bytes, _) in rows() {
            compare_device(&bytes);
            compare_configuration(bytes.get(18..).unwrap_or(&[]));
            compare_configuration(&bytes);
        }
    }

    #[test]
    fn each_prefix_and_each_byte_at_each_place_are_walked_the_same() {
        let whole = include_bytes!("two_bulk.bin");
        for len in 0..=whole.len() {
            compare_device(&whole[..len]);
            compare_configuration(&whole[whole.len() - len..]);
            compare_configuration(&whole[18..len.max(18)]);
        }
        let mut bytes = whole.to_vec();
        for at in 0..bytes.len() {
            for value in 0..=255 {
                bytes[at] = value;
                compare_device(&bytes);
                compare_configuration(&bytes[18..]);
            }
            bytes[at] = whole[at];
        }
    }
}
