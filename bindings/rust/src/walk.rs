//! Where descriptors stand, without the library: what its calls of the same names answer.

use std::ops::Range;

const DEVICE_TYPE: u8 = 1;
const DEVICE_LENGTH: u8 = 18;
const CONFIGURATION_TYPE: u8 = 2;
const CONFIGURATION_LENGTH: u8 = 9;

/// Whether a device descriptor stands at the front of these bytes.
pub(crate) fn is_device(bytes: &[u8]) -> bool {
    bytes.len() >= usize::from(DEVICE_LENGTH)
        && bytes[0] >= DEVICE_LENGTH
        && bytes[1] == DEVICE_TYPE
}

/// How many bytes the descriptor at the front of these bytes has.
pub(crate) fn descriptor_len(bytes: &[u8]) -> Option<usize> {
    let length = usize::from(*bytes.first()?);
    (2..=bytes.len()).contains(&length).then_some(length)
}

/// How many bytes the configuration at the front of these bytes has.
pub(crate) fn configuration_len(bytes: &[u8]) -> Option<usize> {
    let head = bytes.first_chunk::<{ CONFIGURATION_LENGTH as usize }>()?;
    let total = usize::from(u16::from_le_bytes([head[2], head[3]]));
    let is_valid = head[0] >= CONFIGURATION_LENGTH
        && head[1] == CONFIGURATION_TYPE
        && (usize::from(head[0])..=bytes.len()).contains(&total);
    is_valid.then_some(total)
}

/// Where the first group of a type stands: a descriptor of at least so many bytes, and those behind
/// it up to the next of its type or one of two bytes.
pub(crate) fn group(bytes: &[u8], kind: u8, least: u8) -> Option<Range<usize>> {
    let mut start = 0;
    let mut end = descriptor_len(bytes)?;
    while bytes[start + 1] != kind || bytes[start] < least {
        start = end;
        end += descriptor_len(&bytes[start..])?;
    }
    while let Some(length) = descriptor_len(&bytes[end..]) {
        if length == 2 || bytes[end + 1] == kind {
            break;
        }
        end += length;
    }
    Some(start..end)
}

#[cfg(test)]
mod tests {
    use super::*;

    #[test]
    fn a_descriptor_of_two_bytes_ends_a_group_and_a_short_one_begins_none() {
        let rows: [(&[u8], Option<Range<usize>>); 6] = [
            (&[3, 4, 0, 3, 9, 0, 2, 9, 3, 9, 0], Some(0..6)),
            (&[3, 4, 0, 2, 4, 3, 9, 0], Some(0..3)),
            (&[2, 4, 3, 9, 0, 3, 4, 0], Some(5..8)),
            (&[3, 9, 0, 3, 4, 0, 3, 9], Some(3..6)),
            (&[3, 9, 0, 1, 4, 0, 3, 4, 0], None),
            (&[], None),
        ];
        for (bytes, part) in rows {
            assert_eq!(group(bytes, 4, 3), part, "{bytes:?}");
            #[cfg(usb_core_c)]
            assert_eq!(crate::proved::group(bytes, 4, 3), part, "{bytes:?}");
        }
    }

    /// The places that the library tells and those of this file, on the same bytes.
    #[cfg(usb_core_c)]
    mod beside_the_library {
        use super::*;
        use crate::proved;

        const DEVICE: &[u8] = include_bytes!("../tests/two_bulk.bin");

        fn compare_front(bytes: &[u8]) {
            assert_eq!(proved::is_device(bytes), is_device(bytes), "{bytes:02x?}");
            assert_eq!(proved::descriptor_len(bytes), descriptor_len(bytes), "{bytes:02x?}");
            assert_eq!(proved::configuration_len(bytes), configuration_len(bytes), "{bytes:02x?}");
            for (kind, least) in [(4, 9), (5, 7), (0x24, 2)] {
                let (told, walked) = (proved::group(bytes, kind, least), group(bytes, kind, least));
                assert_eq!(told, walked, "{kind} in {bytes:02x?}");
            }
        }

        fn compare(bytes: &[u8]) {
            (0..=bytes.len()).for_each(|at| compare_front(&bytes[at..]));
        }

        #[test]
        fn places_are_the_same_in_each_prefix() {
            (0..=DEVICE.len()).for_each(|len| compare(&DEVICE[..len]));
        }

        #[test]
        fn places_are_the_same_with_each_byte_changed() {
            let mut bytes = DEVICE.to_vec();
            for at in 0..bytes.len() {
                for value in 0..=255 {
                    bytes[at] = value;
                    compare(&bytes);
                }
                bytes[at] = DEVICE[at];
            }
        }
    }
}
