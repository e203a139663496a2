//! Packets of udev.

/// What a packet tells.
pub enum Notice {
    /// A device came, with this folder.
    Came(String),
    /// The device at this bus and address went.
    Went(u8, u8),
}

const MOST_BYTES: usize = 8192;

fn number(packet: &[u8], at: usize) -> Option<usize> {
    let bytes = packet.get(at..at + 4)?.try_into().ok()?;
    Some(u32::from_le_bytes(bytes) as usize)
}

fn properties(packet: &[u8]) -> Option<Vec<(&str, &str)>> {
    let packet = &packet[..packet.len().min(MOST_BYTES)];
    if !packet.starts_with(b"libudev\0\xfe\xed\xca\xfe") {
        return None;
    }
    let (start, length) = (number(packet, 16)?, number(packet, 20)?);
    let bytes = packet.get(start..start + length)?;
    let entries = bytes.split(|byte| *byte == 0);
    let texts = entries.filter_map(|entry| std::str::from_utf8(entry).ok());
    Some(texts.filter_map(|text| text.split_once('=')).collect())
}

/// What a packet to these groups tells, where it tells of a device that came or went.
pub fn notice(groups: u32, packet: &[u8]) -> Option<Notice> {
    if groups != 2 {
        return None;
    }
    let properties = properties(packet)?;
    let is_foreign = |(key, value): &(&str, &str)| match *key {
        "SUBSYSTEM" => *value != "usb",
        "DEVTYPE" => *value != "usb_device",
        "ACTION" => !matches!(*value, "add" | "remove"),
        _ => false,
    };
    if properties.iter().any(is_foreign) {
        return None;
    }
    let last = |wanted| {
        properties
            .iter()
            .rev()
            .find(|(key, _)| *key == wanted)
            .map(|it| it.1)
    };
    let action = last("ACTION")?;
    let bus = last("BUSNUM")?.parse().ok()?;
    let address = last("DEVNUM")?.parse().ok()?;
    let path = last("DEVPATH")?;
    Some(match action {
        "add" => Notice::Came(format!("/sys/{}", path.trim_start_matches('/'))),
        _ => Notice::Went(bus, address),
    })
}
