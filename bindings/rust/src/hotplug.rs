//! Devices that come and go.

use crate::enumeration::{DeviceId, DeviceInfo};
use crate::sim::{lock, Shared};

/// The events that a bench announced, by [`watch_devices`][crate::watch_devices].
///
/// nusb's is a stream, which waits for the next event. This is an iterator, and gives `None` where no
/// event is left.
pub struct HotplugWatch(pub(crate) Shared);

impl Iterator for HotplugWatch {
    type Item = HotplugEvent;

    fn next(&mut self) -> Option<HotplugEvent> {
        let event = lock(&self.0).hotplug()?;
        Some(match event {
            Ok(words) => HotplugEvent::Connected(words.at(&self.0)),
            Err((bus, address)) => HotplugEvent::Disconnected(DeviceId { bus, address }),
        })
    }
}

/// A device has come or gone.
#[derive(Debug)]
#[allow(clippy::large_enum_variant)]
pub enum HotplugEvent {
    /// This device has come.
    Connected(DeviceInfo),
    /// This device has gone.
    Disconnected(DeviceId),
}
