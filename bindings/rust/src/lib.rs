//! nusb's names over a proved host and simulated devices, for tests of drivers.
//!
//! A driver that is written for the blocking calls of nusb 0.2 compiles against this crate too. In
//! a test its device is a value of [`sim::SimDevice`]: closures, a list of replies, or a type of the
//! test's own. It stalls, sends short packets, is late or is unplugged when the test says so. What
//! the driver is answered is what `nusb_sim` answers: each call is a line of a script of this
//! session (the list is in src/lines.rs), and the test can print the script and save it.
//!
//! Nothing waits in real time. A wait is over at once where no device has anything more to say.
//! A session has its limits: 64 handles of a kind, 64 pending transfers of an endpoint, 65536 bytes
//! in a transfer, and 2^20 bytes in a script. Beyond them a test panics.
#![warn(missing_docs)]
#![deny(unsafe_code)]

mod answers;
pub mod descriptors;
mod device;
mod endpoint;
mod enumeration;
mod error;
pub mod hotplug;
pub mod io;
mod lines;
mod maybe_future;
#[cfg(usb_core_c)]
pub mod proved;
mod session;
pub mod sim;
mod told;
pub mod transfer;
mod tree;
#[cfg(any(test, not(usb_core_c)))]
mod walk;
mod words;

pub use device::{Device, Interface};
pub use endpoint::Endpoint;
pub use enumeration::{
    BusInfo, DeviceId, DeviceInfo, DeviceSelector, InterfaceInfo, Speed, UsbControllerType,
};
pub use error::{ActiveConfigurationError, Error, ErrorKind, GetDescriptorError};
pub use maybe_future::MaybeFuture;

use maybe_future::Action;
use sim::{current, lock};

/// The devices of this thread's bench. One that was unplugged stays in the list.
pub fn list_devices() -> impl MaybeFuture<Output = Result<impl Iterator<Item = DeviceInfo>, Error>>
{
    Action(|| {
        let shared = current()?;
        let devices = lock(&shared).list()?;
        let devices: Vec<DeviceInfo> = devices.into_iter().map(|it| it.at(&shared)).collect();
        Ok(devices.into_iter())
    })
}

/// The first device of this thread's bench that one of the selectors matches.
pub fn request_device(
    selectors: &[DeviceSelector],
) -> impl MaybeFuture<Output = Result<Option<DeviceInfo>, Error>> + use<'_> {
    list_devices().map_ok(move |mut devices| {
        devices.find(|device| selectors.iter().any(|selector| device.matches(selector)))
    })
}

/// The buses of this thread's bench.
pub fn list_buses() -> impl MaybeFuture<Output = Result<impl Iterator<Item = BusInfo>, Error>> {
    Action(|| {
        let shared = current()?;
        let buses = lock(&shared).buses()?;
        let buses: Vec<BusInfo> = buses.into_iter().map(|it| it.at(&shared)).collect();
        Ok(buses.into_iter())
    })
}

/// The devices that come and go, as this thread's bench announced it.
pub fn watch_devices() -> Result<hotplug::HotplugWatch, Error> {
    Ok(hotplug::HotplugWatch(current()?))
}
