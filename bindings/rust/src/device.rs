use crate::descriptors::{
    configurations, ConfigurationDescriptor, DeviceDescriptor, InterfaceDescriptor, TransferType,
};
use crate::endpoint::Endpoint;
use crate::error::ActiveConfigurationError;
use crate::lines::{Line, Target};
use crate::maybe_future::Action;
use crate::sim::{lock, Shared};
use crate::transfer::{
    ControlIn, ControlOut, Direction, EndpointDirection, EndpointType, TransferError,
};
use crate::{DeviceInfo, Error, GetDescriptorError, MaybeFuture, Speed};
use std::fmt;
use std::num::NonZeroU8;
use std::sync::atomic::{AtomicBool, Ordering};
use std::sync::Arc;
use std::time::Duration;

/// An open handle. The last owner closes it.
struct Handle {
    shared: Shared,
    name: u32,
    /// The number of the simulated device.
    number: usize,
    descriptors: Arc<[u8]>,
}

impl Handle {
    fn configurations(&self) -> impl Iterator<Item = ConfigurationDescriptor<'_>> {
        configurations(self.descriptors.get(18..).unwrap_or(&[]))
    }

    fn active(&self) -> Result<u8, ActiveConfigurationError> {
        lock(&self.shared).active(self.name)
    }
}

impl Drop for Handle {
    fn drop(&mut self) {
        lock(&self.shared).close('d', self.name);
    }
}

/// An open device.
///
/// Its clones are one handle, which is closed when the last of them and of its interfaces is
/// dropped.
#[derive(Clone)]
pub struct Device {
    handle: Arc<Handle>,
}

impl Device {
    pub(crate) fn open(info: &DeviceInfo) -> impl MaybeFuture<Output = Result<Device, Error>> {
        let (shared, bus, address) = (info.shared.clone(), info.busnum(), info.device_address());
        Action(move || {
            let mut session = lock(&shared);
            let name = session.open(bus, address)?;
            let mut plugs = session.devices.iter().map(|it| &it.plug);
            let number = plugs.position(|it| (it.bus, it.address) == (bus, address));
            let number = number.expect("a device that was opened is plugged in");
            let descriptors = session.devices[number].plug.descriptors.clone();
            drop(session);
            let handle = Arc::new(Handle { shared, name, number, descriptors });
            Ok(Device { handle })
        })
    }

    fn claim(
        &self,
        call: &'static str,
        number: u8,
    ) -> impl MaybeFuture<Output = Result<Interface, Error>> {
        let device = self.handle.clone();
        Action(move || {
            let name = lock(&device.shared).claim(call, device.name, number)?;
            Ok(Claim::interface(device, name, number))
        })
    }

    /// Claims an interface.
    pub fn claim_interface(
        &self,
        interface: u8,
    ) -> impl MaybeFuture<Output = Result<Interface, Error>> {
        self.claim("claim", interface)
    }

    /// Detaches the kernel's driver of an interface, and claims it. When the claim ends the kernel
    /// is asked to attach a driver again.
    pub fn detach_and_claim_interface(
        &self,
        interface: u8,
    ) -> impl MaybeFuture<Output = Result<Interface, Error>> {
        self.claim("detachclaim", interface)
    }

    /// Detaches the kernel's driver of an interface.
    pub fn detach_kernel_driver(&self, interface: u8) -> Result<(), Error> {
        lock(&self.handle.shared).kernel_driver("detach", self.handle.name, interface)
    }

    /// Lets the kernel attach its driver to an interface.
    pub fn attach_kernel_driver(&self, interface: u8) -> Result<(), Error> {
        lock(&self.handle.shared).kernel_driver("attach", self.handle.name, interface)
    }

    /// The device descriptor.
    pub fn device_descriptor(&self) -> DeviceDescriptor {
        let descriptor = DeviceDescriptor::new(&self.handle.descriptors);
        descriptor.expect("a device whose descriptor is not valid can't be opened")
    }

    /// The speed of the device, where the kernel tells it.
    pub fn speed(&self) -> Option<Speed> {
        lock(&self.handle.shared).speed(self.handle.name)
    }

    /// The active configuration.
    pub fn active_configuration(
        &self,
    ) -> Result<ConfigurationDescriptor<'_>, ActiveConfigurationError> {
        let configuration_value = self.handle.active()?;
        self.configurations()
            .find(|it| it.configuration_value() == configuration_value)
            .ok_or(ActiveConfigurationError { configuration_value })
    }

    /// All configurations.
    pub fn configurations(&self) -> impl Iterator<Item = ConfigurationDescriptor<'_>> {
        self.handle.configurations()
    }

    /// Makes the configuration of this value the active one; 0 makes none active.
    pub fn set_configuration(
        &self,
        configuration: u8,
    ) -> impl MaybeFuture<Output = Result<(), Error>> {
        let device = self.handle.clone();
        Action(move || lock(&device.shared).set_configuration(device.name, configuration))
    }

    /// Asks the device for a descriptor of this type and index, in this language (0 for all but
    /// strings).
    pub fn get_descriptor(
        &self,
        desc_type: u8,
        desc_index: u8,
        language_id: u16,
        timeout: Duration,
    ) -> impl MaybeFuture<Output = Result<Vec<u8>, GetDescriptorError>> {
        let device = self.handle.clone();
        Action(move || {
            let what = (desc_type, desc_index, language_id);
            lock(&device.shared).descriptor((device.name, device.number), what, timeout)
        })
    }

    /// Asks the device for the languages of its strings.
    pub fn get_string_descriptor_supported_languages(
        &self,
        timeout: Duration,
    ) -> impl MaybeFuture<Output = Result<impl Iterator<Item = u16>, GetDescriptorError>> {
        let device = self.handle.clone();
        Action(move || {
            let handle = (device.name, device.number);
            lock(&device.shared).languages(handle, timeout).map(Vec::into_iter)
        })
    }

    /// Asks the device for a string, in this language.
    pub fn get_string_descriptor(
        &self,
        desc_index: NonZeroU8,
        language_id: u16,
        timeout: Duration,
    ) -> impl MaybeFuture<Output = Result<String, GetDescriptorError>> {
        let device = self.handle.clone();
        Action(move || {
            let handle = (device.name, device.number);
            lock(&device.shared).string(handle, (desc_index.get(), language_id), timeout)
        })
    }

    /// Resets the device. Here it is gone then, and does not come back.
    pub fn reset(&self) -> impl MaybeFuture<Output = Result<(), Error>> {
        let device = self.handle.clone();
        Action(move || lock(&device.shared).reset(device.name, device.number))
    }

    /// A control request that asks the device for data.
    pub fn control_in(
        &self,
        data: ControlIn,
        timeout: Duration,
    ) -> impl MaybeFuture<Output = Result<Vec<u8>, TransferError>> {
        let device = self.handle.clone();
        Action(move || {
            let target = Target::Device(device.name);
            lock(&device.shared).control_in(target, device.number, data, timeout)
        })
    }

    /// A control request with data for the device.
    pub fn control_out(
        &self,
        data: ControlOut,
        timeout: Duration,
    ) -> impl MaybeFuture<Output = Result<(), TransferError>> {
        let (device, head, bytes) = (self.handle.clone(), head_of(&data), data.data.to_vec());
        Action(move || {
            let target = Target::Device(device.name);
            lock(&device.shared).control_out(target, device.number, head, bytes, timeout)
        })
    }
}

/// A request without its data.
fn head_of(request: &ControlOut<'_>) -> ControlOut<'static> {
    ControlOut {
        control_type: request.control_type,
        recipient: request.recipient,
        request: request.request,
        value: request.value,
        index: request.index,
        data: &[],
    }
}

impl fmt::Debug for Device {
    fn fmt(&self, f: &mut fmt::Formatter<'_>) -> fmt::Result {
        f.debug_struct("Device").finish()
    }
}

/// A handle of a claimed interface.
struct Claim {
    device: Arc<Handle>,
    name: u32,
    number: u8,
    is_released: AtomicBool,
}

impl Claim {
    fn interface(device: Arc<Handle>, name: u32, number: u8) -> Interface {
        let claim = Claim { device, name, number, is_released: AtomicBool::new(false) };
        Interface { claim: Arc::new(claim) }
    }

    fn shared(&self) -> &Shared {
        &self.device.shared
    }
}

impl Drop for Claim {
    fn drop(&mut self) {
        if !*self.is_released.get_mut() {
            lock(self.shared()).close('i', self.name);
        }
    }
}

/// A claimed interface.
///
/// The claim ends when its last clone and its last endpoint are dropped.
pub struct Interface {
    claim: Arc<Claim>,
}

impl Interface {
    /// Makes another alternate setting the current one. No endpoint of the interface may be open.
    pub fn set_alt_setting(&self, alt_setting: u8) -> impl MaybeFuture<Output = Result<(), Error>> {
        let claim = self.claim.clone();
        Action(move || lock(claim.shared()).set_alternate(claim.name, alt_setting))
    }

    /// The number of the current alternate setting.
    pub fn get_alt_setting(&self) -> u8 {
        lock(self.claim.shared()).alternate(self.claim.name)
    }

    /// A control request that asks the device for data.
    pub fn control_in(
        &self,
        data: ControlIn,
        timeout: Duration,
    ) -> impl MaybeFuture<Output = Result<Vec<u8>, TransferError>> {
        let claim = self.claim.clone();
        Action(move || {
            let target = Target::Interface(claim.name);
            lock(claim.shared()).control_in(target, claim.device.number, data, timeout)
        })
    }

    /// A control request with data for the device.
    pub fn control_out(
        &self,
        data: ControlOut,
        timeout: Duration,
    ) -> impl MaybeFuture<Output = Result<(), TransferError>> {
        let (claim, head, bytes) = (self.claim.clone(), head_of(&data), data.data.to_vec());
        Action(move || {
            let target = Target::Interface(claim.name);
            lock(claim.shared()).control_out(target, claim.device.number, head, bytes, timeout)
        })
    }

    /// The number of the interface.
    pub fn interface_number(&self) -> u8 {
        self.claim.number
    }

    /// The settings of the interface in the active configuration.
    pub fn descriptors(&self) -> impl Iterator<Item = InterfaceDescriptor<'_>> {
        let device = &self.claim.device;
        let active = device.active().ok();
        let configuration =
            device.configurations().find(|it| Some(it.configuration_value()) == active);
        configuration
            .into_iter()
            .flat_map(|it| it.interface_alt_settings())
            .filter(|it| it.interface_number() == self.claim.number)
    }

    /// The current setting.
    pub fn descriptor(&self) -> Option<InterfaceDescriptor<'_>> {
        let current = self.get_alt_setting();
        self.descriptors().find(|it| it.alternate_setting() == current)
    }

    /// Opens an endpoint of the current setting.
    pub fn endpoint<EpType: EndpointType, Dir: EndpointDirection>(
        &self,
        address: u8,
    ) -> Result<Endpoint<EpType, Dir>, Error> {
        let kind = match (EpType::TYPE, Dir::DIR) {
            (TransferType::Interrupt, Direction::In) => "int-in",
            (TransferType::Interrupt, Direction::Out) => "int-out",
            (_, Direction::In) => "bulk-in",
            (_, Direction::Out) => "bulk-out",
        };
        let shared = self.claim.shared();
        let name = lock(shared).endpoint(self.claim.name, address, kind)?;
        let setting = self.descriptor();
        let endpoint = setting.and_then(|it| it.endpoints().find(|it| it.address() == address));
        let max = endpoint.expect("an endpoint that was opened has a descriptor").max_packet_size();
        let line = Line { name, device: self.claim.device.number, address, max };
        Ok(Endpoint::new(shared.clone(), line))
    }

    /// Ends the claim. It is refused where another owner is left.
    pub fn release(self) -> impl MaybeFuture<Output = Result<(), Error>> {
        let claim = self.claim;
        Action(move || {
            claim.is_released.store(true, Ordering::SeqCst);
            lock(claim.shared()).release(claim.name)
        })
    }
}

impl Clone for Interface {
    fn clone(&self) -> Interface {
        let name = lock(self.claim.shared()).clone_interface(self.claim.name);
        Claim::interface(self.claim.device.clone(), name, self.claim.number)
    }
}

impl fmt::Debug for Interface {
    fn fmt(&self, f: &mut fmt::Formatter<'_>) -> fmt::Result {
        f.debug_struct("Interface").field("number", &self.claim.number).finish()
    }
}
