//! nusb's names and signatures on the blocking side. Nothing is called: it is enough that it compiles,
//! here and with nusb in the place of the first line.
#![allow(dead_code)]

use usb_host_core as nusb;

use nusb::descriptors::{
    language_id, ConfigurationDescriptor, Descriptor, DescriptorIter, DeviceDescriptor,
    EndpointDescriptor, InterfaceDescriptor, InterfaceDescriptors, TransferType,
};
use nusb::hotplug::{HotplugEvent, HotplugWatch};
use nusb::io::{EndpointRead, EndpointReadUntilShortPacket, EndpointWrite, ExpectedShortPacket};
use nusb::transfer::{
    Buffer, Bulk, BulkOrInterrupt, Completion, ControlIn, ControlOut, ControlType, Direction,
    EndpointDirection, EndpointType, In, Interrupt, Out, Recipient, TransferError,
};
use nusb::{
    ActiveConfigurationError, BusInfo, Device, DeviceId, DeviceInfo, DeviceSelector, Endpoint,
    Error, ErrorKind, GetDescriptorError, Interface, InterfaceInfo, MaybeFuture, Speed,
    UsbControllerType,
};
use std::future::Future;
use std::io::{self, BufRead, Read, Write};
use std::num::NonZeroU8;
use std::path::Path;
use std::task::{Context, Poll};
use std::time::Duration;

fn is_shared<T: Send + Sync + 'static>() {}

fn handles_go_to_other_threads() {
    is_shared::<Device>();
    is_shared::<DeviceInfo>();
    is_shared::<Interface>();
    is_shared::<Endpoint<Bulk, In>>();
    is_shared::<EndpointRead<Bulk>>();
    is_shared::<EndpointWrite<Interrupt>>();
    is_shared::<Buffer>();
    is_shared::<Error>();
    is_shared::<TransferError>();
}

fn listings() -> Result<(), Error> {
    let mut devices = nusb::list_devices().wait()?;
    let device: Option<DeviceInfo> = devices.next();
    let _: Option<BusInfo> = nusb::list_buses().wait()?.next();
    let selectors = [DeviceSelector::all().with_vid(1), DeviceSelector::default()];
    let found: Option<DeviceInfo> = nusb::request_device(&selectors).wait()?;
    let _: HotplugWatch = nusb::watch_devices()?;
    drop((device, found));
    Ok(())
}

fn event(event: HotplugEvent) -> DeviceId {
    match event {
        HotplugEvent::Connected(info) => info.id(),
        HotplugEvent::Disconnected(id) => id,
    }
}

fn device_info(info: &DeviceInfo) -> Result<Device, Error> {
    let _: (DeviceId, &Path, u8, &[u8]) =
        (info.id(), info.sysfs_path(), info.busnum(), info.port_chain());
    let _: (&str, u8, u16, u16) =
        (info.bus_id(), info.device_address(), info.vendor_id(), info.product_id());
    let _: (u16, u16, u8, u8, u8) =
        (info.device_version(), info.usb_version(), info.class(), info.subclass(), info.protocol());
    let _: (Option<Speed>, Option<&str>, Option<&str>, Option<&str>) =
        (info.speed(), info.manufacturer_string(), info.product_string(), info.serial_number());
    let _: Option<String> = info.get_manufacturer_string().wait()?;
    let _: Option<String> = info.get_product_string().wait()?;
    let _: Option<String> = info.get_serial_number_string().wait()?;
    let interfaces: Vec<&InterfaceInfo> = info.interfaces().collect();
    for it in interfaces {
        let _: (u8, u8, u8, u8) = (it.interface_number(), it.class(), it.subclass(), it.protocol());
        let _: Option<&str> = it.interface_string();
        let _: Option<String> = it.get_interface_string().wait()?;
    }
    let _: bool = info.matches(&DeviceSelector::all());
    println!("{info:?} {:?}", info.clone());
    info.open().wait()
}

fn bus(bus: &BusInfo) {
    let _: (&Path, u8, &DeviceInfo) = (bus.sysfs_path(), bus.busnum(), bus.root_hub());
    let _: (Option<&str>, &str, Option<&str>) = (bus.driver(), bus.bus_id(), bus.system_name());
    let kind: Option<UsbControllerType> = bus.controller_type();
    println!("{bus:?} {}", kind == Some(UsbControllerType::XHCI));
}

fn selectors(serial: String) -> DeviceSelector {
    const PLAIN: DeviceSelector = DeviceSelector::all().with_vid_pid(1, 2).with_class(3);
    let selector = PLAIN.with_class_subclass(3, 4).with_class_subclass_protocol(3, 4, 5);
    let selector = selector.with_serial_number(serial);
    let _: (Option<u16>, Option<u16>) = (selector.vendor_id(), selector.product_id());
    let _: (Option<u8>, Option<u8>, Option<u8>) =
        (selector.class(), selector.subclass(), selector.protocol());
    let _: Option<&str> = selector.serial_number();
    selector.clone()
}

fn device(device: &Device, second: Duration) -> Result<Interface, Box<dyn std::error::Error>> {
    let _: DeviceDescriptor = device.device_descriptor();
    let _: Option<Speed> = device.speed();
    let active: Result<ConfigurationDescriptor<'_>, ActiveConfigurationError> =
        device.active_configuration();
    let _: u8 = active?.configuration_value();
    let _: Option<ConfigurationDescriptor<'_>> = device.configurations().next();
    device.set_configuration(1).wait()?;
    let read: Result<Vec<u8>, GetDescriptorError> = device.get_descriptor(1, 0, 0, second).wait();
    read?;
    let languages = device.get_string_descriptor_supported_languages(second).wait()?;
    let _: Vec<u16> = languages.collect();
    let index = NonZeroU8::MIN;
    let _: String = device.get_string_descriptor(index, language_id::US_ENGLISH, second).wait()?;
    device.detach_kernel_driver(0)?;
    device.attach_kernel_driver(0)?;
    let _: Interface = device.detach_and_claim_interface(0).wait()?;
    device.reset().wait()?;
    println!("{device:?} {:?}", device.clone());
    Ok(device.claim_interface(0).wait()?)
}

fn requests(
    device: &Device,
    interface: &Interface,
    second: Duration,
) -> Result<Vec<u8>, TransferError> {
    let request = ControlIn {
        control_type: ControlType::Standard,
        recipient: Recipient::Device,
        request: 1,
        value: 2,
        index: 3,
        length: 4,
    };
    let answer = {
        let data = [1, 2, 3];
        let (control_type, recipient) = (ControlType::Vendor, Recipient::Other);
        let out =
            ControlOut { control_type, recipient, request: 1, value: 2, index: 3, data: &data };
        // The action does not borrow the data.
        (device.control_out(out, second), interface.control_out(out, second))
    };
    answer.0.wait()?;
    answer.1.wait()?;
    interface.control_in(request, second).wait()?;
    device.control_in(request, second).map(|result| result).wait()
}

fn interface(interface: Interface) -> Result<Endpoint<Bulk, In>, Error> {
    let _: (u8, u8) = (interface.interface_number(), interface.get_alt_setting());
    interface.set_alt_setting(1).wait()?;
    let _: Vec<InterfaceDescriptor<'_>> = interface.descriptors().collect();
    let _: Option<InterfaceDescriptor<'_>> = interface.descriptor();
    println!("{interface:?}");
    interface.clone().release().wait()?;
    interface.endpoint::<Bulk, In>(0x81)
}

fn endpoint<T: BulkOrInterrupt, D: EndpointDirection>(
    endpoint: &mut Endpoint<T, D>,
    second: Duration,
) -> Result<Completion, Error> {
    let _: (u8, usize, usize) =
        (endpoint.endpoint_address(), endpoint.max_packet_size(), endpoint.pending());
    let buffer: Buffer = endpoint.allocate(64);
    endpoint.submit(buffer);
    let done: Option<Completion> = endpoint.wait_next_complete(second);
    endpoint.cancel_all();
    endpoint.clear_halt().wait()?;
    println!("{endpoint:?} {done:?} {:?} {:?}", T::TYPE, D::DIR);
    Ok(endpoint.transfer_blocking(Buffer::new(64), second))
}

fn is_future(_: impl Future<Output = Completion> + Send) {}

fn poll(endpoint: &mut Endpoint<Interrupt, Out>, context: &mut Context<'_>) -> Poll<Completion> {
    is_future(endpoint.next_complete());
    endpoint.poll_next_complete(context)
}

fn buffers(mut buffer: Buffer) -> Vec<u8> {
    let _: (usize, usize, usize, usize) =
        (buffer.len(), buffer.requested_len(), buffer.capacity(), buffer.remaining_capacity());
    let _: (bool, bool) = (buffer.is_empty(), buffer.is_zero_copy());
    buffer.clear();
    buffer.set_requested_len(1);
    let _: &mut [u8] = buffer.extend_fill(1, 0);
    buffer.extend_from_slice(&[1]);
    buffer[0] = buffer[..].len() as u8;
    let _: [Buffer; 3] = [vec![1].into(), [1, 2].into(), (&[1][..]).into()];
    buffer.into_vec()
}

fn completion(completion: Completion) -> Result<Buffer, TransferError> {
    let _: (usize, Result<(), TransferError>) = (completion.actual_len, completion.status);
    completion.into_result()
}

fn reader(endpoint: Endpoint<Bulk, In>, second: Duration) -> io::Result<Endpoint<Bulk, In>> {
    let mut reader: EndpointRead<Bulk> = endpoint.reader(4096);
    reader.set_num_transfers(2);
    reader.set_read_timeout(second);
    let mut reader = reader.with_num_transfers(2).with_read_timeout(second);
    let _: usize = reader.read(&mut [0])?;
    let _: &[u8] = reader.fill_buf()?;
    reader.consume(0);
    let mut message: EndpointReadUntilShortPacket<'_, Bulk> = reader.until_short_packet();
    let _: usize = message.read(&mut [0])?;
    let _: &[u8] = message.fill_buf()?;
    message.consume(0);
    let ended: Result<(), ExpectedShortPacket> = message.consume_end();
    println!("{:?} {}", ended, message.is_end());
    reader.cancel_all();
    Ok(EndpointRead::new(reader.into_inner(), 64).into_inner())
}

fn writer(endpoint: Endpoint<Bulk, Out>, second: Duration) -> io::Result<Endpoint<Bulk, Out>> {
    let mut writer: EndpointWrite<Bulk> = endpoint.writer(4096);
    writer.set_num_transfers(2);
    writer.set_write_timeout(second);
    let mut writer = writer.with_num_transfers(2).with_write_timeout(second);
    let _: usize = writer.write(&[1])?;
    writer.submit();
    writer.flush()?;
    writer.submit_end();
    writer.flush_end()?;
    Ok(EndpointWrite::new(writer.into_inner(), 64).into_inner())
}

fn descriptors(bytes: &[u8]) -> Option<TransferType> {
    let configuration: ConfigurationDescriptor<'_> = ConfigurationDescriptor::new(bytes)?;
    let mut chain: DescriptorIter<'_> = configuration.descriptors();
    let one: Descriptor<'_> = chain.next()?;
    let _: (usize, u8, &[u8], &[u8]) =
        (one.descriptor_len(), one.descriptor_type(), one.as_bytes(), chain.as_bytes());
    let group: InterfaceDescriptors<'_> = configuration.interfaces().next()?;
    let _: (u8, InterfaceDescriptor<'_>) = (group.interface_number(), group.first_alt_setting());
    let setting = configuration.interface_alt_settings().next()?;
    let _: (u8, u8, Option<NonZeroU8>) =
        (setting.num_endpoints(), setting.alternate_setting(), setting.string_index());
    let endpoint: EndpointDescriptor<'_> = setting.endpoints().next()?;
    let direction: Direction = endpoint.direction();
    let _: (u8, u8, u16, usize, u8, u8) = (
        endpoint.address(),
        endpoint.attributes(),
        endpoint.max_packet_size_raw(),
        endpoint.max_packet_size(),
        endpoint.packets_per_microframe(),
        endpoint.interval(),
    );
    println!("{configuration:?} {setting:?} {endpoint:?} {direction:?}");
    Some(endpoint.transfer_type())
}

fn errors(error: Error, active: ActiveConfigurationError, read: GetDescriptorError) -> io::Error {
    let _: (ErrorKind, Option<u32>) = (error.kind(), error.os_error());
    let _: [io::Error; 4] =
        [error.into(), active.into(), read.into(), TransferError::Unknown(5).into()];
    Error::from(active).into()
}

fn is_kind<T: EndpointType>(kind: TransferType) -> bool {
    T::TYPE == kind
}

#[test]
fn it_compiles() {}
