//! The calls, each beside the line of the script that it is.

use std::future::{Future, IntoFuture};
use std::io::{BufRead, Read, Write};
use std::num::NonZeroU8;
use std::pin::pin;
use std::task::{Context, Poll, Waker};
use std::time::Duration;
use usb_host_core::descriptors::language_id::US_ENGLISH;
use usb_host_core::hotplug::HotplugEvent;
use usb_host_core::sim::{
    Bench, Closures, Fault, InReply, KernelCall, OutReply, Plug, Replies, SimDevice, Socket,
};
use usb_host_core::transfer::{
    Buffer, Bulk, ControlIn, ControlOut, ControlType, In, Interrupt, Out, Recipient, TransferError,
};
use usb_host_core::{
    list_buses, list_devices, request_device, watch_devices, Device, DeviceSelector, ErrorKind,
    Interface, MaybeFuture, Speed, UsbControllerType,
};

const SECOND: Duration = Duration::from_secs(1);

/// A device descriptor, and a configuration with interface 0 and the bulk endpoints 81 and 02.
const TWO_BULK: &[u8] = include_bytes!("two_bulk.bin");

/// A second setting of interface 0, with the interrupt endpoint 83, behind the first.
fn two_settings() -> Vec<u8> {
    let mut bytes = TWO_BULK.to_vec();
    bytes.extend([9, 4, 0, 1, 1, 255, 0, 0, 0, 7, 5, 0x83, 3, 8, 0, 1]);
    bytes[20] += 16;
    bytes
}

fn plugged(device: impl SimDevice) -> (Bench, Socket, Device) {
    let bench = Bench::new();
    let socket = bench.plug(Plug::new(&two_settings()), device);
    let info = list_devices().wait().unwrap().next().unwrap();
    let device = info.open().wait().unwrap();
    (bench, socket, device)
}

/// A bench, and an interface that is claimed on it.
fn claimed(device: impl SimDevice) -> (Bench, Socket, Interface) {
    let (bench, socket, device) = plugged(device);
    let interface = device.claim_interface(0).wait().unwrap();
    (bench, socket, interface)
}

/// The calls and steps of a bench behind the listing and the first open.
fn lines(bench: &Bench) -> Vec<String> {
    let script = bench.script();
    let lines = script.lines().skip_while(|line| !line.starts_with("open "));
    lines.skip(1).map(str::to_owned).collect()
}

fn in_request(request: u8, length: u16) -> ControlIn {
    let (control_type, recipient) = (ControlType::Vendor, Recipient::Device);
    ControlIn { control_type, recipient, request, value: 0x1234, index: 5, length }
}

fn out_request(data: &[u8]) -> ControlOut<'_> {
    let (control_type, recipient) = (ControlType::Class, Recipient::Interface);
    ControlOut { control_type, recipient, request: 9, value: 0x0200, index: 0, data }
}

#[test]
fn a_device_is_listed_as_its_descriptors_say() {
    let bench = Bench::new();
    bench.plug(Plug::new(TWO_BULK), Replies::new());
    let mut bytes = TWO_BULK.to_vec();
    (bytes[2], bytes[3], bytes[14], bytes[16]) = (0x10, 0x02, 1, 3);
    let plug = Plug::new(&bytes).string(1, "Acme").string(3, "A 1").speed(Speed::Full);
    bench.plug(plug.at(2, 7, "4.1"), Replies::new());
    let devices: Vec<_> = list_devices().wait().unwrap().collect();
    let places: Vec<_> = devices.iter().map(|it| (it.busnum(), it.device_address())).collect();
    assert_eq!(places, [(1, 2), (2, 7)]);
    let device = &devices[1];
    assert_eq!(device.bus_id(), "002");
    assert_eq!(device.port_chain(), [4, 1]);
    assert_eq!((device.vendor_id(), device.product_id()), (0xAAAA, 0xBBBB));
    assert_eq!((device.device_version(), device.usb_version()), (0x0100, 0x0210));
    assert_eq!((device.class(), device.subclass(), device.protocol()), (0, 0, 0));
    assert_eq!(device.speed(), Some(Speed::Full));
    assert_eq!(device.manufacturer_string(), Some("Acme"));
    assert_eq!(device.product_string(), None);
    assert_eq!(device.get_serial_number_string().wait().unwrap().as_deref(), Some("A 1"));
    let interfaces: Vec<_> = device.interfaces().collect();
    assert_eq!(interfaces.len(), 1);
    assert_eq!((interfaces[0].interface_number(), interfaces[0].class()), (0, 255));
    assert_eq!(interfaces[0].interface_string(), None);
}

#[test]
fn buses_have_a_controller_and_a_root_hub() {
    let bench = Bench::new();
    bench.plug(Plug::new(TWO_BULK).at(3, 4, "1"), Replies::new());
    let buses: Vec<_> = list_buses().wait().unwrap().collect();
    assert_eq!(buses.len(), 1);
    assert_eq!((buses[0].busnum(), buses[0].bus_id()), (3, "003"));
    assert_eq!(buses[0].controller_type(), Some(UsbControllerType::XHCI));
    assert_eq!(buses[0].driver(), Some("xhci_hcd"));
    assert_eq!(buses[0].system_name(), Some("xHCI Host Controller"));
    assert_eq!(buses[0].root_hub().class(), 9);
}

#[test]
fn selectors_match() {
    let rows = [
        (DeviceSelector::all(), true),
        (DeviceSelector::all().with_vid(0xAAAA), true),
        (DeviceSelector::all().with_vid_pid(0xAAAA, 0xBBBC), false),
        (DeviceSelector::all().with_class(255), true),
        (DeviceSelector::all().with_class_subclass(255, 1), false),
        (DeviceSelector::all().with_class_subclass_protocol(0, 0, 0), true),
        (DeviceSelector::all().with_serial_number("A 1".to_owned()), false),
    ];
    let bench = Bench::new();
    bench.plug(Plug::new(TWO_BULK), Replies::new());
    for (selector, is_found) in rows {
        let found = request_device(std::slice::from_ref(&selector)).wait().unwrap();
        assert_eq!(found.is_some(), is_found, "{selector:?}");
    }
}

#[test]
fn a_watch_tells_what_was_announced() {
    let bench = Bench::new();
    let socket = bench.plug(Plug::new(TWO_BULK), Replies::new());
    bench.announce(&socket);
    bench.announce_loss(&socket);
    let mut watch = watch_devices().unwrap();
    let Some(HotplugEvent::Connected(info)) = watch.next() else {
        panic!("a device has come");
    };
    assert_eq!(info.product_id(), 0xBBBB);
    assert!(matches!(watch.next(), Some(HotplugEvent::Disconnected(id)) if id == info.id()));
    assert!(watch.next().is_none());
}

#[test]
fn a_thread_without_a_bench_has_no_devices() {
    let error = list_devices().wait().map(drop).unwrap_err();
    assert_eq!(error.kind(), ErrorKind::NotFound);
}

#[test]
fn a_device_tells_its_descriptors() {
    let (_bench, _, device) = plugged(Replies::new());
    assert_eq!(device.device_descriptor().vendor_id(), 0xAAAA);
    assert_eq!(device.speed(), Some(Speed::High));
    assert_eq!(device.active_configuration().unwrap().configuration_value(), 1);
    device.set_configuration(0).wait().unwrap();
    let error = device.active_configuration().map(drop).unwrap_err();
    assert_eq!(error.to_string(), "device is not configured");
    let error = device.set_configuration(2).wait().unwrap_err();
    assert_eq!((error.kind(), error.os_error()), (ErrorKind::NotFound, Some(22)));
    assert_eq!(error.to_string(), "configuration not found (errno 22)");
}

#[test]
fn an_interface_has_the_descriptors_of_its_current_setting() {
    let (bench, _, interface) = claimed(Replies::new());
    assert_eq!(interface.descriptors().count(), 2);
    assert_eq!(interface.get_alt_setting(), 0);
    interface.set_alt_setting(1).wait().unwrap();
    let setting = interface.descriptor().unwrap();
    let addresses: Vec<_> = setting.endpoints().map(|it| it.address()).collect();
    assert_eq!((setting.alternate_setting(), addresses), (1, vec![0x83]));
    let endpoint = interface.endpoint::<Interrupt, In>(0x83).unwrap();
    assert_eq!((endpoint.endpoint_address(), endpoint.max_packet_size()), (0x83, 8));
    let error = interface.set_alt_setting(0).wait().unwrap_err();
    assert_eq!(error.kind(), ErrorKind::Busy);
    let rows = [
        (
            interface.endpoint::<Bulk, In>(0x81).map(drop),
            "specified endpoint does not exist on this interface",
        ),
        (interface.endpoint::<Interrupt, Out>(0x83).map(drop), "incorrect endpoint direction"),
        (interface.endpoint::<Bulk, In>(0x83).map(drop), "incorrect endpoint type"),
        (interface.endpoint::<Interrupt, In>(0x83).map(drop), "endpoint already in use"),
    ];
    for (result, text) in rows {
        assert_eq!(result.unwrap_err().to_string(), text);
    }
    let expected = ["claim d0 0 i0", "alt i0 1", "endpoint e0 i0 83 int-in", "alt i0 0"];
    assert_eq!(lines(&bench)[..4], expected);
}

#[test]
fn clones_hold_a_claim_and_release_needs_the_last_owner() {
    let (bench, _, device) = plugged(Replies::new());
    let first = device.claim_interface(0).wait().unwrap();
    let second = first.clone();
    let error = second.release().wait().unwrap_err();
    assert_eq!(error.to_string(), "interface is still in use");
    let error = device.claim_interface(0).wait().map(drop).unwrap_err();
    assert_eq!(error.to_string(), "interface is busy (errno 16)");
    first.release().wait().unwrap();
    drop(device.claim_interface(0).wait().unwrap());
    drop(device);
    let expected = [
        "claim d0 0 i0",
        "clone i1 i0",
        "release i1",
        "close i1",
        "claim d0 0 i1",
        "release i0",
        "claim d0 0 i0",
        "close i0",
        "close d0",
    ];
    assert_eq!(lines(&bench), expected);
}

#[test]
fn kernel_drivers_are_detached_and_attached() {
    let bench = Bench::new();
    bench.plug(Plug::new(TWO_BULK).driver(0), Replies::new());
    let device = list_devices().wait().unwrap().next().unwrap().open().wait().unwrap();
    assert!(device.claim_interface(0).wait().is_err());
    device.detach_kernel_driver(0).unwrap();
    assert_eq!(device.detach_kernel_driver(0).unwrap_err().os_error(), Some(61));
    device.attach_kernel_driver(0).unwrap();
    drop(device.detach_and_claim_interface(0).wait().unwrap());
    assert!(device.claim_interface(0).wait().is_err(), "the driver is attached again");
}

#[test]
fn a_reset_takes_the_device_away() {
    let (sender, receiver) = std::sync::mpsc::channel();
    let (_bench, _, device) = plugged(Closures::new().on_reset(move || sender.send(()).unwrap()));
    device.reset().wait().unwrap();
    assert_eq!(receiver.try_iter().count(), 1);
    assert_eq!(device.reset().wait().unwrap_err().kind(), ErrorKind::Disconnected);
}

#[test]
fn control_requests_reach_the_device() {
    let device = Closures::new()
        .on_control_in(|it| match it.request {
            1 => InReply::Packet(vec![it.value as u8, it.index as u8]),
            2 => InReply::Fail(71),
            _ => InReply::Stall,
        })
        .on_control_out(|it| match it.data {
            [5] => OutReply::Ack,
            [] => OutReply::Nak,
            _ => OutReply::Stall,
        });
    let (bench, _, device) = plugged(device);
    let interface = device.claim_interface(0).wait().unwrap();
    assert_eq!(device.control_in(in_request(1, 64), SECOND).wait(), Ok(vec![0x34, 5]));
    assert_eq!(interface.control_in(in_request(2, 0), SECOND).wait(), Err(TransferError::Fault));
    assert_eq!(device.control_in(in_request(3, 8), SECOND).wait(), Err(TransferError::Stall));
    assert_eq!(interface.control_out(out_request(&[5]), SECOND).wait(), Ok(()));
    assert_eq!(device.control_out(out_request(&[6]), SECOND).wait(), Err(TransferError::Stall));
    assert_eq!(device.control_out(out_request(&[]), SECOND).wait(), Err(TransferError::Cancelled));
    let expected = [
        "ctlin d0 vendor device 01 1234 0005 64 1000000000 : pkt k0 80 3405",
        "ctlin i0 vendor device 02 1234 0005 0 1000000000 : fail k0 80 71",
        "ctlin d0 vendor device 03 1234 0005 8 1000000000 : fail k0 80 32",
        "ctlout i0 class interface 09 0200 0000 05 1000000000 : ack k0 00",
        "ctlout d0 class interface 09 0200 0000 06 1000000000 : fail k0 00 32",
        "ctlout d0 class interface 09 0200 0000 - 1000000000",
    ];
    assert_eq!(lines(&bench)[1..], expected);
}

#[test]
fn strings_and_descriptors_are_those_of_the_plug() {
    let bench = Bench::new();
    bench.plug(Plug::new(TWO_BULK).string(4, "Å1"), Replies::new().stall(0x80));
    let device = list_devices().wait().unwrap().next().unwrap().open().wait().unwrap();
    let (four, five) = (NonZeroU8::new(4).unwrap(), NonZeroU8::new(5).unwrap());
    let languages = device.get_string_descriptor_supported_languages(SECOND).wait().unwrap();
    assert_eq!(languages.collect::<Vec<_>>(), [US_ENGLISH]);
    let string = |index| device.get_string_descriptor(index, US_ENGLISH, SECOND).wait();
    assert_eq!(string(four).unwrap(), "Å1");
    assert_eq!(string(five).unwrap_err().to_string(), "endpoint stalled");
    let bytes = device.get_descriptor(3, 4, US_ENGLISH, SECOND).wait().unwrap();
    assert_eq!(bytes, [6, 3, 0xC5, 0, 0x31, 0]);
    assert_eq!(device.get_descriptor(1, 0, 0, SECOND).wait().unwrap(), TWO_BULK[..18]);
    assert_eq!(device.get_descriptor(2, 0, 0, SECOND).wait().unwrap(), TWO_BULK[18..]);
    let expected = [
        "langs d0 1000000000 : pkt k0 80 04030904",
        "string d0 4 0409 1000000000 : pkt k0 80 0603c5003100",
        "string d0 5 0409 1000000000 : fail k0 80 32",
        "getdesc d0 3 4 0409 1000000000 : pkt k0 80 0603c5003100",
    ];
    assert_eq!(lines(&bench)[..4], expected);
}

#[test]
fn transfers_end_as_the_device_says() {
    let device = Replies::new()
        .packet(0x81, &[1, 2, 3])
        .packet(0x81, &[7; 64])
        .packet(0x81, &[])
        .stall(0x81)
        .packet(0x81, &[9; 65])
        .fail(0x81, 71)
        .accept(0x02)
        .accept(0x02);
    let (bench, _, interface) = claimed(device);
    let mut input = interface.endpoint::<Bulk, In>(0x81).unwrap();
    let mut output = interface.endpoint::<Bulk, Out>(0x02).unwrap();
    let rows = [
        (Ok(()), vec![1, 2, 3]),
        (Ok(()), vec![7; 64]),
        (Err(TransferError::Stall), vec![]),
        (Err(TransferError::Fault), vec![]),
        (Err(TransferError::Fault), vec![]),
        (Err(TransferError::Cancelled), vec![]),
    ];
    for (status, bytes) in rows {
        let done = input.transfer_blocking(Buffer::new(128), SECOND);
        assert_eq!(
            (done.status, done.actual_len, done.buffer.into_vec()),
            (status, bytes.len(), bytes)
        );
    }
    let done = output.transfer_blocking(vec![5; 100].into(), SECOND);
    assert_eq!((done.status, done.actual_len, done.buffer.len()), (Ok(()), 100, 100));
    assert!(lines(&bench).contains(&"xferin e0 128 1000000000 : pkt k0 81 010203".to_owned()));
}

#[test]
fn lengths_that_are_no_whole_packets_are_invalid() {
    let (_bench, _, interface) = claimed(Replies::new());
    let mut input = interface.endpoint::<Bulk, In>(0x81).unwrap();
    for len in [0, 63, 65] {
        let done = input.transfer_blocking(Buffer::new(len), SECOND);
        assert_eq!(done.status, Err(TransferError::InvalidArgument));
    }
}

#[test]
fn several_transfers_are_pending_and_are_cancelled() {
    let (_bench, _, interface) = claimed(Replies::new().packet(0x81, &[1]).packet(0x81, &[2]));
    let mut input = interface.endpoint::<Bulk, In>(0x81).unwrap();
    for _ in 0..4 {
        input.submit(input.allocate(64));
    }
    assert_eq!(input.pending(), 4);
    let first = input.wait_next_complete(SECOND).unwrap().into_result().unwrap();
    assert_eq!((&first[..], first.requested_len(), first.capacity() >= 64), (&[1][..], 64, true));
    assert_eq!(input.wait_next_complete(SECOND).unwrap().buffer[..], [2]);
    assert!(input.wait_next_complete(SECOND).is_none());
    input.cancel_all();
    let ends: Vec<_> = (0..2).map(|_| input.wait_next_complete(SECOND).unwrap().status).collect();
    assert_eq!(ends, [Err(TransferError::Cancelled); 2]);
    assert_eq!(input.pending(), 0);
    input.clear_halt().wait().unwrap();
}

#[test]
fn an_endpoint_can_be_opened_again_behind_its_drop() {
    let (bench, _, interface) = claimed(Replies::new());
    let mut input = interface.endpoint::<Bulk, In>(0x81).unwrap();
    input.submit(input.allocate(64));
    drop(input);
    assert_eq!(interface.endpoint::<Bulk, In>(0x81).unwrap().pending(), 0);
    assert_eq!(bench.fates(), ["ticket 0 k0 81 cancelled 0 reclaimed"]);
}

#[test]
fn what_was_finished_and_not_taken_does_not_hold_an_endpoint() {
    let (bench, _, interface) = claimed(Replies::new().packet(0x81, &[1]).packet(0x81, &[2]));
    let mut input = interface.endpoint::<Bulk, In>(0x81).unwrap();
    (0..3).for_each(|_| input.submit(input.allocate(64)));
    assert_eq!(input.wait_next_complete(SECOND).unwrap().buffer[..], [1]);
    drop(input);
    let reader = interface.endpoint::<Bulk, In>(0x81).unwrap().reader(64).with_num_transfers(4);
    drop(reader);
    assert_eq!(interface.endpoint::<Bulk, In>(0x81).unwrap().pending(), 0);
    let ends: Vec<_> =
        bench.fates().iter().map(|line| line.rsplit(' ').next().unwrap().to_owned()).collect();
    assert_eq!(ends, ["taken", "reclaimed", "reclaimed", "reclaimed", "reclaimed", "reclaimed"]);
}

#[test]
fn a_poll_finds_what_an_earlier_wait_had_finished() {
    let (_bench, _, interface) = claimed(Replies::new().packet(0x81, &[1]).packet(0x81, &[2]));
    let mut input = interface.endpoint::<Bulk, In>(0x81).unwrap();
    (0..2).for_each(|_| input.submit(input.allocate(64)));
    assert_eq!(input.wait_next_complete(SECOND).unwrap().buffer[..], [1]);
    let mut context = Context::from_waker(Waker::noop());
    let Poll::Ready(done) = input.poll_next_complete(&mut context) else {
        panic!("the second packet has come");
    };
    assert_eq!(done.buffer[..], [2]);
}

#[test]
fn futures_are_ready_once_the_device_has_answered() {
    let (_bench, _, interface) = claimed(Replies::new().nak(0x81).packet(0x81, &[4]));
    let mut context = Context::from_waker(Waker::noop());
    let mut input = interface.endpoint::<Bulk, In>(0x81).unwrap();
    input.submit(input.allocate(64));
    {
        let mut next = pin!(input.next_complete());
        assert!(next.as_mut().poll(&mut context).is_pending());
        let Poll::Ready(done) = next.as_mut().poll(&mut context) else {
            panic!("the packet has come");
        };
        assert_eq!(done.buffer[..], [4]);
    }
    let mut halt = pin!(input.clear_halt().map_ok(|()| 7).into_future());
    assert!(matches!(halt.as_mut().poll(&mut context), Poll::Ready(Ok(7))));
}

#[test]
fn a_reader_reads_over_packets_and_stops_at_short_ones() {
    let device = Replies::new()
        .packet(0x81, &[1; 64])
        .packet(0x81, &[2; 3])
        .packet(0x81, &[])
        .packet(0x81, &[3; 2])
        .packet(0x81, &[4; 5])
        .stall(0x81);
    let (_bench, _, interface) = claimed(device);
    let reader = interface.endpoint::<Bulk, In>(0x81).unwrap().reader(100);
    let mut reader = reader.with_num_transfers(3).with_read_timeout(SECOND);
    let mut message = Vec::new();
    reader.until_short_packet().read_to_end(&mut message).unwrap();
    assert_eq!(message, [vec![1; 64], vec![2; 3]].concat());
    assert!(reader.until_short_packet().is_end());
    reader.until_short_packet().consume_end().unwrap();
    assert!(reader.until_short_packet().consume_end().is_err());
    let mut five = [0; 4];
    reader.read_exact(&mut five).unwrap();
    assert_eq!(five, [3, 3, 4, 4]);
    assert_eq!(reader.fill_buf().unwrap(), [4; 3]);
    reader.consume(3);
    let error = reader.read(&mut five).unwrap_err();
    assert_eq!(error.get_ref().unwrap().downcast_ref(), Some(&TransferError::Stall));
    let mut input = reader.into_inner();
    input.cancel_all();
    assert_eq!(input.wait_next_complete(SECOND).unwrap().status, Err(TransferError::Cancelled));
}

#[test]
fn a_writer_ends_messages_by_short_packets() {
    let (sender, packets) = std::sync::mpsc::channel();
    let device = Closures::new().on_out(move |_, packet| {
        sender.send(packet.len()).unwrap();
        OutReply::Ack
    });
    let (_bench, socket, interface) = claimed(device);
    let mut writer = interface.endpoint::<Bulk, Out>(0x02).unwrap().writer(128);
    writer.set_num_transfers(2);
    writer.set_write_timeout(SECOND);
    writer.write_all(&[1; 300]).unwrap();
    writer.flush_end().unwrap();
    assert_eq!(packets.try_iter().collect::<Vec<_>>(), [64, 64, 64, 64, 44]);
    writer.write_all(&[2; 64]).unwrap();
    writer.flush_end().unwrap();
    assert_eq!(packets.try_iter().collect::<Vec<_>>(), [64, 0]);
    socket.inject(0x02, [Fault::Pass, Fault::Stall]);
    writer.write_all(&[3; 65]).unwrap();
    let error = writer.flush().unwrap_err();
    assert_eq!(error.kind(), std::io::ErrorKind::ConnectionReset);
    writer.write_all(&[4; 2]).unwrap();
    writer.submit_end();
    let mut output = writer.into_inner();
    assert_eq!(output.wait_next_complete(SECOND).unwrap().buffer[..], [4; 2]);
}

#[test]
fn refusals_meet_the_next_call_of_their_kind() {
    let (_bench, socket, device) = plugged(Replies::new());
    socket.refuse(KernelCall::Claim, 13);
    let error = device.claim_interface(0).wait().map(drop).unwrap_err();
    assert_eq!(error.to_string(), "failed to claim interface (errno 13)");
    let interface = device.claim_interface(0).wait().unwrap();
    socket.refuse(KernelCall::Submit, 12);
    let mut input = interface.endpoint::<Bulk, In>(0x81).unwrap();
    let done = input.transfer_blocking(Buffer::new(64), SECOND);
    assert_eq!(done.status, Err(TransferError::Unknown(12)));
}

#[test]
fn an_unplugged_device_ends_all_transfers() {
    let (bench, socket, interface) = claimed(Replies::new().packet(0x81, &[1; 64]).unplug(0x81));
    let mut input = interface.endpoint::<Bulk, In>(0x81).unwrap();
    let done = input.transfer_blocking(Buffer::new(128), SECOND);
    assert_eq!((done.status, done.actual_len), (Err(TransferError::Disconnected), 64));
    socket.unplug();
    let done = input.transfer_blocking(Buffer::new(128), SECOND);
    assert_eq!(done.status, Err(TransferError::Disconnected));
    assert_eq!(bench.fates()[1], "ticket 1 k0 81 disconnected 0 taken");
}

#[test]
fn a_script_is_saved() {
    let (bench, _, interface) = claimed(Replies::new());
    drop(interface);
    let path = std::env::temp_dir().join("usb-host-core-a-script-is-saved.script");
    bench.save(&path).unwrap();
    assert_eq!(std::fs::read_to_string(&path).unwrap(), bench.script());
    std::fs::remove_file(&path).unwrap();
    let last = bench.output().lines().last().map(str::to_owned);
    assert_eq!(last.as_deref(), Some("ok"), "nothing was handed in, so there is no fate");
}

#[test]
fn time_goes_by_as_a_test_says() {
    let (bench, _, _device) = plugged(Replies::new());
    bench.advance(SECOND);
    bench.advance(SECOND);
    assert_eq!(lines(&bench), ["! clock 1000000000 ; timer", "! clock 2000000000 ; timer"]);
}

#[test]
fn a_thousand_transfers() {
    let start = std::time::Instant::now();
    let device = Closures::new().on_poll(|_| InReply::Packet(vec![5; 63]));
    let (_bench, _, interface) = claimed(device);
    let mut input = interface.endpoint::<Bulk, In>(0x81).unwrap();
    input.submit(input.allocate(64));
    for _ in 0..1000 {
        let done = input.wait_next_complete(SECOND).unwrap();
        assert_eq!(done.status, Ok(()));
        input.submit(done.buffer);
    }
    println!("a thousand transfers: {:?}", start.elapsed());
}
