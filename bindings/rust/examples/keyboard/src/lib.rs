//! A boot keyboard (Device Class Definition for HID 1.11, appendix B): its reports are read from
//! an interrupt endpoint, and its LEDs are set by a control request.

use nusb::descriptors::TransferType;
use nusb::transfer::{
    Buffer, ControlOut, ControlType, Direction, In, Interrupt, Recipient, TransferError,
};
use nusb::{Endpoint, Error, ErrorKind, Interface, MaybeFuture};
use std::io;
use std::time::Duration;

const HID: u8 = 3;
const BOOT: u8 = 1;
const KEYBOARD: u8 = 1;
const SET_REPORT: u8 = 0x09;
const SET_PROTOCOL: u8 = 0x0B;
const OUTPUT_REPORT: u16 = 0x0200;
const SECOND: Duration = Duration::from_secs(1);

/// How many transfers are on their way.
const PENDING: usize = 4;

/// A report: the keys that are down.
#[derive(Debug, Clone, Copy, PartialEq, Eq, Default)]
pub struct Report {
    /// A bit for each modifier: left control, shift, alt, GUI, and the right ones.
    pub modifiers: u8,
    /// The codes of up to six keys; 0 for none.
    pub keys: [u8; 6],
}

/// An open boot keyboard.
pub struct Keyboard {
    interface: Interface,
    reports: Endpoint<Interrupt, In>,
}

impl Keyboard {
    /// Opens the first keyboard that is plugged in.
    pub fn open_first() -> io::Result<Keyboard> {
        let mut devices = nusb::list_devices().wait()?;
        let found = devices.find_map(|device| {
            let mut interfaces = device.interfaces();
            let keyboard = interfaces
                .find(|it| (it.class(), it.subclass(), it.protocol()) == (HID, BOOT, KEYBOARD))?;
            Some((keyboard.interface_number(), device.clone()))
        });
        let (number, info) =
            found.ok_or_else(|| io::Error::new(io::ErrorKind::NotFound, "no keyboard"))?;
        let device = info.open().wait()?;
        let interface = device.detach_and_claim_interface(number).wait()?;
        Keyboard::start(interface)
    }

    fn start(interface: Interface) -> io::Result<Keyboard> {
        let setting = interface.descriptor();
        let endpoint = setting.and_then(|setting| {
            setting.endpoints().find(|it| {
                it.transfer_type() == TransferType::Interrupt && it.direction() == Direction::In
            })
        });
        let address = endpoint
            .map(|it| it.address())
            .ok_or_else(|| io::Error::new(io::ErrorKind::NotFound, "no interrupt endpoint"))?;
        let mut reports = interface.endpoint::<Interrupt, In>(address)?;
        for _ in 0..PENDING {
            let buffer = reports.allocate(reports.max_packet_size());
            reports.submit(buffer);
        }
        Ok(Keyboard { interface, reports })
    }

    /// Asks for reports of the boot form.
    pub fn use_boot_protocol(&self) -> Result<(), TransferError> {
        self.request(SET_PROTOCOL, 0, &[])
    }

    /// Sets the LEDs: bit 0 num lock, bit 1 caps lock, bit 2 scroll lock.
    pub fn set_leds(&self, leds: u8) -> Result<(), TransferError> {
        self.request(SET_REPORT, OUTPUT_REPORT, &[leds])
    }

    fn request(&self, request: u8, value: u16, data: &[u8]) -> Result<(), TransferError> {
        let index = u16::from(self.interface.interface_number());
        let request = ControlOut {
            control_type: ControlType::Class,
            recipient: Recipient::Interface,
            request,
            value,
            index,
            data,
        };
        self.interface.control_out(request, SECOND).wait()
    }

    /// The next report; `None` where none comes in time. A report that is cut short is left out. A
    /// stall is cleared.
    pub fn next_report(&mut self, timeout: Duration) -> io::Result<Option<Report>> {
        loop {
            let Some(done) = self.reports.wait_next_complete(timeout) else {
                return Ok(None);
            };
            match done.status {
                Ok(()) => {}
                Err(TransferError::Stall) => self.restart()?,
                Err(error) => return Err(error.into()),
            }
            let report = report_of(&done.buffer[..done.actual_len]);
            let packet = self.reports.max_packet_size();
            let mut buffer: Buffer = done.buffer;
            buffer.clear();
            buffer.set_requested_len(packet);
            self.reports.submit(buffer);
            if let (Some(report), Ok(())) = (report, done.status) {
                return Ok(Some(report));
            }
        }
    }

    fn restart(&mut self) -> Result<(), Error> {
        self.reports.clear_halt().wait()
    }
}

/// The report in these bytes.
fn report_of(bytes: &[u8]) -> Option<Report> {
    match bytes {
        [modifiers, _, keys @ ..] => {
            let keys = keys.try_into().ok()?;
            Some(Report { modifiers: *modifiers, keys })
        }
        _ => None,
    }
}

/// Whether an error tells that the keyboard is gone.
pub fn is_gone(error: &io::Error) -> bool {
    let inner = error.get_ref();
    match inner.and_then(|it| it.downcast_ref::<TransferError>()) {
        Some(transfer) => *transfer == TransferError::Disconnected,
        None => inner
            .and_then(|it| it.downcast_ref::<Error>())
            .is_some_and(|it| it.kind() == ErrorKind::Disconnected),
    }
}
