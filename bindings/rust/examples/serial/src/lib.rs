//! A serial adapter (USB Class Definitions for Communication Devices 1.2, with its subclass for
//! PSTN devices): lines are set by control requests, and frames go over two bulk endpoints.
//!
//! Frames are those of SLIP (RFC 1055): a byte C0 ends one, and C0 and DB within are escaped.

use nusb::io::{EndpointRead, EndpointWrite};
use nusb::transfer::{Bulk, ControlIn, ControlOut, ControlType, In, Out, Recipient, TransferError};
use nusb::{Device, Interface, MaybeFuture};
use std::io::{self, BufRead, Write};
use std::time::Duration;

const SET_LINE_CODING: u8 = 0x20;
const GET_LINE_CODING: u8 = 0x21;
const SET_CONTROL_LINE_STATE: u8 = 0x22;
const SECOND: Duration = Duration::from_secs(1);

const END: u8 = 0xC0;
const ESCAPE: u8 = 0xDB;
const ESCAPED_END: u8 = 0xDC;
const ESCAPED_ESCAPE: u8 = 0xDD;

/// How the line is set. Data bits, parity and stop bits are the usual eight, none and one.
#[derive(Debug, Clone, Copy, PartialEq, Eq)]
pub struct LineCoding {
    /// Bits in a second.
    pub rate: u32,
}

impl LineCoding {
    fn to_bytes(self) -> [u8; 7] {
        let [a, b, c, d] = self.rate.to_le_bytes();
        [a, b, c, d, 0, 0, 8]
    }

    fn from_bytes(bytes: &[u8]) -> Option<LineCoding> {
        let rate = u32::from_le_bytes(bytes.get(..4)?.try_into().ok()?);
        (bytes.len() == 7).then_some(LineCoding { rate })
    }
}

/// An open serial adapter: interface 0 takes requests, interface 1 has the data.
pub struct Serial {
    control: Interface,
    reader: EndpointRead<Bulk>,
    writer: EndpointWrite<Bulk>,
    /// The bytes of a frame that has begun.
    frame: Vec<u8>,
}

impl Serial {
    /// Opens the adapter of this vendor and product, and sets its line.
    pub fn open(vendor: u16, product: u16, coding: LineCoding) -> io::Result<Serial> {
        let info = nusb::list_devices()
            .wait()?
            .find(|it| it.vendor_id() == vendor && it.product_id() == product)
            .ok_or_else(|| io::Error::new(io::ErrorKind::NotFound, "no such adapter"))?;
        Serial::start(&info.open().wait()?, coding)
    }

    fn start(device: &Device, coding: LineCoding) -> io::Result<Serial> {
        let control = device.claim_interface(0).wait()?;
        let data = device.claim_interface(1).wait()?;
        let reader = data.endpoint::<Bulk, In>(0x81)?.reader(512);
        let writer = data.endpoint::<Bulk, Out>(0x02)?.writer(512);
        let serial = Serial {
            control,
            reader: reader.with_num_transfers(4).with_read_timeout(SECOND),
            writer: writer.with_num_transfers(2).with_write_timeout(SECOND),
            frame: Vec::new(),
        };
        serial.set(SET_LINE_CODING, 0, &coding.to_bytes())?;
        serial.set(SET_CONTROL_LINE_STATE, 3, &[])?;
        Ok(serial)
    }

    fn set(&self, request: u8, value: u16, data: &[u8]) -> Result<(), TransferError> {
        let request = ControlOut {
            control_type: ControlType::Class,
            recipient: Recipient::Interface,
            request,
            value,
            index: 0,
            data,
        };
        self.control.control_out(request, SECOND).wait()
    }

    /// How the adapter says that its line is set.
    pub fn line_coding(&self) -> io::Result<LineCoding> {
        let request = ControlIn {
            control_type: ControlType::Class,
            recipient: Recipient::Interface,
            request: GET_LINE_CODING,
            value: 0,
            index: 0,
            length: 7,
        };
        let bytes = self.control.control_in(request, SECOND).wait()?;
        let coding = LineCoding::from_bytes(&bytes);
        coding.ok_or_else(|| io::Error::new(io::ErrorKind::InvalidData, "no line coding"))
    }

    /// Sends a frame.
    pub fn send(&mut self, frame: &[u8]) -> io::Result<()> {
        let mut bytes = Vec::with_capacity(frame.len() + 2);
        for &byte in frame {
            match byte {
                END => bytes.extend([ESCAPE, ESCAPED_END]),
                ESCAPE => bytes.extend([ESCAPE, ESCAPED_ESCAPE]),
                _ => bytes.push(byte),
            }
        }
        bytes.push(END);
        self.writer.write_all(&bytes)?;
        self.writer.flush()
    }

    /// The next frame that has a byte. Where none is whole in time the error is `TimedOut`, and its
    /// bytes so far are kept for the next call.
    pub fn receive(&mut self) -> io::Result<Vec<u8>> {
        loop {
            let bytes = self.reader.fill_buf()?;
            if bytes.is_empty() {
                return Err(io::ErrorKind::UnexpectedEof.into());
            }
            let end = bytes.iter().position(|&byte| byte == END);
            let taken = end.unwrap_or(bytes.len());
            self.frame.extend_from_slice(&bytes[..taken]);
            self.reader.consume(taken + usize::from(end.is_some()));
            if end.is_some() && !self.frame.is_empty() {
                return unescaped(&std::mem::take(&mut self.frame));
            }
        }
    }
}

/// A frame without its escapes.
fn unescaped(bytes: &[u8]) -> io::Result<Vec<u8>> {
    let mut frame = Vec::with_capacity(bytes.len());
    let mut rest = bytes.iter();
    while let Some(&byte) = rest.next() {
        frame.push(match (byte, byte == ESCAPE) {
            (byte, false) => byte,
            (_, true) => match rest.next() {
                Some(&ESCAPED_END) => END,
                Some(&ESCAPED_ESCAPE) => ESCAPE,
                _ => return Err(io::Error::new(io::ErrorKind::InvalidData, "a wrong escape")),
            },
        });
    }
    Ok(frame)
}
