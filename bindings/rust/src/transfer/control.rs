/// The direction of a transfer, as bit 7 of an endpoint's address or of a request's type.
#[derive(Clone, Copy, PartialEq, Eq, Debug)]
#[repr(u8)]
pub enum Direction {
    /// From the host to the device.
    Out = 0,
    /// From the device to the host.
    In = 0x80,
}

impl Direction {
    pub(crate) fn from_address(address: u8) -> Direction {
        match address & 0x80 {
            0 => Direction::Out,
            _ => Direction::In,
        }
    }
}

/// Who defines a control request (USB 2.0, section 9.3).
#[derive(Clone, Copy, PartialEq, Eq, Debug)]
#[repr(u8)]
pub enum ControlType {
    /// The USB standard.
    Standard = 0,
    /// A device class.
    Class = 1,
    /// The vendor of the device.
    Vendor = 2,
}

/// Whom a control request goes to (USB 2.0, section 9.3).
#[derive(Clone, Copy, PartialEq, Eq, Debug)]
#[repr(u8)]
pub enum Recipient {
    /// The device.
    Device = 0,
    /// An interface, whose number stands in `index`.
    Interface = 1,
    /// An endpoint, whose address stands in `index`.
    Endpoint = 2,
    /// Anything else.
    Other = 3,
}

/// A control request with data for the device.
#[derive(Debug, Clone, Copy)]
pub struct ControlOut<'a> {
    /// Who defines the request.
    #[doc(alias = "bmRequestType")]
    pub control_type: ControlType,
    /// Whom it goes to.
    #[doc(alias = "bmRequestType")]
    pub recipient: Recipient,
    /// The request's number.
    #[doc(alias = "bRequest")]
    pub request: u8,
    /// Its value.
    #[doc(alias = "wValue")]
    pub value: u16,
    /// Its index.
    #[doc(alias = "wIndex")]
    pub index: u16,
    /// The bytes that go with it, at most 65535.
    #[doc(alias = "wLength")]
    pub data: &'a [u8],
}

/// A control request that asks the device for data.
#[derive(Debug, Clone, Copy)]
pub struct ControlIn {
    /// Who defines the request.
    #[doc(alias = "bmRequestType")]
    pub control_type: ControlType,
    /// Whom it goes to.
    #[doc(alias = "bmRequestType")]
    pub recipient: Recipient,
    /// The request's number.
    #[doc(alias = "bRequest")]
    pub request: u8,
    /// Its value.
    #[doc(alias = "wValue")]
    pub value: u16,
    /// Its index.
    #[doc(alias = "wIndex")]
    pub index: u16,
    /// How many bytes are asked for at most.
    #[doc(alias = "wLength")]
    pub length: u16,
}
