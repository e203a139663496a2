//! Why the host refuses a call.

use crate::errno::{self, Errno};
use crate::text::{Show, Text};

#[derive(Clone, Copy)]
pub enum Refusal {
    Open(Errno),
    ReadDescriptors(Errno),
    InvalidDeviceDescriptor,
    Configuration,
    SetConfiguration(Errno),
    Reset(Errno),
    Claim(Errno),
    Detach(Errno),
    Attach(Errno),
    SetInterface(Errno),
    ClearHalt(Errno),
    EndpointsInUse,
    InterfaceInUse,
    NoSuchEndpoint,
    IncorrectEndpointDirection,
    IncorrectEndpointType,
    EndpointHasNoPacketSize,
    EndpointAlreadyInUse,
    Listing(Errno),
}

/// A refusal's kind and its text.
type Words = (&'static str, &'static str);

fn open_words(errno: Errno) -> Words {
    match errno {
        errno::NOENT => ("Disconnected", "device not found"),
        errno::PERM | errno::ACCES => ("PermissionDenied", "permission denied"),
        _ => ("Other", "failed to open device"),
    }
}

fn set_configuration_words(errno: Errno) -> Words {
    match errno {
        errno::INVAL => ("NotFound", "configuration not found"),
        errno::BUSY => ("Busy", "device is busy"),
        _ => ("Other", "failed to set configuration"),
    }
}

fn claim_words(errno: Errno) -> Words {
    match errno {
        errno::INVAL | errno::NOENT => ("NotFound", "interface not found"),
        errno::BUSY => ("Busy", "interface is busy"),
        _ => ("Other", "failed to claim interface"),
    }
}

fn detach_words(errno: Errno) -> Words {
    match errno {
        errno::INVAL => ("NotFound", "interface not found"),
        errno::NODATA => ("Other", "no kernel driver attached"),
        _ => ("Other", "failed to detach kernel driver"),
    }
}

fn listing_words(errno: Errno) -> Words {
    match errno {
        errno::NOENT => ("Other", "/sys/bus/usb/devices/ not found"),
        errno::PERM | errno::ACCES => (
            "PermissionDenied",
            "/sys/bus/usb/devices/ permission denied",
        ),
        _ => ("Other", "failed to open /sys/bus/usb/devices/"),
    }
}

fn attach_words(errno: Errno) -> Words {
    match errno {
        errno::INVAL => ("NotFound", "interface not found"),
        errno::BUSY => ("Busy", "kernel driver already attached"),
        _ => ("Other", "failed to attach kernel driver"),
    }
}

impl Refusal {
    fn words(self) -> Words {
        match self {
            Refusal::Open(errno) => open_words(errno),
            Refusal::ReadDescriptors(_) => ("Other", "failed to read descriptors"),
            Refusal::InvalidDeviceDescriptor => ("Other", "invalid device descriptor"),
            Refusal::Listing(errno) => listing_words(errno),
            Refusal::Configuration => ("Other", "failed to read sysfs bConfigurationValue"),
            _ if self.errno() == Some(errno::NODEV) => ("Disconnected", "device disconnected"),
            Refusal::SetConfiguration(errno) => set_configuration_words(errno),
            Refusal::Reset(errno::BUSY) => ("Busy", "device is busy"),
            Refusal::Reset(_) => ("Other", "failed to reset device"),
            Refusal::Claim(errno) => claim_words(errno),
            Refusal::Detach(errno) => detach_words(errno),
            Refusal::Attach(errno) => attach_words(errno),
            Refusal::SetInterface(errno::INVAL) => ("NotFound", "alternate setting not found"),
            Refusal::SetInterface(_) => ("Other", "failed to set alternate setting"),
            Refusal::ClearHalt(_) => ("Other", "failed to clear halt"),
            Refusal::EndpointsInUse => (
                "Busy",
                "can't change alternate setting while endpoints are in use",
            ),
            Refusal::InterfaceInUse => ("Busy", "interface is still in use"),
            Refusal::NoSuchEndpoint => (
                "NotFound",
                "specified endpoint does not exist on this interface",
            ),
            Refusal::IncorrectEndpointDirection => ("Other", "incorrect endpoint direction"),
            Refusal::IncorrectEndpointType => ("Other", "incorrect endpoint type"),
            Refusal::EndpointHasNoPacketSize => ("Other", "endpoint has max packet size 0"),
            Refusal::EndpointAlreadyInUse => ("Busy", "endpoint already in use"),
        }
    }

    /// The number that the kernel gave, where it is told.
    fn errno(self) -> Option<Errno> {
        match self {
            Refusal::Open(errno)
            | Refusal::ReadDescriptors(errno)
            | Refusal::SetConfiguration(errno)
            | Refusal::Reset(errno)
            | Refusal::Claim(errno)
            | Refusal::Detach(errno)
            | Refusal::Attach(errno)
            | Refusal::SetInterface(errno)
            | Refusal::ClearHalt(errno)
            | Refusal::Listing(errno) => Some(errno),
            _ => None,
        }
    }
}

impl Show for Refusal {
    fn show(&self, text: &mut Text) {
        let (kind, message) = self.words();
        text.word(kind).word(" ").word(message);
        if let Some(errno) = self.errno() {
            text.word(" (errno ").number(errno.into()).word(")");
        }
    }
}
