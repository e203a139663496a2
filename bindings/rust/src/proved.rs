//! The proved static library `usb_core_c`: its calls, as safe functions.
//!
//! The declarations are written by hand to fit crates/usb_core_c/src, and nothing compares the two.
//! No export asks anything of its arguments, so nothing is tested here.
#![allow(unsafe_code)]

use crate::answers::Answers;
use std::ops::Range;

/// What the call for a script came to, as the library tells it.
#[repr(C)]
#[derive(Clone, Copy, Debug, Default, PartialEq, Eq)]
struct Told {
    status: u8,
    line: u32,
    len: usize,
    calls: u32,
    tickets: u64,
    taken: u64,
    dropped: u64,
    reclaimed: u64,
}

/// What a device descriptor tells, but for its strings (USB 2.0, table 9-8).
#[repr(C)]
#[derive(Clone, Copy, Debug, Default, PartialEq, Eq)]
pub struct Device {
    /// The version of USB, in binary-coded decimal.
    pub usb_version: u16,
    /// The class code.
    pub class: u8,
    /// The subclass code.
    pub subclass: u8,
    /// The protocol code.
    pub protocol: u8,
    /// The maximum packet size of endpoint 0, in bytes.
    pub max_packet_size_0: u8,
    /// The vendor's number.
    pub vendor: u16,
    /// The product's number.
    pub product: u16,
    /// The version of the device, in binary-coded decimal.
    pub version: u16,
    /// How many configurations there are.
    pub configurations: u8,
}

/// What an alternate setting of an interface tells, but for its string (USB 2.0, table 9-12).
#[repr(C)]
#[derive(Clone, Copy, Debug, Default, PartialEq, Eq)]
pub struct Setting {
    /// The interface's number.
    pub number: u8,
    /// The setting's number.
    pub alternate: u8,
    /// The class code.
    pub class: u8,
    /// The subclass code.
    pub subclass: u8,
    /// The protocol code.
    pub protocol: u8,
}

/// What an endpoint tells (USB 2.0, table 9-13).
#[repr(C)]
#[derive(Clone, Copy, Debug, Default, PartialEq, Eq)]
pub struct Endpoint {
    /// Its address: a number, and the direction as bit 7.
    pub address: u8,
    /// Its attributes, as bits.
    pub attributes: u8,
    /// Its interval, as the descriptor has it.
    pub interval: u8,
    /// Its maximum packet size, in bytes.
    pub max_packet_size: usize,
}

/// A part of some bytes, as the library tells it.
#[repr(C)]
#[derive(Clone, Copy, Debug, Default, PartialEq, Eq)]
struct Part {
    start: usize,
    len: usize,
}

/// What the call for the text of a string descriptor came to, as the library tells it.
#[repr(C)]
#[derive(Clone, Copy, Debug, Default, PartialEq, Eq)]
struct TextTold {
    status: u8,
    len: usize,
}

unsafe extern "C" {
    fn usb_core_answer(
        script: *const u8,
        script_len: usize,
        out: *mut u8,
        out_len: usize,
        told: *mut Told,
    );
    fn usb_core_device(bytes: *const u8, len: usize, out: *mut Device) -> bool;
    fn usb_core_count_settings(bytes: *const u8, len: usize) -> usize;
    fn usb_core_setting(bytes: *const u8, len: usize, index: usize, out: *mut Setting) -> bool;
    fn usb_core_endpoint(
        bytes: *const u8,
        len: usize,
        index: usize,
        number: usize,
        out: *mut Endpoint,
    ) -> bool;
    fn usb_core_descriptor_len(bytes: *const u8, len: usize) -> usize;
    fn usb_core_configuration_len(bytes: *const u8, len: usize) -> usize;
    fn usb_core_group(bytes: *const u8, len: usize, kind: u8, least: u8, out: *mut Part) -> bool;
    fn usb_core_string(
        bytes: *const u8,
        len: usize,
        out: *mut u8,
        out_len: usize,
        told: *mut TextTold,
    );
}

/// The library as what answers scripts, in this process.
#[derive(Debug, Clone, Default)]
pub struct Library {
    /// Where the library writes.
    room: Vec<u8>,
}

impl Library {
    /// The library that is linked.
    #[must_use]
    pub fn new() -> Library {
        Library { room: vec![0; 1 << 16] }
    }

    fn ask(&mut self, script: &[u8]) -> Told {
        let (out, mut told) = (&mut self.room, Told::default());
        // SAFETY: pointers and lengths are those of two slices, one of which may be written to, and
        // `told` is a whole struct of the same layout. All are lent for the call alone.
        unsafe {
            usb_core_answer(
                script.as_ptr(),
                script.len(),
                out.as_mut_ptr(),
                out.len(),
                &raw mut told,
            );
        }
        told
    }
}

impl Answers for Library {
    fn answer(&mut self, script: &[u8]) -> Result<Vec<u8>, String> {
        loop {
            let told = self.ask(script);
            match told.status {
                0 => return Ok(self.room[..told.len].to_vec()),
                3 => return Err(format!("malformed line {}", told.line)),
                4 => return Err("script too long".to_owned()),
                6 => self.room.resize(2 * told.len, 0),
                _ => return Err("out of memory".to_owned()),
            }
        }
    }
}

/// The device descriptor at the front of these bytes.
#[must_use]
pub fn device(bytes: &[u8]) -> Option<Device> {
    let mut out = Device::default();
    // SAFETY: pointer and length are those of one slice, and `out` is a whole struct of the same
    // layout. Both are lent for the call alone.
    let is_there = unsafe { usb_core_device(bytes.as_ptr(), bytes.len(), &raw mut out) };
    is_there.then_some(out)
}

/// How many settings the configuration at the front of these bytes has; 0 where none stands there.
#[must_use]
pub fn count_settings(bytes: &[u8]) -> usize {
    // SAFETY: pointer and length are those of one slice, which is lent for the call alone.
    unsafe { usb_core_count_settings(bytes.as_ptr(), bytes.len()) }
}

/// The setting with this index of the configuration at the front of these bytes.
#[must_use]
pub fn setting(bytes: &[u8], index: usize) -> Option<Setting> {
    let mut out = Setting::default();
    // SAFETY: as in `device`.
    let is_there = unsafe { usb_core_setting(bytes.as_ptr(), bytes.len(), index, &raw mut out) };
    is_there.then_some(out)
}

/// The endpoint with this number of the setting with this index.
#[must_use]
pub fn endpoint(bytes: &[u8], index: usize, number: usize) -> Option<Endpoint> {
    let mut out = Endpoint::default();
    // SAFETY: as in `device`.
    let is_there =
        unsafe { usb_core_endpoint(bytes.as_ptr(), bytes.len(), index, number, &raw mut out) };
    is_there.then_some(out)
}

/// The settings of the configuration at the front of these bytes, in the order of their
/// descriptors.
pub fn settings(bytes: &[u8]) -> impl Iterator<Item = Setting> + '_ {
    (0..count_settings(bytes)).filter_map(move |index| setting(bytes, index))
}

/// The endpoints of the setting with this index, in the order of their descriptors.
pub fn endpoints(bytes: &[u8], index: usize) -> impl Iterator<Item = Endpoint> + '_ {
    (0..).map_while(move |number| endpoint(bytes, index, number))
}

/// Whether a device descriptor stands at the front of these bytes.
#[must_use]
pub fn is_device(bytes: &[u8]) -> bool {
    device(bytes).is_some()
}

/// How many bytes the descriptor at the front of these bytes has.
#[must_use]
pub fn descriptor_len(bytes: &[u8]) -> Option<usize> {
    // SAFETY: as in `count_settings`.
    let len = unsafe { usb_core_descriptor_len(bytes.as_ptr(), bytes.len()) };
    (len > 0).then_some(len)
}

/// How many bytes the configuration at the front of these bytes has.
#[must_use]
pub fn configuration_len(bytes: &[u8]) -> Option<usize> {
    // SAFETY: as in `count_settings`.
    let len = unsafe { usb_core_configuration_len(bytes.as_ptr(), bytes.len()) };
    (len > 0).then_some(len)
}

/// Where the first group of a type stands: a descriptor of at least so many bytes, and those behind
/// it that belong to it.
#[must_use]
pub fn group(bytes: &[u8], kind: u8, least: u8) -> Option<Range<usize>> {
    let mut part = Part::default();
    // SAFETY: as in `device`.
    let is_there =
        unsafe { usb_core_group(bytes.as_ptr(), bytes.len(), kind, least, &raw mut part) };
    is_there.then(|| part.start..part.start + part.len)
}

/// The text of a string descriptor. There is none where the bytes are no string descriptor.
///
/// # Panics
///
/// Where memory is lacking.
#[must_use]
pub fn string(bytes: &[u8]) -> Option<String> {
    // A string descriptor has at most 126 units of UTF-16, and each makes at most three bytes.
    let mut room = vec![0; 3 * 126];
    let mut told = TextTold::default();
    // SAFETY: pointers and lengths are those of two slices, one of which may be written to, and
    // `told` is a whole struct of the same layout. All are lent for the call alone.
    unsafe {
        usb_core_string(bytes.as_ptr(), bytes.len(), room.as_mut_ptr(), room.len(), &raw mut told);
    }
    match told.status {
        0 => room.truncate(told.len),
        3 => return None,
        6 => unreachable!("there is room for every text"),
        _ => panic!("out of memory"),
    }
    Some(String::from_utf8(room).expect("the library writes UTF-8"))
}
