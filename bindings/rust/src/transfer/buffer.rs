use std::fmt;
use std::mem::MaybeUninit;
use std::ops::{Deref, DerefMut};

/// The memory of a transfer: its bytes, how many of them stand, and how many an IN transfer asks for.
pub struct Buffer {
    bytes: Vec<u8>,
    requested_len: usize,
}

impl Buffer {
    /// A buffer without bytes, for a transfer that asks for so many.
    pub fn new(requested_len: usize) -> Self {
        Buffer { bytes: Vec::with_capacity(requested_len), requested_len }
    }

    /// How many bytes stand in it.
    pub fn len(&self) -> usize {
        self.bytes.len()
    }

    /// Whether no byte stands in it.
    pub fn is_empty(&self) -> bool {
        self.bytes.is_empty()
    }

    /// How many bytes an IN transfer of this buffer asks for.
    pub fn requested_len(&self) -> usize {
        self.requested_len
    }

    /// Sets how many bytes an IN transfer of this buffer asks for. Panics where they don't fit.
    pub fn set_requested_len(&mut self, len: usize) {
        assert!(len <= self.capacity(), "length exceeds capacity");
        self.requested_len = len;
    }

    /// How many bytes fit.
    pub fn capacity(&self) -> usize {
        self.bytes.capacity()
    }

    /// How many more bytes fit.
    pub fn remaining_capacity(&self) -> usize {
        self.capacity() - self.len()
    }

    /// Takes all bytes out.
    pub fn clear(&mut self) {
        self.bytes.clear();
    }

    /// Adds a byte so many times, and lends what was added. Panics where it does not fit.
    pub fn extend_fill(&mut self, len: usize, value: u8) -> &mut [u8] {
        assert!(len <= self.remaining_capacity(), "length exceeds capacity");
        let start = self.len();
        self.bytes.resize(start + len, value);
        &mut self.bytes[start..]
    }

    /// Adds these bytes. Panics where they don't fit.
    pub fn extend_from_slice(&mut self, slice: &[u8]) {
        assert!(slice.len() <= self.remaining_capacity(), "length exceeds capacity");
        self.bytes.extend_from_slice(slice);
    }

    /// Whether the kernel shares this memory: never here.
    pub fn is_zero_copy(&self) -> bool {
        false
    }

    /// The bytes as a `Vec`.
    pub fn into_vec(self) -> Vec<u8> {
        self.bytes
    }

    /// The same memory with other bytes, of a transfer that asked for so many.
    pub(crate) fn filled(mut self, bytes: &[u8], requested_len: usize) -> Buffer {
        self.bytes.clear();
        self.bytes.extend_from_slice(bytes);
        self.requested_len = requested_len;
        self
    }
}

impl From<Vec<u8>> for Buffer {
    fn from(bytes: Vec<u8>) -> Self {
        let requested_len = bytes.len();
        Buffer { bytes, requested_len }
    }
}

impl From<&[u8]> for Buffer {
    fn from(slice: &[u8]) -> Self {
        Self::from(slice.to_vec())
    }
}

impl<const N: usize> From<[u8; N]> for Buffer {
    fn from(array: [u8; N]) -> Self {
        Self::from(array.to_vec())
    }
}

impl From<Vec<MaybeUninit<u8>>> for Buffer {
    fn from(memory: Vec<MaybeUninit<u8>>) -> Self {
        Buffer { bytes: Vec::with_capacity(memory.capacity()), requested_len: memory.len() }
    }
}

impl Deref for Buffer {
    type Target = [u8];

    fn deref(&self) -> &[u8] {
        &self.bytes
    }
}

impl DerefMut for Buffer {
    fn deref_mut(&mut self) -> &mut [u8] {
        &mut self.bytes
    }
}

impl fmt::Debug for Buffer {
    fn fmt(&self, f: &mut fmt::Formatter<'_>) -> fmt::Result {
        f.debug_struct("Buffer")
            .field("len", &self.len())
            .field("requested_len", &self.requested_len)
            .field("data", &format_args!("{:02x?}", &self[..]))
            .finish()
    }
}
