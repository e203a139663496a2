//! Words of the script language.

use std::fmt::Write;
use std::time::Duration;

/// The most bytes that one word may have: those of a transfer or of a packet.
pub(crate) const MOST_BYTES: usize = 65536;

/// Bytes as hexadecimal digits; `-` for none.
pub(crate) fn hex(bytes: &[u8]) -> String {
    assert!(bytes.len() <= MOST_BYTES, "a transfer or a packet has at most {MOST_BYTES} bytes");
    if bytes.is_empty() {
        return "-".to_owned();
    }
    let mut word = String::with_capacity(2 * bytes.len());
    for byte in bytes {
        write!(word, "{byte:02x}").expect("a String takes what is written");
    }
    word
}

fn digit(byte: u8) -> u8 {
    match byte {
        b'0'..=b'9' => byte - b'0',
        b'a'..=b'f' => byte - b'a' + 10,
        _ => panic!("an answer has a byte that is no hexadecimal digit"),
    }
}

/// The bytes of hexadecimal digits, or of `-`.
pub(crate) fn bytes_of(word: &str) -> Vec<u8> {
    match word {
        "-" => Vec::new(),
        _ => word
            .as_bytes()
            .chunks_exact(2)
            .map(|pair| digit(pair[0]) << 4 | digit(pair[1]))
            .collect(),
    }
}

/// A text as an answer prints it: `none`, or the hexadecimal digits of its UTF-8.
pub(crate) fn text_of(word: &str) -> Option<String> {
    match word {
        "none" => None,
        _ => Some(String::from_utf8_lossy(&bytes_of(word)).into_owned()),
    }
}

/// A time in nanoseconds. What is longer than 10^18 of them counts as endless.
pub(crate) fn time(duration: Duration) -> String {
    match duration.as_nanos() {
        nanoseconds if nanoseconds <= 10u128.pow(18) => nanoseconds.to_string(),
        _ => "max".to_owned(),
    }
}

/// A number in decimal digits, where an answer has one.
pub(crate) fn number<T: std::str::FromStr>(word: &str) -> T {
    match word.parse() {
        Ok(number) => number,
        Err(_) => panic!("an answer has {word:?} in the place of a number"),
    }
}

/// A number in hexadecimal digits, where an answer has one.
pub(crate) fn hex_number(word: &str) -> u16 {
    match u16::from_str_radix(word, 16) {
        Ok(number) => number,
        Err(_) => panic!("an answer has {word:?} in the place of a hexadecimal number"),
    }
}

/// A length, rounded up to whole packets, at least one.
pub(crate) fn whole_packets(len: usize, max: usize) -> usize {
    len.div_ceil(max).max(1) * max
}

/// The names of one letter that are in use, a bit for each number.
#[derive(Default)]
pub(crate) struct Names(u64);

impl Names {
    /// The least number that is free, which is in use from now on.
    pub(crate) fn take(&mut self) -> u32 {
        let least = self.0.trailing_ones();
        assert!(least < 64, "a session has at most 64 handles of a kind");
        self.0 |= 1 << least;
        least
    }

    /// Frees a number.
    pub(crate) fn free(&mut self, number: u32) {
        self.0 &= !(1 << number);
    }
}
