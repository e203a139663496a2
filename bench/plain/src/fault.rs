//! Why a session was not answered to its end.

use std::fmt;

pub enum Fault {
    /// The program's words are none that it knows.
    Usage,
    /// This line, counted from 1, is the first outside the grammar.
    Malformed(usize),
    TooLong,
    Read,
    Write,
}

impl Fault {
    /// The program's status.
    pub fn status(&self) -> u8 {
        match self {
            Fault::Usage => 2,
            Fault::Malformed(_) => 3,
            Fault::TooLong => 4,
            Fault::Read => 5,
            Fault::Write => 6,
        }
    }
}

/// The line on standard error, without its end.
impl fmt::Display for Fault {
    fn fmt(&self, f: &mut fmt::Formatter) -> fmt::Result {
        match self {
            Fault::Usage => {
                f.write_str("usage: nusb_sim [session|generate N|live N|disk N|trace|check]")
            }
            Fault::Malformed(line) => write!(f, "nusb_sim: malformed line {line}"),
            Fault::TooLong => f.write_str("nusb_sim: script too long"),
            Fault::Read => f.write_str("nusb_sim: read fault"),
            Fault::Write => f.write_str("nusb_sim: write fault"),
        }
    }
}
