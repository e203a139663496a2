//! The error numbers of Linux that a session knows by name.

pub type Errno = u16;

pub const PERM: Errno = 1;
pub const NOENT: Errno = 2;
pub const ACCES: Errno = 13;
pub const BUSY: Errno = 16;
pub const NODEV: Errno = 19;
pub const INVAL: Errno = 22;
pub const PIPE: Errno = 32;
pub const NODATA: Errno = 61;
pub const TIME: Errno = 62;
pub const COMM: Errno = 70;
pub const PROTO: Errno = 71;
pub const OVERFLOW: Errno = 75;
pub const ILSEQ: Errno = 84;
pub const CONNRESET: Errno = 104;
pub const SHUTDOWN: Errno = 108;
pub const TIMEDOUT: Errno = 110;
