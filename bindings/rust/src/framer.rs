//! Packets found in half-bits.
use crate::calls::{dcc_push, dcc_push_many, dcc_push_run, Outcome};
use crate::frame::Frame;
use core::fmt;

/// Finds packets in half-bits (NMRA S-9.1, S-9.2).
#[repr(C)]
#[derive(Clone)]
pub struct Framer([u64; 3]);

/// The packet or refusal that a half-bit completes.
#[derive(Clone, Copy, Debug, PartialEq, Eq)]
pub enum Seen {
    /// A packet.
    Packet(Frame),
    /// A body that is no packet.
    Refused(Refusal),
}

/// The reason why half-bits after a start bit are no packet.
#[derive(Clone, Copy, Debug, PartialEq, Eq)]
pub enum Refusal {
    /// H1: a half-bit is neither half of a one nor half of a zero.
    BadHalf,
    /// H2: the two half-bits of a bit are of different classes.
    SplitBit,
    /// H3: there are fewer than 3 bytes.
    TooShort,
    /// H4: there are more than 6 bytes.
    TooLong,
    /// H5: the error byte of these bytes is wrong.
    ErrorByte {
        /// The number of bytes, 3 to 6.
        len: u8,
        /// The bytes, followed by zeros.
        bytes: [u8; 6],
    },
}

impl Framer {
    /// Creates a framer that was given no half-bits. (By the header, a framer of zeros is new.)
    ///
    /// ```
    /// static mut FRAMER: dcc::Framer = dcc::Framer::new();
    /// ```
    pub const fn new() -> Framer {
        Framer([0; 3])
    }

    /// Takes a half-bit of `us` microseconds. Returns the packet or refusal that it completes.
    pub fn push(&mut self, us: u16) -> Option<Seen> {
        let mut outcome = Outcome::NONE;
        match unsafe { dcc_push(self, us, &mut outcome) } {
            0 => None,
            _ => Some(seen(outcome)),
        }
    }

    /// Takes `n` half-bits of `us` microseconds, as `n` calls of [`push`](Framer::push) would. At most one of them
    /// completes a packet or refusal, which is returned with its number in the run, from 1.
    pub fn push_run(&mut self, us: u16, n: u32) -> Option<(u32, Seen)> {
        let mut outcome = Outcome::NONE;
        match unsafe { dcc_push_run(self, us, n, &mut outcome) } {
            0 => None,
            _ => Some((outcome.at, seen(outcome))),
        }
    }

    /// Takes half-bits of `halves` in order, as calls of [`push`](Framer::push) would, up to the first half-bit that
    /// completes a packet or refusal. Returns the number of half-bits that it took, and this packet or refusal.
    pub fn push_many(&mut self, halves: &[u16]) -> (usize, Option<Seen>) {
        let (mut outcome, mut taken) = (Outcome::NONE, 0);
        let result =
            unsafe { dcc_push_many(self, halves.as_ptr(), halves.len() as u64, &mut outcome, &mut taken) };
        (taken as usize, if result == 0 { None } else { Some(seen(outcome)) })
    }
}

impl Default for Framer {
    fn default() -> Framer {
        Framer::new()
    }
}

impl fmt::Debug for Framer {
    fn fmt(&self, f: &mut fmt::Formatter<'_>) -> fmt::Result {
        f.write_str("Framer")
    }
}

fn seen(outcome: Outcome) -> Seen {
    let (len, bytes) = outcome.frame.written_bytes();
    Seen::Refused(match outcome.refusal {
        0 => return Seen::Packet(outcome.frame),
        1 => Refusal::BadHalf,
        2 => Refusal::SplitBit,
        3 => Refusal::TooShort,
        4 => Refusal::TooLong,
        _ => Refusal::ErrorByte { len, bytes },
    })
}

/// The text that `dcc show` writes after the word `refused`: `H5 036260`.
impl fmt::Display for Refusal {
    fn fmt(&self, f: &mut fmt::Formatter<'_>) -> fmt::Result {
        match self {
            Refusal::BadHalf => f.write_str("H1"),
            Refusal::SplitBit => f.write_str("H2"),
            Refusal::TooShort => f.write_str("H3"),
            Refusal::TooLong => f.write_str("H4"),
            Refusal::ErrorByte { len, bytes } => {
                f.write_str("H5 ")?;
                // (the fields are public: a len above 6 stands for all six bytes)
                bytes
                    .iter()
                    .take(usize::from(*len))
                    .try_for_each(|byte| write!(f, "{byte:02x}"))
            }
        }
    }
}
