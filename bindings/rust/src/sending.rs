//! The half-bits of a frame, and their timing.
use crate::calls::{dcc_sender_half, dcc_sender_start};
use crate::frame::Frame;
use core::fmt;

/// The timing of a station: the lengths of half-bits in microseconds, and the number of ones before a packet (NMRA
/// S-9.1, S-9.2).
#[repr(C)]
#[derive(Clone, Copy, Debug, PartialEq, Eq)]
pub struct Timing {
    one: u16,
    zero_first: u16,
    zero_second: u16,
    preamble: u8,
}

/// The first error of numbers that are not a timing.
#[derive(Clone, Copy, Debug, PartialEq, Eq)]
pub enum TimingFault {
    /// H6: a half of a one is not 55 to 61.
    One,
    /// H7: a half of a zero is not 95 to 9900, or both together are above 12000.
    Zero,
    /// H8: there are not 14 to 40 ones before a packet.
    Preamble,
}

/// The half-bits of a frame, in microseconds.
#[repr(C)]
#[derive(Clone)]
pub struct Halves([u64; 2]);

/// An idle packet.
const IDLE: [u8; 3] = [0xff, 0x00, 0xff];

impl Timing {
    /// The main track: 58 and 58 microseconds for a one, 100 and 100 for a zero, 14 ones before a packet.
    pub const MAIN: Timing = Timing {
        one: 58,
        zero_first: 100,
        zero_second: 100,
        preamble: 14,
    };

    /// The programming track: 58 and 58, 100 and 100, and 20 ones (NMRA S-9.2.3).
    pub const PROGRAMMING: Timing = Timing {
        one: 58,
        zero_first: 100,
        zero_second: 100,
        preamble: 20,
    };

    /// Creates a timing. Errors: the first of H6, H7 and H8.
    pub fn new(
        one: u16,
        zero_first: u16,
        zero_second: u16,
        preamble: u8,
    ) -> Result<Timing, TimingFault> {
        let timing = Timing {
            one,
            zero_first,
            zero_second,
            preamble,
        };
        match unsafe { dcc_sender_start(&mut Halves::none(), IDLE.as_ptr(), 3, &timing) } {
            0 => Ok(timing),
            6 => Err(TimingFault::One),
            7 => Err(TimingFault::Zero),
            _ => Err(TimingFault::Preamble),
        }
    }
}

impl Halves {
    /// Creates half-bits of no frame: none is left.
    fn none() -> Halves {
        Halves([0; 2])
    }

    /// Creates the half-bits of a frame in a timing.
    pub(crate) fn of(frame: &Frame, timing: &Timing) -> Halves {
        let mut halves = Halves::none();
        unsafe { dcc_sender_start(&mut halves, frame.as_ptr(), frame.len(), timing) };
        halves
    }
}

impl Iterator for Halves {
    type Item = u16;

    fn next(&mut self) -> Option<u16> {
        match unsafe { dcc_sender_half(self) } {
            0 => None,
            us => Some(us),
        }
    }
}

impl fmt::Debug for Halves {
    fn fmt(&self, f: &mut fmt::Formatter<'_>) -> fmt::Result {
        f.write_str("Halves")
    }
}
