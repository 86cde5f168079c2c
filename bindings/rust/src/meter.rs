//! The statistics of a track.
use crate::calls::{dcc_meter_push_many, dcc_meter_push_run, dcc_meter_read, Measured};
use core::fmt;

/// Computes the statistics of half-bits (NMRA S-9.1, S-9.2). The program writes these statistics with
/// `dcc timing`.
#[repr(C)]
#[derive(Clone)]
pub struct Meter([u64; 138]);

/// The error of a [`Meter`] that would have taken 2^32 or more half-bits.
#[derive(Clone, Copy, Debug, PartialEq, Eq)]
pub struct MeterIsFull;

impl fmt::Display for MeterIsFull {
    fn fmt(&self, f: &mut fmt::Formatter<'_>) -> fmt::Result {
        f.write_str("a meter takes fewer than 2^32 half-bits")
    }
}

/// The count, the sum, the least and the greatest of some durations in microseconds. If there are
/// none, all fields are 0.
#[repr(C)]
#[derive(Clone, Copy, Debug, Default, PartialEq, Eq)]
pub struct Tally {
    /// The number of durations.
    pub count: u64,
    /// The sum of the durations. The mean is `sum / count`.
    pub sum: u64,
    /// The least duration.
    pub least: u64,
    /// The greatest duration.
    pub most: u64,
}

/// The statistics of half-bits. All durations are in microseconds.
#[derive(Clone, Copy, Debug, PartialEq, Eq)]
pub struct Statistics {
    /// The number of half-bits.
    pub halves: u32,
    /// The duration of all half-bits together.
    pub time: u64,
    /// The number of packets.
    pub packets: u32,
    /// The number of refusals, H1 to H5.
    pub refused: [u32; 5],
    /// The number of lost packets, at most 4294967295.
    pub lost: u32,
    /// The shortest preamble of a packet that was found or lost, in half-bits and at most 65535. It is
    /// `None` if there is no such packet.
    pub preamble: Option<u16>,
    /// The longest time from the end of a packet to the end of the next packet. It is `None` if there
    /// are fewer than two packets.
    pub gap: Option<u64>,
    /// The half-bits of at most 51 microseconds.
    pub below: Tally,
    /// The half-bits of 52 to 64 microseconds.
    pub ones: Tally,
    /// The half-bits of 65 to 89 microseconds.
    pub between: Tally,
    /// The half-bits of 90 to 10000 microseconds.
    pub zeros: Tally,
    /// The half-bits of at least 10001 microseconds.
    pub above: Tally,
    /// Of each bit 1 of a packet, the difference between its two half-bits.
    pub differences: Tally,
    /// Of each bit 0 of a packet, its duration.
    pub sums: Tally,
}

impl Meter {
    /// Creates a meter that was given no half-bits. (By the header, a meter of zeros is new.)
    pub const fn new() -> Meter {
        Meter([0; 138])
    }

    /// Takes a half-bit of `us` microseconds.
    ///
    /// Errors: [`MeterIsFull`], and nothing changes, if the meter would have taken 2^32 or more half-bits.
    pub fn push(&mut self, us: u16) -> Result<(), MeterIsFull> {
        self.push_run(us, 1)
    }

    /// Takes `n` half-bits of `us` microseconds.
    ///
    /// Errors: those of [`push`](Meter::push).
    pub fn push_run(&mut self, us: u16, n: u32) -> Result<(), MeterIsFull> {
        match unsafe { dcc_meter_push_run(self, us, n) } {
            0 => Err(MeterIsFull),
            _ => Ok(()),
        }
    }

    /// Takes half-bits of these microseconds, in order.
    ///
    /// Errors: those of [`push`](Meter::push). The meter then takes none of the half-bits.
    pub fn push_many(&mut self, halves: &[u16]) -> Result<(), MeterIsFull> {
        match unsafe { dcc_meter_push_many(self, halves.as_ptr(), halves.len() as u64) } {
            0 => Err(MeterIsFull),
            _ => Ok(()),
        }
    }

    /// Returns the statistics of all half-bits that the meter has taken.
    pub fn statistics(&self) -> Statistics {
        let mut found = Measured::NONE;
        unsafe { dcc_meter_read(self, &mut found) };
        Statistics {
            halves: found.halves,
            time: found.time,
            packets: found.packets,
            refused: found.refused,
            lost: found.lost,
            preamble: found.has_preamble.then_some(found.preamble),
            gap: found.has_gap.then_some(found.gap),
            below: found.below,
            ones: found.ones,
            between: found.between,
            zeros: found.zeros,
            above: found.above,
            differences: found.differences,
            sums: found.sums,
        }
    }
}

impl Default for Meter {
    fn default() -> Meter {
        Meter::new()
    }
}

impl fmt::Debug for Meter {
    fn fmt(&self, f: &mut fmt::Formatter<'_>) -> fmt::Result {
        f.write_str("Meter")
    }
}
