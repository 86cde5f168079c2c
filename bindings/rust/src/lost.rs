//! Packets that a decoder does not hear.
use crate::calls::{dcc_lost_push, dcc_lost_push_many, dcc_lost_push_run, Lost};
use crate::frame::Frame;
use core::fmt;

/// Finds the packets that a decoder does not hear, with their causes (NMRA S-9.1, S-9.2). The
/// program lists these packets with `dcc lost`.
#[repr(C)]
#[derive(Clone)]
pub struct LostFinder([u64; 101]);

/// A packet that a decoder does not hear, with its causes. Each lost packet has a cause.
#[derive(Clone, Copy, Debug, PartialEq, Eq)]
pub struct LostPacket {
    /// The bytes of the packet.
    pub frame: Frame,
    /// The preamble of the packet if it is too short.
    pub preamble: Option<ShortPreamble>,
    /// The half-bits of ones outside 52 to 64 microseconds, if there are any.
    pub ones: Option<OffLimits>,
    /// The half-bits of zeros outside 90 to 10000 microseconds, if there are any.
    pub zeros: Option<OffLimits>,
}

/// A preamble that is too short for a decoder.
#[derive(Clone, Copy, Debug, PartialEq, Eq)]
pub struct ShortPreamble {
    /// The number of half-bits of ones directly before the body that no outcome uses, fewer than 20.
    pub ones: u8,
    /// The number of half-bits from the end of the last refusal to the end of the packet, at most 255. The number is
    /// `None` unless this refusal uses the half-bit directly before the `ones` half-bits.
    pub since_refusal: Option<u8>,
}

/// Half-bits outside the limits of a decoder.
#[repr(C)]
#[derive(Clone, Copy, Debug, PartialEq, Eq)]
pub struct OffLimits {
    /// The number of half-bits.
    pub count: u32,
    /// The shortest of them, in microseconds.
    pub least: u16,
    /// The longest of them, in microseconds.
    pub most: u16,
}

impl LostFinder {
    /// Creates a finder that was given no half-bits. (By the header, a finder of zeros is new.)
    pub const fn new() -> LostFinder {
        LostFinder([0; 101])
    }

    /// Takes a half-bit of `us` microseconds. Returns the packet that is lost at this half-bit.
    pub fn push(&mut self, us: u16) -> Option<LostPacket> {
        let mut lost = Lost::NONE;
        match unsafe { dcc_lost_push(self, us, &mut lost) } {
            0 => None,
            _ => Some(packet(&lost)),
        }
    }

    /// Takes half-bits of `us` microseconds, as calls of [`push`](LostFinder::push) would, up to the first half-bit at
    /// which a packet is lost, and at most `n`. Returns this packet with the number of half-bits that the finder took.
    /// If no packet is lost, the finder takes all `n` half-bits.
    pub fn push_run(&mut self, us: u16, n: u32) -> Option<(u32, LostPacket)> {
        let mut lost = Lost::NONE;
        match unsafe { dcc_lost_push_run(self, us, n, &mut lost) } {
            0 => None,
            taken => Some((taken, packet(&lost))),
        }
    }

    /// Takes half-bits of `halves` in order, as calls of [`push`](LostFinder::push) would, up to the first half-bit at
    /// which a packet is lost. Returns the number of half-bits that it took, and this packet.
    pub fn push_many(&mut self, halves: &[u16]) -> (usize, Option<LostPacket>) {
        let (mut lost, mut taken) = (Lost::NONE, 0);
        let len = halves.len() as u64;
        let result = unsafe { dcc_lost_push_many(self, halves.as_ptr(), len, &mut lost, &mut taken) };
        (taken as usize, if result == 0 { None } else { Some(packet(&lost)) })
    }
}

impl Default for LostFinder {
    fn default() -> LostFinder {
        LostFinder::new()
    }
}

impl fmt::Debug for LostFinder {
    fn fmt(&self, f: &mut fmt::Formatter<'_>) -> fmt::Result {
        f.write_str("LostFinder")
    }
}

fn packet(lost: &Lost) -> LostPacket {
    let preamble = &lost.preamble;
    LostPacket {
        frame: lost.frame,
        preamble: preamble.is_short.then(|| ShortPreamble {
            ones: preamble.ones,
            since_refusal: preamble.after_refusal.then_some(preamble.since_refusal),
        }),
        ones: off_limits(lost.ones),
        zeros: off_limits(lost.zeros),
    }
}

fn off_limits(off: OffLimits) -> Option<OffLimits> {
    (off.count > 0).then_some(off)
}
