//! The bytes of a packet.
use crate::calls::{dcc_frame_of_line, dcc_line, dcc_read, Numbers};
use crate::packet::Packet;
use crate::sending::{Halves, Timing};
use core::fmt;
use core::str::FromStr;

/// The bytes of a packet, 3 to 6 of them, the error byte last (NMRA S-9.2).
///
/// Its text is the packet line, for example `loco s3 speed28 f 4`. `parse` makes a frame from such a line.
#[repr(C)]
#[derive(Clone, Copy, PartialEq, Eq, Hash)]
pub struct Frame {
    len: u8,
    bytes: [u8; 6],
}

/// The error of bytes that are not a frame.
#[derive(Clone, Copy, Debug, PartialEq, Eq)]
pub enum FrameFault {
    /// L1: there are not 3 to 6 of them.
    Length,
    /// L2: the last one is not the exclusive or of those before it.
    ErrorByte,
}

/// The first error of a packet line, or of the values of a packet, 1 to 14 for P1 to P14.
#[derive(Clone, Copy, Debug, PartialEq, Eq)]
pub struct LineFault(pub u8);

impl Frame {
    /// An empty frame, for the library to write.
    pub(crate) const NONE: Frame = Frame {
        len: 0,
        bytes: [0; 6],
    };

    /// The reset of all decoders.
    pub(crate) const RESET: Frame = Frame {
        len: 3,
        bytes: [0; 6],
    };

    /// Returns the frame of these bytes. Errors: L1 or L2.
    ///
    /// ```
    /// use dcc::{Frame, FrameFault};
    ///
    /// const IDLE: Result<Frame, FrameFault> = Frame::new(&[0xff, 0x00, 0xff]);
    /// ```
    pub const fn new(bytes: &[u8]) -> Result<Frame, FrameFault> {
        if bytes.len() < 3 || bytes.len() > 6 {
            return Err(FrameFault::Length);
        }
        let (mut all, mut sum, mut at) = ([0; 6], 0, 0);
        while at < bytes.len() {
            all[at] = bytes[at];
            sum ^= bytes[at];
            at += 1;
        }
        if sum != 0 {
            return Err(FrameFault::ErrorByte);
        }
        Ok(Frame {
            len: bytes.len() as u8,
            bytes: all,
        })
    }

    /// Returns the frame that the library wrote, if it wrote one.
    pub(crate) fn written(self) -> Option<Frame> {
        (self.len > 0).then_some(self)
    }

    /// Returns the number of bytes that the library wrote, and the bytes with zeros after them.
    pub(crate) fn written_bytes(&self) -> (u8, [u8; 6]) {
        (self.len, self.bytes)
    }

    /// Returns its bytes, the error byte last.
    pub fn bytes(&self) -> &[u8] {
        // (the library writes no len above 6, and so needs no panic)
        self.bytes.get(..usize::from(self.len)).unwrap_or(&self.bytes)
    }

    pub(crate) fn len(&self) -> u64 {
        self.len.into()
    }

    pub(crate) fn as_ptr(&self) -> *const u8 {
        self.bytes.as_ptr()
    }

    /// Returns the packet.
    pub fn packet(&self) -> Packet {
        let mut numbers = Numbers::default();
        unsafe { dcc_read(self.as_ptr(), self.len(), &mut numbers) };
        Packet::of(&numbers, self)
    }

    /// Returns its half-bits in microseconds, in this timing.
    pub fn halves(&self, timing: &Timing) -> Halves {
        Halves::of(self, timing)
    }
}

impl FromStr for Frame {
    type Err = LineFault;

    fn from_str(line: &str) -> Result<Frame, LineFault> {
        let mut frame = Frame::NONE;
        match unsafe { dcc_frame_of_line(line.as_ptr(), line.len() as u64, &mut frame) } {
            0 => Ok(frame),
            fault => Err(LineFault(fault)),
        }
    }
}

impl fmt::Display for Frame {
    fn fmt(&self, f: &mut fmt::Formatter<'_>) -> fmt::Result {
        let mut line = [0; 41];
        unsafe { dcc_line(self.as_ptr(), self.len(), line.as_mut_ptr()) };
        let len = line
            .iter()
            .position(|byte| *byte == 0)
            .unwrap_or(line.len());
        f.pad(core::str::from_utf8(&line[..len]).map_err(|_| fmt::Error)?)
    }
}

/// The bytes in hex.
impl fmt::LowerHex for Frame {
    fn fmt(&self, f: &mut fmt::Formatter<'_>) -> fmt::Result {
        self.bytes()
            .iter()
            .try_for_each(|byte| write!(f, "{byte:02x}"))
    }
}

impl fmt::Debug for Frame {
    fn fmt(&self, f: &mut fmt::Formatter<'_>) -> fmt::Result {
        write!(f, "Frame({self:x})")
    }
}

impl fmt::Display for FrameFault {
    fn fmt(&self, f: &mut fmt::Formatter<'_>) -> fmt::Result {
        f.write_str(match self {
            FrameFault::Length => "L1",
            FrameFault::ErrorByte => "L2",
        })
    }
}

impl fmt::Display for LineFault {
    fn fmt(&self, f: &mut fmt::Formatter<'_>) -> fmt::Result {
        write!(f, "P{}", self.0)
    }
}
