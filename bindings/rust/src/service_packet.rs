//! The packets of the programming track.
use crate::calls::{dcc_service_frame, dcc_service_read};
use crate::frame::{Frame, LineFault};

/// The content of a packet on the programming track, in direct mode (NMRA S-9.2.3).
#[derive(Clone, Copy, Debug, PartialEq, Eq, Hash)]
pub enum ServicePacket {
    /// A write of a CV.
    Write {
        /// The number of the CV, 1 to 1024.
        cv: u16,
        /// The value.
        value: u8,
    },
    /// A verify of a CV.
    Verify {
        /// The number of the CV, 1 to 1024.
        cv: u16,
        /// The asked value.
        value: u8,
    },
    /// A write of a bit of a CV.
    BitWrite {
        /// The number of the CV, 1 to 1024.
        cv: u16,
        /// The place of the bit, from the lowest, 0 to 7.
        place: u8,
        /// The bit.
        one: bool,
    },
    /// A verify of a bit of a CV.
    BitVerify {
        /// The number of the CV, 1 to 1024.
        cv: u16,
        /// The place of the bit, from the lowest, 0 to 7.
        place: u8,
        /// The asked bit.
        one: bool,
    },
}

/// `dcc_service_packet`.
#[repr(C)]
#[derive(Default)]
pub(crate) struct ServiceNumbers {
    cv: u16,
    kind: u8,
    value: u8,
    place: u8,
    one: bool,
}

impl ServicePacket {
    /// Returns the frame of the packet. Errors: P6 if the CV is not 1 to 1024, then P7 if the place is above 7.
    ///
    /// ```
    /// use dcc::ServicePacket;
    ///
    /// let packet = ServicePacket::BitWrite { cv: 29, place: 1, one: true };
    /// let frame = packet.frame().unwrap();
    /// assert_eq!(format!("{frame:x}"), "781cf99d");
    /// assert_eq!(ServicePacket::read(&frame), Some(packet));
    /// ```
    pub fn frame(&self) -> Result<Frame, LineFault> {
        let mut frame = Frame::NONE;
        match unsafe { dcc_service_frame(&self.numbers(), &mut frame) } {
            0 => Ok(frame),
            fault => Err(LineFault(fault)),
        }
    }

    /// Returns the packet that a frame is on the programming track, or `None` if no service packet has this frame.
    pub fn read(frame: &Frame) -> Option<ServicePacket> {
        let mut it = ServiceNumbers::default();
        match unsafe { dcc_service_read(frame.as_ptr(), frame.len(), &mut it) } {
            0 => Some(ServicePacket::of(&it)),
            _ => None,
        }
    }

    /// The packet with the fields that the library wrote.
    fn of(it: &ServiceNumbers) -> ServicePacket {
        let (cv, value, place, one) = (it.cv, it.value, it.place, it.one);
        match it.kind {
            6 => ServicePacket::Write { cv, value },
            7 => ServicePacket::Verify { cv, value },
            8 => ServicePacket::BitWrite { cv, place, one },
            _ => ServicePacket::BitVerify { cv, place, one },
        }
    }

    /// The fields of the packet, as the library takes them.
    fn numbers(&self) -> ServiceNumbers {
        let (kind, cv, value, place, one) = match *self {
            ServicePacket::Write { cv, value } => (6, cv, value, 0, false),
            ServicePacket::Verify { cv, value } => (7, cv, value, 0, false),
            ServicePacket::BitWrite { cv, place, one } => (8, cv, 0, place, one),
            ServicePacket::BitVerify { cv, place, one } => (9, cv, 0, place, one),
        };
        ServiceNumbers {
            cv,
            kind,
            value,
            place,
            one,
        }
    }
}

/// Returns the eight frames in which a station asks a question: three resets, and five copies of the question. Each
/// frame is sent in the [timing](crate::Timing::PROGRAMMING) of the programming track. The answer is yes if the decoder
/// acknowledges any of the eight frames.
pub fn question_frames(question: &Frame) -> [Frame; 8] {
    let (reset, it) = (Frame::RESET, *question);
    [reset, reset, reset, it, it, it, it, it]
}
