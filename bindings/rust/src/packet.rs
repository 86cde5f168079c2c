//! The content of a packet.
use crate::calls::{dcc_frame_of_packet, Numbers};
use crate::frame::{Frame, LineFault};

/// The address of a packet to locomotives.
#[derive(Clone, Copy, Debug, PartialEq, Eq, Hash)]
pub enum Address {
    /// All decoders.
    All,
    /// A short address, 1 to 127.
    Short(u8),
    /// A long address, 10239 at most.
    Long(u16),
}

/// The content of a packet (NMRA S-9.2.1).
#[derive(Clone, Copy, Debug, PartialEq, Eq, Hash)]
pub enum Packet {
    /// Idle.
    Idle,
    /// The decoder's reset.
    Reset {
        /// The address.
        to: Address,
    },
    /// A speed in 28 steps.
    Speed28 {
        /// The address.
        to: Address,
        /// The direction.
        forward: bool,
        /// The speed bits as they are sent, 0 to 31.
        bits: u8,
    },
    /// A speed in 126 steps.
    Speed128 {
        /// The address.
        to: Address,
        /// The direction.
        forward: bool,
        /// The speed bits as they are sent, 0 to 127.
        bits: u8,
    },
    /// Functions of a group.
    Functions {
        /// The address.
        to: Address,
        /// The group's first function: 0 (F1 to F4 and F0), 5, 9, 13, 21, 29, 37, 45, 53 or 61.
        group: u8,
        /// Its functions, the lowest function in the lowest bit.
        bits: u8,
    },
    /// A binary state.
    State {
        /// The address.
        to: Address,
        /// The number, 0 for all of them.
        number: u8,
        /// True for on.
        on: bool,
    },
    /// A write of a CV.
    CvWrite {
        /// The address.
        to: Address,
        /// The number of the CV, 1 to 1024.
        cv: u16,
        /// The value.
        value: u8,
    },
    /// A verify of a CV.
    CvVerify {
        /// The address.
        to: Address,
        /// The number of the CV, 1 to 1024.
        cv: u16,
        /// The asked value.
        value: u8,
    },
    /// A write of a bit of a CV.
    CvBitWrite {
        /// The address.
        to: Address,
        /// The number of the CV, 1 to 1024.
        cv: u16,
        /// The place of the bit, from the lowest, 0 to 7.
        place: u8,
        /// The bit.
        one: bool,
    },
    /// A verify of a bit of a CV.
    CvBitVerify {
        /// The address.
        to: Address,
        /// The number of the CV, 1 to 1024.
        cv: u16,
        /// The place of the bit, from the lowest, 0 to 7.
        place: u8,
        /// The asked bit.
        one: bool,
    },
    /// An output of an accessory decoder.
    Accessory {
        /// The board, 0 to 511; 511 is all of them.
        board: u16,
        /// The output, 0 to 7.
        output: u8,
        /// True for on.
        on: bool,
    },
    /// A signal's aspect.
    Signal {
        /// The signal, 0 to 2047; 2047 is all of them.
        address: u16,
        /// The aspect.
        aspect: u8,
    },
    /// Any other packet.
    Other(Frame),
}

impl Address {
    /// The address with this kind and number, or `None`.
    pub(crate) fn of(kind: u8, number: u16) -> Option<Address> {
        match kind {
            0 => None,
            1 => Some(Address::Short(number as u8)),
            _ => Some(Address::Long(number)),
        }
    }

    /// Its kind and its number, as the library takes them.
    pub(crate) fn numbers(self) -> (u8, u16) {
        match self {
            Address::All => (0, 0),
            Address::Short(number) => (1, number.into()),
            Address::Long(number) => (2, number),
        }
    }

    /// The fields of a packet of this kind to this address.
    fn fields(self, kind: u8) -> Numbers {
        let (to, address) = self.numbers();
        Numbers {
            kind,
            to,
            address,
            ..Numbers::default()
        }
    }
}

impl Packet {
    /// The packet that the library reads from a frame.
    pub(crate) fn of(it: &Numbers, frame: &Frame) -> Packet {
        let to = Address::of(it.to, it.address).unwrap_or(Address::All);
        match it.kind {
            0 => Packet::Idle,
            1 => Packet::Reset { to },
            2 => Packet::Speed28 {
                to,
                forward: it.forward,
                bits: it.bits,
            },
            3 => Packet::Speed128 {
                to,
                forward: it.forward,
                bits: it.bits,
            },
            4 => Packet::Functions {
                to,
                group: it.group,
                bits: it.bits,
            },
            5 => Packet::State {
                to,
                number: it.state,
                on: it.on,
            },
            6 => Packet::CvWrite {
                to,
                cv: it.cv,
                value: it.value,
            },
            7 => Packet::CvVerify {
                to,
                cv: it.cv,
                value: it.value,
            },
            8 => Packet::CvBitWrite {
                to,
                cv: it.cv,
                place: it.place,
                one: it.one,
            },
            9 => Packet::CvBitVerify {
                to,
                cv: it.cv,
                place: it.place,
                one: it.one,
            },
            10 => Packet::Accessory {
                board: it.address,
                output: it.output,
                on: it.on,
            },
            11 => Packet::Signal {
                address: it.address,
                aspect: it.aspect,
            },
            _ => Packet::Other(*frame),
        }
    }

    /// Returns the frame of the packet. [`Frame::packet`] returns this packet for the frame.
    ///
    /// Errors: the first error of the packet line with these values. P1 to P9 or P14 if a value is out of its range,
    /// P10 for a group that does not exist, P12 if the frame of an `Other` packet is that of another packet.
    ///
    /// ```
    /// use dcc::{Address, LineFault, Packet};
    ///
    /// let packet = Packet::Speed28 { to: Address::Short(3), forward: true, bits: 4 };
    /// assert_eq!(packet.frame().unwrap().to_string(), "loco s3 speed28 f 4");
    /// assert_eq!(Packet::Reset { to: Address::Short(128) }.frame(), Err(LineFault(1)));
    /// ```
    pub fn frame(&self) -> Result<Frame, LineFault> {
        let mut frame = match self {
            Packet::Other(frame) => *frame,
            _ => Frame::NONE,
        };
        match unsafe { dcc_frame_of_packet(&self.numbers(), &mut frame) } {
            0 => Ok(frame),
            fault => Err(LineFault(fault)),
        }
    }

    /// The fields of the packet, as the library takes them.
    fn numbers(&self) -> Numbers {
        let none = Numbers::default();
        match *self {
            Packet::Idle => none,
            Packet::Reset { to } => to.fields(1),
            Packet::Speed28 { to, forward, bits } => Numbers {
                forward,
                bits,
                ..to.fields(2)
            },
            Packet::Speed128 { to, forward, bits } => Numbers {
                forward,
                bits,
                ..to.fields(3)
            },
            Packet::Functions { to, group, bits } => Numbers {
                group,
                bits,
                ..to.fields(4)
            },
            Packet::State { to, number, on } => Numbers {
                state: number,
                on,
                ..to.fields(5)
            },
            Packet::CvWrite { to, cv, value } => Numbers {
                cv,
                value,
                ..to.fields(6)
            },
            Packet::CvVerify { to, cv, value } => Numbers {
                cv,
                value,
                ..to.fields(7)
            },
            Packet::CvBitWrite { to, cv, place, one } => Numbers {
                cv,
                place,
                one,
                ..to.fields(8)
            },
            Packet::CvBitVerify { to, cv, place, one } => Numbers {
                cv,
                place,
                one,
                ..to.fields(9)
            },
            Packet::Accessory { board, output, on } => Numbers {
                kind: 10,
                address: board,
                output,
                on,
                ..none
            },
            Packet::Signal { address, aspect } => Numbers {
                kind: 11,
                address,
                aspect,
                ..none
            },
            Packet::Other(_) => Numbers { kind: 12, ..none },
        }
    }
}
