//! The functions of a locomotive that a station remembers.
use crate::calls::{dcc_functions_is_on, dcc_functions_turn};
use crate::frame::{Frame, LineFault};
use crate::packet::Address;

/// The functions F0 to F68 of a locomotive (RCN-212). A packet sets all functions of a group, so a station that turns
/// one function needs the states of the other functions of the group.
///
/// ```
/// use dcc::{Address, Functions};
///
/// let mut functions = Functions::new();
/// let loco = Address::Short(3);
/// assert_eq!(functions.turn(loco, 5, true).unwrap().to_string(), "loco s3 functions 5 1");
/// assert_eq!(functions.turn(loco, 7, true).unwrap().to_string(), "loco s3 functions 5 5");
/// assert!(functions.is_on(5) && !functions.is_on(6));
/// ```
#[repr(C)]
#[derive(Clone, Debug, Default, PartialEq, Eq, Hash)]
pub struct Functions {
    on: [u64; 2],
}

impl Functions {
    /// Creates the functions of a locomotive, all off.
    pub const fn new() -> Functions {
        Functions { on: [0; 2] }
    }

    /// Turns a function on or off. Returns the frame to this address that sets the group of the function, with the
    /// states of all functions of the group. A decoder that has these functions has them still after it hears the
    /// frame. With 14 speed steps, a decoder takes F0 from [`Packet::Speed28`](crate::Packet::Speed28), and ignores the
    /// F0 of the group.
    ///
    /// Errors: P1 or P2 if there is no such address, then P13 if the function is above 68. The functions then do not
    /// change.
    pub fn turn(&mut self, to: Address, function: u8, on: bool) -> Result<Frame, LineFault> {
        let (kind, number) = to.numbers();
        let mut frame = Frame::NONE;
        match unsafe { dcc_functions_turn(self, kind, number, function, on, &mut frame) } {
            0 => Ok(frame),
            fault => Err(LineFault(fault)),
        }
    }

    /// Returns true if the function is on. No function above 68 is on.
    pub fn is_on(&self, function: u8) -> bool {
        unsafe { dcc_functions_is_on(self, function) == 1 }
    }
}
