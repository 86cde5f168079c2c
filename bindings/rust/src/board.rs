//! An accessory decoder.
use crate::calls::{dcc_board_apply, dcc_board_hears, dcc_board_new};
use crate::frame::Frame;

/// An accessory decoder: a board of eight outputs and four signals.
#[repr(C)]
#[derive(Clone, Debug, PartialEq, Eq)]
pub struct Board {
    number: u16,
    outs: u8,
    positions: [bool; 4],
    aspects: [u8; 4],
}

impl Board {
    /// A decoder with the number 0, all outputs off, for the library to write.
    pub(crate) const ZEROED: Board = Board {
        number: 0,
        outs: 0,
        positions: [false; 4],
        aspects: [0; 4],
    };

    /// Creates a decoder with all outputs off, for a board of 0 to 510. Errors: P3 above 510.
    pub fn new(number: u16) -> Option<Board> {
        let mut board = Board::ZEROED;
        match unsafe { dcc_board_new(&mut board, number) } {
            0 => Some(board),
            _ => None,
        }
    }

    /// Applies a packet. A packet for other decoders changes nothing.
    pub fn apply(&mut self, frame: &Frame) {
        let answer = unsafe { dcc_board_apply(self, frame.as_ptr(), frame.len()) };
        debug_assert_eq!(answer, 0);
    }

    /// Returns true if a packet is for this decoder: its outputs and signals, those of all boards, or the reset of all
    /// decoders.
    pub fn hears(&self, frame: &Frame) -> bool {
        let mut heard = false;
        let answer = unsafe { dcc_board_hears(self, frame.as_ptr(), frame.len(), &mut heard) };
        debug_assert_eq!(answer, 0);
        heard
    }

    /// Returns its number.
    pub fn number(&self) -> u16 {
        self.number
    }

    /// Returns true if output `n` of 0 to 7 is on.
    pub fn output(&self, n: u8) -> bool {
        n < 8 && self.outs >> n & 1 == 1
    }

    /// Returns the sides of its pairs of outputs: true is side 1.
    pub fn positions(&self) -> [bool; 4] {
        self.positions
    }

    /// Returns the aspects of its signals.
    pub fn aspects(&self) -> [u8; 4] {
        self.aspects
    }
}
