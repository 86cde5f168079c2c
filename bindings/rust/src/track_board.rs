//! An accessory decoder on both tracks.
use crate::board::Board;
use crate::calls::{
    dcc_board_decoder_end_service, dcc_board_decoder_hear, dcc_board_decoder_new,
    dcc_board_decoder_set_main_only, Heard,
};
use crate::frame::Frame;
use crate::track::{Answer, ServicePart};
use crate::Cvs;

/// An accessory decoder on the main track and on the programming track (NMRA S-9.2.3). The lower six bits of its
/// number are in CV1, and the upper three bits in CV9.
///
/// A decoder with the number 511 hears only the packets for all accessory decoders. No packet of the main track changes
/// a CV. If the decoder powers up after service mode, its outputs are off, and its positions and aspects do not change.
///
/// ```
/// let mut cvs = [0; 1024];
/// (cvs[0], cvs[8]) = (12, 1);
/// assert_eq!(dcc::TrackBoard::new(&cvs).number(), 76);
/// ```
#[repr(C)]
#[derive(Clone, Debug, PartialEq, Eq)]
pub struct TrackBoard {
    board: Board,
    cvs: Cvs,
    service: ServicePart,
    changed: bool,
    main_only: bool,
}

impl TrackBoard {
    /// Creates a decoder with the number 0 and all outputs off, whose CVs are 0. Call
    /// [`power_up`](TrackBoard::power_up) before it hears frames.
    ///
    /// ```
    /// static mut DECODER: dcc::TrackBoard = dcc::TrackBoard::zeroed();
    /// ```
    pub const fn zeroed() -> TrackBoard {
        TrackBoard {
            board: Board::ZEROED,
            cvs: [0; 1024],
            service: ServicePart::ZEROED,
            changed: false,
            main_only: false,
        }
    }

    /// Creates a decoder that is powered up with these CVs, is not in service mode and can hear both tracks. All
    /// outputs are off.
    pub fn new(cvs: &Cvs) -> TrackBoard {
        let mut decoder = TrackBoard::zeroed();
        decoder.power_up(cvs);
        decoder
    }

    /// Makes the decoder one that [`new`](TrackBoard::new) creates, without a copy of its 1 KB.
    pub fn power_up(&mut self, cvs: &Cvs) {
        unsafe { dcc_board_decoder_new(self, cvs.as_ptr()) }
    }

    /// Hears a frame of either track, as [`TrackLoco::hear`](crate::TrackLoco::hear) does. Returns the answer of the
    /// decoder.
    pub fn hear(&mut self, frame: &Frame) -> Answer {
        let mut heard = Heard::default();
        let answer =
            unsafe { dcc_board_decoder_hear(self, frame.as_ptr(), frame.len(), &mut heard) };
        debug_assert_eq!(answer, 0);
        Answer::of(&heard)
    }

    /// Ends service mode, as [`TrackLoco::end_service`](crate::TrackLoco::end_service) does.
    pub fn end_service(&mut self) {
        unsafe { dcc_board_decoder_end_service(self) }
    }

    /// Keeps the decoder on the main track if `main_only` is true, as
    /// [`TrackLoco::set_main_only`](crate::TrackLoco::set_main_only) does.
    pub fn set_main_only(&mut self, main_only: bool) {
        unsafe { dcc_board_decoder_set_main_only(self, main_only) }
    }

    /// Returns true if it is in service mode.
    pub fn is_in_service(&self) -> bool {
        self.service.in_service
    }

    /// Returns its number, 0 to 511.
    pub fn number(&self) -> u16 {
        self.board.number()
    }

    /// Returns true if output `n` of 0 to 7 is on.
    pub fn output(&self, n: u8) -> bool {
        self.board.output(n)
    }

    /// Returns the sides of its pairs of outputs: true is side 1.
    pub fn positions(&self) -> [bool; 4] {
        self.board.positions()
    }

    /// Returns the aspects of its signals.
    pub fn aspects(&self) -> [u8; 4] {
        self.board.aspects()
    }

    /// Returns its CVs, CV1 first.
    pub fn cvs(&self) -> &Cvs {
        &self.cvs
    }
}
