//! A locomotive decoder on both tracks.
use crate::calls::{
    dcc_decoder_end_service, dcc_decoder_hear, dcc_decoder_new, dcc_decoder_set_main_only, Heard,
};
use crate::frame::Frame;
use crate::loco::{Loco, Speed};
use crate::packet::Address;
use crate::track::{Answer, ServicePart};
use crate::Cvs;

/// A locomotive decoder on the main track and on the programming track (NMRA S-9.2.3).
///
/// ```
/// use dcc::{Address, Frame, TrackLoco};
///
/// let mut cvs = [0; 1024];
/// (cvs[0], cvs[28]) = (3, 2);
/// let mut decoder = TrackLoco::new(&cvs);
/// let reset = Frame::new(&[0, 0, 0]).unwrap();
/// let write = Frame::new(&[0x7C, 0, 10, 0x76]).unwrap(); // the service packet that writes 10 to CV1
/// let acknowledged = [reset, write, write].map(|it| decoder.hear(&it).acknowledged);
/// assert_eq!(acknowledged, [false, false, true]);
/// decoder.end_service();
/// assert_eq!(decoder.address(), Some(Address::Short(10)));
/// ```
#[repr(C)]
#[derive(Clone, Debug, PartialEq, Eq)]
pub struct TrackLoco {
    loco: Loco,
    service: ServicePart,
    changed: bool,
    main_only: bool,
}

impl TrackLoco {
    /// Creates a decoder that has no address, and whose CVs are 0. Call [`power_up`](TrackLoco::power_up)
    /// before it hears frames.
    ///
    /// ```
    /// static mut DECODER: dcc::TrackLoco = dcc::TrackLoco::zeroed();
    /// ```
    pub const fn zeroed() -> TrackLoco {
        TrackLoco {
            loco: Loco::ZEROED,
            service: ServicePart::ZEROED,
            changed: false,
            main_only: false,
        }
    }

    /// Creates a decoder that is powered up with these CVs, is not in service mode and can hear both tracks.
    pub fn new(cvs: &Cvs) -> TrackLoco {
        let mut decoder = TrackLoco::zeroed();
        decoder.power_up(cvs);
        decoder
    }

    /// Makes the decoder one that [`new`](TrackLoco::new) creates, without a copy of its 1 KB.
    pub fn power_up(&mut self, cvs: &Cvs) {
        unsafe { dcc_decoder_new(self, cvs.as_ptr()) }
    }

    /// Hears a frame of either track. Returns the answer of the decoder.
    ///
    /// The reset 00 00 00 stops the decoder and enters service mode. In service mode, service packets reach only the
    /// CVs. Each other frame first ends service mode as [`end_service`](TrackLoco::end_service) does. The decoder then
    /// hears the frame as on the main track.
    pub fn hear(&mut self, frame: &Frame) -> Answer {
        let mut heard = Heard::default();
        let answer = unsafe { dcc_decoder_hear(self, frame.as_ptr(), frame.len(), &mut heard) };
        debug_assert_eq!(answer, 0);
        Answer::of(&heard)
    }

    /// Ends service mode. A program calls this function if no packet of service mode comes for 20 milliseconds. If a
    /// service packet changed a CV since service mode began, the decoder powers up with its CVs, and so has its new
    /// address.
    pub fn end_service(&mut self) {
        unsafe { dcc_decoder_end_service(self) }
    }

    /// Keeps the decoder on the main track if `main_only` is true: then no frame enters service mode, and the decoder
    /// acknowledges no frame. If the decoder is in service mode, service mode ends first, as
    /// [`end_service`](TrackLoco::end_service) ends it. If `main_only` is false, the decoder can hear both tracks.
    ///
    /// On the main track, frames for the short addresses 116 to 127 look like service packets. After a reset, two
    /// copies of the speed packet 7c 3f 85 c6 for address 124 write CV64 of each decoder that can enter service mode.
    pub fn set_main_only(&mut self, main_only: bool) {
        unsafe { dcc_decoder_set_main_only(self, main_only) }
    }

    /// Returns true if it is in service mode.
    pub fn is_in_service(&self) -> bool {
        self.service.in_service
    }

    /// Returns its active address, or `None`.
    pub fn address(&self) -> Option<Address> {
        self.loco.address()
    }

    /// Returns its speed.
    pub fn speed(&self) -> Speed {
        self.loco.speed()
    }

    /// Returns true if its direction is forward.
    pub fn is_forward(&self) -> bool {
        self.loco.is_forward()
    }

    /// Returns true if function `n` of 0 to 68 is on.
    pub fn function(&self, n: u8) -> bool {
        self.loco.function(n)
    }

    /// Returns true if binary state `n` of 1 to 127 is on.
    pub fn state(&self, n: u8) -> bool {
        self.loco.state(n)
    }

    /// Returns the CV write of the main track that takes effect if the decoder hears the same packet again.
    pub fn pending(&self) -> Option<Frame> {
        self.loco.pending()
    }

    /// Returns its CVs, CV1 first.
    pub fn cvs(&self) -> &Cvs {
        self.loco.cvs()
    }
}
