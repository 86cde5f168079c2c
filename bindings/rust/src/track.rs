//! What decoders on both tracks share.
use crate::calls::Heard;
use crate::frame::Frame;

/// The answer of a decoder to a frame.
#[derive(Clone, Copy, Debug, PartialEq, Eq)]
pub struct Answer {
    /// True if the decoder acknowledges the frame.
    pub acknowledged: bool,
    /// The number of the CV whose value changed, on either track.
    pub changed: Option<u16>,
}

impl Answer {
    /// Returns the answer that the library wrote.
    pub(crate) fn of(heard: &Heard) -> Answer {
        Answer {
            acknowledged: heard.acknowledged,
            changed: (heard.changed > 0).then_some(heard.changed),
        }
    }
}

/// `dcc_small_service`.
#[repr(C)]
#[derive(Clone, Debug, PartialEq, Eq)]
pub(crate) struct ServicePart {
    pub in_service: bool,
    pub pending: Frame,
}

impl ServicePart {
    /// A decoder that is not in service mode.
    pub(crate) const ZEROED: ServicePart = ServicePart {
        in_service: false,
        pending: Frame::NONE,
    };
}
