//! A decoder on the programming track.
use crate::calls::{dcc_service_apply, dcc_service_new};
use crate::frame::Frame;
use crate::Cvs;
use core::mem::MaybeUninit;

/// A decoder on the programming track, in direct mode (NMRA S-9.2.3).
#[repr(C)]
#[derive(Clone, Debug, PartialEq, Eq)]
pub struct Service {
    in_service: bool,
    pending: Frame,
    cvs: Cvs,
}

impl Service {
    /// Creates a decoder with these CVs, out of service.
    pub fn new(cvs: &Cvs) -> Service {
        let mut service = MaybeUninit::<Service>::zeroed();
        unsafe {
            dcc_service_new(service.as_mut_ptr(), cvs.as_ptr());
            service.assume_init()
        }
    }

    /// Takes a frame. Returns true if the decoder acknowledges it.
    pub fn apply(&mut self, frame: &Frame) -> bool {
        let mut acknowledged = false;
        let answer =
            unsafe { dcc_service_apply(self, frame.as_ptr(), frame.len(), &mut acknowledged) };
        debug_assert_eq!(answer, 0);
        acknowledged
    }

    /// Returns true if it is in service mode.
    pub fn is_in_service(&self) -> bool {
        self.in_service
    }

    /// Returns the service packet that takes effect if the same packet comes again.
    pub fn pending(&self) -> Option<Frame> {
        self.pending.written()
    }

    /// Returns its CVs, CV1 first.
    pub fn cvs(&self) -> &Cvs {
        &self.cvs
    }
}
