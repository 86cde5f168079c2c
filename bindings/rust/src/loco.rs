//! A locomotive decoder.
use crate::calls::{dcc_loco_apply, dcc_loco_hears, dcc_loco_new};
use crate::frame::Frame;
use crate::packet::Address;
use crate::Cvs;
use core::mem::MaybeUninit;

/// A locomotive decoder: its registers and its CVs.
#[repr(C)]
#[derive(Clone, Debug, PartialEq, Eq)]
pub struct Loco {
    address_kind: u8,
    speed_mode: u8,
    step: u8,
    forward: bool,
    address: u16,
    pending: Frame,
    functions: [u64; 2],
    states: [u64; 2],
    cvs: Cvs,
}

/// The speed of a locomotive.
#[derive(Clone, Copy, Debug, PartialEq, Eq)]
pub enum Speed {
    /// Stopped.
    Stop,
    /// Emergency stop.
    Emergency,
    /// A speed step.
    Step {
        /// The step, from 1.
        step: u8,
        /// The number of steps: 14, 28 or 126.
        of: u8,
    },
}

impl Loco {
    /// A decoder without an address, whose CVs are 0, for the library to write.
    pub(crate) const ZEROED: Loco = Loco {
        address_kind: 0,
        speed_mode: 0,
        step: 0,
        forward: false,
        address: 0,
        pending: Frame::NONE,
        functions: [0; 2],
        states: [0; 2],
        cvs: [0; 1024],
    };

    /// Creates a decoder that is powered up with these CVs. Its address comes from CV1, CV17, CV18 and CV29.
    pub fn new(cvs: &Cvs) -> Loco {
        let mut loco = MaybeUninit::<Loco>::zeroed();
        unsafe {
            dcc_loco_new(loco.as_mut_ptr(), cvs.as_ptr());
            loco.assume_init()
        }
    }

    /// Applies a packet. A packet for other decoders changes nothing.
    pub fn apply(&mut self, frame: &Frame) {
        let answer = unsafe { dcc_loco_apply(self, frame.as_ptr(), frame.len()) };
        debug_assert_eq!(answer, 0);
    }

    /// Returns true if a packet is for all decoders or for the address of this decoder.
    pub fn hears(&self, frame: &Frame) -> bool {
        let mut heard = false;
        let answer = unsafe { dcc_loco_hears(self, frame.as_ptr(), frame.len(), &mut heard) };
        debug_assert_eq!(answer, 0);
        heard
    }

    /// Returns its active address, or `None`.
    pub fn address(&self) -> Option<Address> {
        Address::of(self.address_kind, self.address)
    }

    /// Returns its speed.
    pub fn speed(&self) -> Speed {
        match self.speed_mode {
            0 => Speed::Stop,
            1 => Speed::Emergency,
            of => Speed::Step {
                step: self.step,
                of,
            },
        }
    }

    /// Returns true if its direction is forward.
    pub fn is_forward(&self) -> bool {
        self.forward
    }

    /// Returns true if function `n` of 0 to 68 is on.
    pub fn function(&self, n: u8) -> bool {
        is_one(&self.functions, n)
    }

    /// Returns true if binary state `n` of 1 to 127 is on.
    pub fn state(&self, n: u8) -> bool {
        is_one(&self.states, n)
    }

    /// Returns the CV write that takes effect if the decoder hears the same packet again.
    pub fn pending(&self) -> Option<Frame> {
        self.pending.written()
    }

    /// Returns its CVs, CV1 first.
    pub fn cvs(&self) -> &Cvs {
        &self.cvs
    }
}

fn is_one(words: &[u64; 2], n: u8) -> bool {
    n < 128 && words[usize::from(n / 64)] >> (n % 64) & 1 == 1
}
