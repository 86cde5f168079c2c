//! Digital Command Control (DCC), the signal on the rails of a digital model railway. This crate finds packets and lost
//! packets in half-bits, computes the statistics of a track, reads and sends packets, simulates decoders, reads CVs on
//! a programming track, and runs a command station.
//!
//! ```
//! use dcc::{Frame, Framer, Seen, Timing};
//!
//! let frame: Frame = "loco s3 speed28 f 4".parse()?;
//! assert_eq!(frame.bytes(), [0x03, 0x62, 0x61]);
//!
//! let mut framer = Framer::new();
//! let seen: Vec<Seen> = frame.halves(&Timing::MAIN).filter_map(|us| framer.push(us)).collect();
//! assert_eq!(seen, [Seen::Packet(frame)]);
//! # Ok::<(), dcc::LineFault>(())
//! ```
//!
//! **Proved** is the library below, `libdcc_c.a`: each of its functions is safe and does what its contract says, for
//! every input (`docs/C.md`). **Not proved** is this crate, which calls the library; it is tested against the
//! program. A C caller must pass whole objects and valid pointers without overlap. The types of this crate ensure
//! this: the library makes each object, its fields are private, and a call borrows a whole object. So no function is
//! called with impossible fields.
//!
//! The crate does not allocate and does not need `std`.
#![no_std]
#![deny(missing_docs)]

mod board;
mod calls;
mod frame;
mod framer;
mod functions;
mod loco;
mod lost;
mod meter;
mod packet;
mod plain;
mod reader;
mod sending;
mod service;
mod service_packet;
mod station;
mod track;
mod track_board;
mod track_loco;
mod turnouts;
mod writer;

pub use board::Board;
pub use frame::{Frame, FrameFault, LineFault};
pub use framer::{Framer, Refusal, Seen};
pub use functions::Functions;
pub use loco::{Loco, Speed};
pub use lost::{LostFinder, LostPacket, OffLimits, ShortPreamble};
pub use meter::{Meter, MeterIsFull, Statistics, Tally};
pub use packet::{Address, Packet};
pub use plain::Plain;
pub use reader::{Reader, Reading};
pub use sending::{Halves, Timing, TimingFault};
pub use service::Service;
pub use service_packet::{question_frames, ServicePacket};
pub use station::{CommandFault, Station};
pub use track::Answer;
pub use track_board::TrackBoard;
pub use track_loco::TrackLoco;
pub use turnouts::Turnouts;
pub use writer::{Writer, Writing};

/// The values of the CVs of a decoder, CV1 first.
pub type Cvs = [u8; 1024];
