//! The functions of the library as in `include/dcc.h`, and the objects that no other file has.
use crate::board::Board;
use crate::frame::Frame;
use crate::framer::Framer;
use crate::functions::Functions;
use crate::loco::Loco;
use crate::lost::{LostFinder, OffLimits};
use crate::meter::{Meter, Tally};
use crate::reader::Reader;
use crate::sending::{Halves, Timing};
use crate::service::Service;
use crate::service_packet::ServiceNumbers;
use crate::station::Station;
use crate::track::ServicePart;
use crate::track_board::TrackBoard;
use crate::track_loco::TrackLoco;
use crate::writer::Writer;
use core::mem::size_of;

/// `dcc_outcome`.
#[repr(C)]
pub(crate) struct Outcome {
    pub at: u32,
    pub refusal: u8,
    pub frame: Frame,
}

impl Outcome {
    /// An empty outcome, for the library to write.
    pub(crate) const NONE: Outcome = Outcome {
        at: 0,
        refusal: 0,
        frame: Frame::NONE,
    };
}

/// `dcc_short_preamble`.
#[repr(C)]
pub(crate) struct Preamble {
    pub is_short: bool,
    pub ones: u8,
    pub after_refusal: bool,
    pub since_refusal: u8,
}

/// `dcc_lost_packet`.
#[repr(C)]
pub(crate) struct Lost {
    pub frame: Frame,
    pub preamble: Preamble,
    pub ones: OffLimits,
    pub zeros: OffLimits,
}

impl Lost {
    /// An empty lost packet, for the library to write.
    pub(crate) const NONE: Lost = Lost {
        frame: Frame::NONE,
        preamble: Preamble {
            is_short: false,
            ones: 0,
            after_refusal: false,
            since_refusal: 0,
        },
        ones: Lost::NO_HALVES,
        zeros: Lost::NO_HALVES,
    };

    const NO_HALVES: OffLimits = OffLimits {
        count: 0,
        least: 0,
        most: 0,
    };
}

/// `dcc_statistics`.
#[repr(C)]
pub(crate) struct Measured {
    pub time: u64,
    pub gap: u64,
    pub below: Tally,
    pub ones: Tally,
    pub between: Tally,
    pub zeros: Tally,
    pub above: Tally,
    pub differences: Tally,
    pub sums: Tally,
    pub packets: u32,
    pub refused: [u32; 5],
    pub halves: u32,
    pub lost: u32,
    pub preamble: u16,
    pub has_preamble: bool,
    pub has_gap: bool,
}

impl Measured {
    /// Empty statistics, for the library to write.
    pub(crate) const NONE: Measured = Measured {
        time: 0,
        gap: 0,
        below: Measured::NO_HALVES,
        ones: Measured::NO_HALVES,
        between: Measured::NO_HALVES,
        zeros: Measured::NO_HALVES,
        above: Measured::NO_HALVES,
        differences: Measured::NO_HALVES,
        sums: Measured::NO_HALVES,
        packets: 0,
        refused: [0; 5],
        halves: 0,
        lost: 0,
        preamble: 0,
        has_preamble: false,
        has_gap: false,
    };

    const NO_HALVES: Tally = Tally {
        count: 0,
        sum: 0,
        least: 0,
        most: 0,
    };
}

/// `dcc_packet`.
#[repr(C)]
#[derive(Default)]
pub(crate) struct Numbers {
    pub kind: u8,
    pub to: u8,
    pub address: u16,
    pub forward: bool,
    pub bits: u8,
    pub group: u8,
    pub state: u8,
    pub on: bool,
    pub cv: u16,
    pub value: u8,
    pub place: u8,
    pub one: bool,
    pub output: u8,
    pub aspect: u8,
}

/// `dcc_answer`.
#[repr(C)]
#[derive(Default)]
pub(crate) struct Heard {
    pub changed: u16,
    pub acknowledged: bool,
}

extern "C" {
    pub(crate) fn dcc_push(framer: *mut Framer, us: u16, outcome: *mut Outcome) -> u8;
    pub(crate) fn dcc_push_run(framer: *mut Framer, us: u16, n: u32, outcome: *mut Outcome) -> u8;
    pub(crate) fn dcc_push_many(
        framer: *mut Framer,
        halves: *const u16,
        len: u64,
        outcome: *mut Outcome,
        taken: *mut u64,
    ) -> u8;
    pub(crate) fn dcc_lost_push(finder: *mut LostFinder, us: u16, packet: *mut Lost) -> u8;
    pub(crate) fn dcc_lost_push_run(
        finder: *mut LostFinder,
        us: u16,
        n: u32,
        packet: *mut Lost,
    ) -> u32;
    pub(crate) fn dcc_lost_push_many(
        finder: *mut LostFinder,
        halves: *const u16,
        len: u64,
        packet: *mut Lost,
        taken: *mut u64,
    ) -> u8;
    pub(crate) fn dcc_meter_push_run(meter: *mut Meter, us: u16, n: u32) -> u8;
    pub(crate) fn dcc_meter_push_many(meter: *mut Meter, halves: *const u16, len: u64) -> u8;
    pub(crate) fn dcc_meter_read(meter: *const Meter, statistics: *mut Measured);
    pub(crate) fn dcc_read(frame: *const u8, len: u64, packet: *mut Numbers) -> u8;
    pub(crate) fn dcc_line(frame: *const u8, len: u64, line: *mut u8) -> u8;
    pub(crate) fn dcc_plain(frame: *const u8, len: u64, text: *mut u8) -> u8;
    pub(crate) fn dcc_frame_of_line(line: *const u8, len: u64, frame: *mut Frame) -> u8;
    pub(crate) fn dcc_frame_of_packet(packet: *const Numbers, frame: *mut Frame) -> u8;
    pub(crate) fn dcc_sender_start(
        sender: *mut Halves,
        frame: *const u8,
        len: u64,
        timing: *const Timing,
    ) -> u8;
    pub(crate) fn dcc_sender_half(sender: *mut Halves) -> u16;
    pub(crate) fn dcc_loco_new(loco: *mut Loco, cvs: *const u8);
    pub(crate) fn dcc_loco_apply(loco: *mut Loco, frame: *const u8, len: u64) -> u8;
    pub(crate) fn dcc_loco_hears(
        loco: *const Loco,
        frame: *const u8,
        len: u64,
        heard: *mut bool,
    ) -> u8;
    pub(crate) fn dcc_board_new(board: *mut Board, number: u16) -> u8;
    pub(crate) fn dcc_board_apply(board: *mut Board, frame: *const u8, len: u64) -> u8;
    pub(crate) fn dcc_board_hears(
        board: *const Board,
        frame: *const u8,
        len: u64,
        heard: *mut bool,
    ) -> u8;
    pub(crate) fn dcc_service_new(service: *mut Service, cvs: *const u8);
    pub(crate) fn dcc_service_apply(
        service: *mut Service,
        frame: *const u8,
        len: u64,
        acknowledged: *mut bool,
    ) -> u8;
    pub(crate) fn dcc_decoder_new(decoder: *mut TrackLoco, cvs: *const u8);
    pub(crate) fn dcc_decoder_hear(
        decoder: *mut TrackLoco,
        frame: *const u8,
        len: u64,
        answer: *mut Heard,
    ) -> u8;
    pub(crate) fn dcc_decoder_end_service(decoder: *mut TrackLoco);
    pub(crate) fn dcc_decoder_set_main_only(decoder: *mut TrackLoco, main_only: bool);
    pub(crate) fn dcc_board_decoder_new(decoder: *mut TrackBoard, cvs: *const u8);
    pub(crate) fn dcc_board_decoder_hear(
        decoder: *mut TrackBoard,
        frame: *const u8,
        len: u64,
        answer: *mut Heard,
    ) -> u8;
    pub(crate) fn dcc_board_decoder_end_service(decoder: *mut TrackBoard);
    pub(crate) fn dcc_board_decoder_set_main_only(decoder: *mut TrackBoard, main_only: bool);
    pub(crate) fn dcc_reader_new(reader: *mut Reader, cv: u16) -> u8;
    pub(crate) fn dcc_reader_question(reader: *const Reader, question: *mut Frame) -> u8;
    pub(crate) fn dcc_reader_answer(reader: *mut Reader, yes: bool, value: *mut u8) -> u8;
    pub(crate) fn dcc_writer_new(writer: *mut Writer, cv: u16, value: u8) -> u8;
    pub(crate) fn dcc_writer_question(writer: *const Writer, question: *mut Frame) -> u8;
    pub(crate) fn dcc_writer_answer(writer: *mut Writer, yes: bool) -> u8;
    pub(crate) fn dcc_service_frame(packet: *const ServiceNumbers, frame: *mut Frame) -> u8;
    pub(crate) fn dcc_service_read(frame: *const u8, len: u64, packet: *mut ServiceNumbers) -> u8;
    pub(crate) fn dcc_station_new(station: *mut Station, queue: u8, slots: u8, repeats: u8) -> u8;
    pub(crate) fn dcc_station_command(station: *mut Station, frame: *const u8, len: u64) -> u8;
    pub(crate) fn dcc_station_next(station: *mut Station, frame: *mut Frame);
    pub(crate) fn dcc_station_stop(station: *mut Station) -> u8;
    pub(crate) fn dcc_station_forget(station: *mut Station, to: u8, address: u16) -> u8;
    pub(crate) fn dcc_station_waiting(station: *const Station) -> u8;
    pub(crate) fn dcc_station_entries(station: *const Station) -> u8;
    pub(crate) fn dcc_functions_turn(
        functions: *mut Functions,
        to: u8,
        address: u16,
        function: u8,
        on: bool,
        frame: *mut Frame,
    ) -> u8;
    pub(crate) fn dcc_functions_is_on(functions: *const Functions, function: u8) -> u8;
}

// (as the header says)
const _: () = assert!(size_of::<Frame>() == 7);
const _: () = assert!(size_of::<Framer>() == 24);
const _: () = assert!(size_of::<Outcome>() == 12);
const _: () = assert!(size_of::<LostFinder>() == 808);
const _: () = assert!(size_of::<Lost>() == 28);
const _: () = assert!(size_of::<Meter>() == 1104);
const _: () = assert!(size_of::<Measured>() == 280);
const _: () = assert!(size_of::<Numbers>() == 18);
const _: () = assert!(size_of::<Timing>() == 8);
const _: () = assert!(size_of::<Halves>() == 16);
const _: () = assert!(size_of::<Loco>() == 1072);
const _: () = assert!(size_of::<Board>() == 12);
const _: () = assert!(size_of::<Service>() == 1032);
const _: () = assert!(size_of::<ServicePart>() == 8);
const _: () = assert!(size_of::<Heard>() == 4);
const _: () = assert!(size_of::<TrackLoco>() == 1088);
const _: () = assert!(size_of::<TrackBoard>() == 1046);
const _: () = assert!(size_of::<Reader>() == 4);
const _: () = assert!(size_of::<Writer>() == 4);
const _: () = assert!(size_of::<Station>() == 1801);
const _: () = assert!(size_of::<ServiceNumbers>() == 6);
const _: () = assert!(size_of::<Functions>() == 16);
