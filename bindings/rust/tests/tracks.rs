//! Decoders on the main track and on the programming track, against rows that are written out.
mod common;

use common::{cvs, frame, rows, Fleet};
use dcc::{Address, Answer, Cvs, Frame, Speed, TrackBoard, TrackLoco};

const NO: Answer = Answer {
    acknowledged: false,
    changed: None,
};

fn acknowledged(changed: Option<u16>) -> Answer {
    Answer {
        acknowledged: true,
        changed,
    }
}

fn reset() -> Frame {
    Frame::new(&[0, 0, 0]).unwrap()
}

/// The service packet that writes a value to a CV.
fn service_write(cv: u16, value: u8) -> Frame {
    let [upper, lower] = (cv - 1).to_be_bytes();
    let first = 0x7C | upper;
    Frame::new(&[first, lower, value, first ^ lower ^ value]).unwrap()
}

/// The registers of a `Loco` or of a `TrackLoco`.
macro_rules! loco_registers {
    ($it:expr) => {{
        let functions: Vec<u8> = (0..=255).filter(|n| $it.function(*n)).collect();
        let states: Vec<u8> = (0..=255).filter(|n| $it.state(*n)).collect();
        let speed = ($it.speed(), $it.is_forward());
        (
            $it.address(),
            speed,
            functions,
            states,
            $it.pending(),
            *$it.cvs(),
        )
    }};
}

/// The registers of a `Board` or of a `TrackBoard`.
macro_rules! board_registers {
    ($it:expr) => {{
        let outputs: Vec<u8> = (0..=255).filter(|n| $it.output(*n)).collect();
        ($it.number(), outputs, $it.positions(), $it.aspects())
    }};
}

#[test]
fn a_loco_is_programmed_and_has_its_new_address() {
    let mut loco = TrackLoco::new(&cvs(&[(1, 3), (29, 2)]));
    let (write, to_3) = (service_write(1, 10), frame("loco s3 speed28 f 4"));
    let to_10 = frame("loco s10 speed28 r 5");
    let step_1 = Speed::Step { step: 1, of: 28 };
    let step_2 = Speed::Step { step: 2, of: 28 };
    assert_eq!(
        (loco.address(), loco.speed()),
        (Some(Address::Short(3)), Speed::Stop)
    );
    assert!(!loco.is_in_service());
    // (a decoder that is not in service mode hears no service packet)
    assert_eq!([write, write, to_3].map(|it| loco.hear(&it)), [NO; 3]);
    assert_eq!(
        (loco.speed(), *loco.cvs()),
        (step_1, cvs(&[(1, 3), (29, 2)]))
    );
    assert_eq!([reset(); 3].map(|it| loco.hear(&it)), [NO; 3]);
    assert!(loco.is_in_service() && loco.speed() == Speed::Stop);
    let wanted = [
        NO,
        acknowledged(Some(1)),
        acknowledged(None),
        acknowledged(None),
    ];
    assert_eq!([write; 4].map(|it| loco.hear(&it)), wanted);
    assert_eq!(
        (loco.address(), loco.cvs()[0]),
        (Some(Address::Short(3)), 10)
    );
    let mut other = loco.clone();
    assert!(other == loco && loco.is_in_service());
    loco.end_service();
    assert!(other != loco && !loco.is_in_service());
    assert_eq!(loco.address(), Some(Address::Short(10)));
    assert_eq!([to_3, to_10].map(|it| loco.hear(&it)), [NO; 2]);
    assert_eq!((loco.speed(), loco.is_forward()), (step_2, false));
    assert_eq!(loco.hear(&to_3), NO);
    assert_eq!((loco.speed(), loco.is_forward()), (step_2, false));
    // (a frame of the main track ends service mode)
    assert_eq!([to_3, to_10].map(|it| other.hear(&it)), [NO; 2]);
    assert!(!other.is_in_service() && other == loco);
    let last = service_write(1024, 255);
    let wanted = [NO, NO, acknowledged(Some(1024))];
    assert_eq!([reset(), last, last].map(|it| loco.hear(&it)), wanted);
    assert_eq!(loco.cvs()[1023], 255);
}

#[test]
fn a_board_is_programmed_and_has_its_new_number() {
    let mut board = TrackBoard::new(&cvs(&[(1, 12), (9, 1)]));
    let (to_76, to_12) = (frame("accessory 76 5 on"), frame("accessory 12 0 on"));
    assert_eq!(board_registers!(board), (76, vec![], [false; 4], [0; 4]));
    assert!(!board.is_in_service());
    let signal = frame("signal 305 9");
    assert_eq!([to_12, to_76, signal].map(|it| board.hear(&it)), [NO; 3]);
    let positions = [false, false, true, false];
    assert_eq!(
        board_registers!(board),
        (76, vec![5], positions, [0, 9, 0, 0])
    );
    let write = service_write(9, 0);
    let wanted = [NO, NO, acknowledged(Some(9))];
    assert_eq!([reset(), write, write].map(|it| board.hear(&it)), wanted);
    assert!(board.is_in_service() && board.number() == 76);
    assert_eq!(*board.cvs(), cvs(&[(1, 12)]));
    // (a frame of the main track ends service mode)
    assert_eq!([to_76, to_12].map(|it| board.hear(&it)), [NO; 2]);
    assert!(!board.is_in_service());
    assert_eq!(
        board_registers!(board),
        (12, vec![0], positions, [0, 9, 0, 0])
    );
    let write = service_write(1, 13);
    let wanted = [NO, NO, acknowledged(Some(1))];
    assert_eq!([reset(), write, write].map(|it| board.hear(&it)), wanted);
    board.end_service();
    assert!(!board.is_in_service() && board.number() == 13);
    let mut all = TrackBoard::new(&cvs(&[(1, 63), (9, 7)]));
    let frames = ["accessory 510 0 on", "accessory 511 7 on"].map(frame);
    assert_eq!(frames.map(|it| all.hear(&it)), [NO; 2]);
    assert_eq!(
        (all.number(), all.output(0), all.output(7)),
        (511, false, true)
    );
}

/// On the programming track, this speed packet for address 124 writes CV64.
fn speed_or_write() -> [Frame; 3] {
    let frame = Frame::new(&[0x7C, 0x3F, 0x85, 0xC6]).unwrap();
    assert_eq!(frame.to_string(), "loco s124 speed128 f 5");
    [reset(), frame, frame]
}

#[test]
fn a_loco_stays_on_the_main_track() {
    let (mut loco, frames) = (TrackLoco::new(&cvs(&[(1, 124), (29, 2)])), speed_or_write());
    loco.hear(&reset());
    assert!(loco.is_in_service());
    loco.set_main_only(true);
    assert!(!loco.is_in_service());
    assert_eq!(frames.map(|it| loco.hear(&it)), [NO; 3]);
    assert_eq!(
        (loco.speed(), loco.cvs()[63]),
        (Speed::Step { step: 4, of: 126 }, 0)
    );
    assert!(!loco.is_in_service());
    loco.set_main_only(false);
    assert_eq!(
        frames.map(|it| loco.hear(&it)),
        [NO, NO, acknowledged(Some(64))]
    );
    assert!(loco.is_in_service() && loco.cvs()[63] == 0x85);
}

#[test]
fn a_board_stays_on_the_main_track() {
    let (mut board, frames) = (TrackBoard::new(&cvs(&[])), speed_or_write());
    board.hear(&reset());
    assert!(board.is_in_service());
    board.set_main_only(true);
    assert!(!board.is_in_service());
    assert_eq!(frames.map(|it| board.hear(&it)), [NO; 3]);
    assert!(!board.is_in_service() && board.cvs()[63] == 0);
    board.set_main_only(false);
    assert_eq!(
        frames.map(|it| board.hear(&it)),
        [NO, NO, acknowledged(Some(64))]
    );
    assert!(board.is_in_service() && board.cvs()[63] == 0x85);
}

/// The answer on the main track to a frame that changes these CVs.
fn main_answer(before: &Cvs, after: &Cvs) -> Answer {
    let changed: Vec<u16> = (1..=1024)
        .filter(|cv| before[usize::from(cv - 1)] != after[usize::from(cv - 1)])
        .collect();
    assert!(changed.len() < 2);
    Answer {
        acknowledged: false,
        changed: changed.first().copied(),
    }
}

#[test]
fn decoders_on_both_tracks_have_registers() {
    for main_only in [false, true] {
        let mut fleet = Fleet::new();
        let of_loco = |it: &dcc::Loco| TrackLoco::new(it.cvs());
        let of_board = |it: &dcc::Board| {
            let (lower, upper) = ((it.number() % 64) as u8, (it.number() / 64) as u8);
            TrackBoard::new(&cvs(&[(1, lower), (9, upper)]))
        };
        let mut locos: Vec<TrackLoco> = fleet.locos.iter().map(of_loco).collect();
        let mut boards: Vec<TrackBoard> = fleet.boards.iter().map(of_board).collect();
        locos.iter_mut().for_each(|it| it.set_main_only(main_only));
        boards.iter_mut().for_each(|it| it.set_main_only(main_only));
        let (mut pending, mut changed) = (false, false);
        for line in rows() {
            let frame = frame(&line);
            fleet.apply(&frame);
            for (it, loco) in locos.iter_mut().zip(&fleet.locos) {
                let before = *it.cvs();
                let answer = it.hear(&frame);
                assert_eq!(loco_registers!(it), loco_registers!(loco), "{line}");
                assert_eq!(answer, main_answer(&before, it.cvs()), "{line}");
                pending |= it.pending().is_some();
                changed |= answer.changed.is_some();
            }
            for (it, board) in boards.iter_mut().zip(&fleet.boards) {
                assert_eq!(it.hear(&frame), NO, "{line}");
                assert_eq!(board_registers!(it), board_registers!(board), "{line}");
            }
        }
        assert!(pending && changed);
    }
}
