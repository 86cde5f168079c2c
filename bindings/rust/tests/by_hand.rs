//! Held against the program packet by packet, and against rows that are written out.
mod common;

use common::{cvs, dcc, frame, hex, output, program, rows, Fleet};
use dcc::{
    question_frames, Address, Board, CommandFault, Frame, FrameFault, Framer, Functions, LineFault,
    Loco, Meter, MeterIsFull, Packet, Reader, Reading, Refusal, Seen, Service, ServicePacket,
    LostFinder, Plain, Speed, Station, Tally, Timing, TimingFault, TrackBoard, TrackLoco, Turnouts, Writer,
    Writing,
};
use std::fmt::Write as _;
use std::io::Write as _;
use std::process::{Command, Stdio};

#[test]
fn each_register_is_as_run_writes_it() {
    let (mut fleet, mut reached) = (Fleet::new(), String::new());
    for line in rows() {
        let frame = frame(&line);
        let after = fleet.run(&line);
        assert_eq!(fleet.hears(&frame), fleet.is_for(&line), "{line}");
        fleet.apply(&frame);
        assert_eq!(fleet.texts(), after, "{line}");
        reached += &after.concat();
    }
    for it in [
        "speed emergency r",
        "speed 14 8 f",
        "speed 28 28 r",
        "speed 126 126 f",
        "pending 03ec0609e0",
        "out 0 2 5 6 7",
        "aspect 6 6 6 6",
        "board 510",
    ] {
        assert!(reached.contains(&format!("\n{it}\n")), "{it}");
    }
}

#[test]
fn plain_words_are_those_of_the_table() {
    let table = include_str!("../../../examples/plain.txt");
    let lines: Vec<_> = table.lines().filter(|it| !it.starts_with('#')).collect();
    for line in &lines {
        let (packet, words) = line.split_once(" | ").unwrap();
        let bytes: Vec<_> = (0..packet.len())
            .step_by(2)
            .map(|at| u8::from_str_radix(&packet[at..at + 2], 16).unwrap())
            .collect();
        let plain = Plain::of(&bytes).unwrap();
        assert_eq!((plain.as_str(), plain.to_string()), (words, words.to_string()));
    }
    assert!(lines.len() > 60);
    assert_eq!(Plain::of(&[3, 3]), Err(FrameFault::Length));
    assert_eq!(Plain::of(&[0; 16]), Err(FrameFault::Length));
    assert_eq!(Plain::of(&[3, 0x62, 0x60]), Err(FrameFault::ErrorByte));
}

/// Each of these packets changes a decoder that hears it, one that is new or one that was set by the lines before.
#[test]
fn a_decoder_hears_what_changes_it() {
    let mut lines: Vec<String> = [
        "loco s3 reset",
        "loco l1000 reset",
        "loco l3 reset",
        "loco s4 reset",
        "loco all reset",
        "loco s3 speed28 f 4",
        "loco l1000 speed128 f 4",
        "loco s100 functions 0 1",
        "loco all functions 0 1",
        "loco l1000 state 9 on",
        "loco s3 cv write 5 5",
        "loco l1000 cv write 5 5",
        "idle",
    ]
    .map(str::to_owned)
    .to_vec();
    let boards = [0, 1, 11, 12, 13, 509, 510, 511];
    let signals = [0, 3, 4, 47, 48, 51, 52, 2039, 2040, 2043, 2044, 2047];
    lines.extend(boards.map(|it| format!("accessory {it} 5 on")));
    lines.extend(signals.map(|it| format!("signal {it} 1")));
    let (new, mut old, rows) = (Fleet::new(), Fleet::new(), rows());
    rows[..rows.len() - 27]
        .iter()
        .for_each(|it| old.apply(&frame(it)));
    for line in lines {
        let (new_after, old_after) = (new.run(&line), old.run(&line));
        let is_new = new.texts().into_iter().zip(new_after).map(|(a, b)| a != b);
        let is_old = old.texts().into_iter().zip(old_after).map(|(a, b)| a != b);
        let changed: Vec<bool> = is_new.zip(is_old).map(|(a, b)| a || b).collect();
        assert_eq!(new.hears(&frame(&line)), changed, "{line}");
    }
}

#[test]
fn numbers_of_a_decoder() {
    let mut loco = Loco::new(&cvs(&[(17, 0xC3), (18, 0xE8), (29, 0x22)]));
    assert_eq!(loco.address(), Some(Address::Long(1000)));
    assert_eq!(
        (loco.speed(), loco.is_forward(), loco.pending()),
        (Speed::Stop, true, None)
    );
    for line in [
        "loco l1000 speed128 r 1",
        "loco l1000 functions 61 129",
        "loco l1000 state 127 on",
        "loco l1000 cv write 3 7",
    ] {
        loco.apply(&frame(line));
    }
    assert_eq!((loco.speed(), loco.is_forward()), (Speed::Emergency, false));
    assert_eq!(loco.pending(), Some(frame("loco l1000 cv write 3 7")));
    let on: Vec<u8> = (0..=255).filter(|n| loco.function(*n)).collect();
    let states: Vec<u8> = (0..=255).filter(|n| loco.state(*n)).collect();
    assert_eq!((on, states), (vec![61, 68], vec![127]));
    assert_eq!(
        (loco.cvs()[16], loco.cvs()[17], loco.cvs()[1023]),
        (0xC3, 0xE8, 0)
    );
    assert_eq!(Loco::new(&cvs(&[])).address(), None);
    assert_eq!(
        Loco::new(&cvs(&[(1, 127)])).address(),
        Some(Address::Short(127))
    );
    let mut board = Board::new(12).unwrap();
    for line in ["accessory 12 7 on", "accessory 12 2 on", "signal 51 9"] {
        board.apply(&frame(line));
    }
    let outputs: Vec<u8> = (0..=255).filter(|n| board.output(*n)).collect();
    assert_eq!((board.number(), outputs), (12, vec![2, 7]));
    assert_eq!(board.positions(), [false, false, false, true]);
    assert_eq!(board.aspects(), [0, 0, 0, 9]);
}

/// The decoder text of a locomotive with this value in a variable, and with no address.
fn text_of(cv: u16, value: u8) -> String {
    let line = match value {
        0 => "".to_owned(),
        value => format!("cv {cv} {value}\n"),
    };
    format!("dcc-decoders 2\nloco none\nspeed stop f\non\nstates\npending none\n{line}end\n")
}

/// What a reading asks and finds, as `dcc readcv` writes it.
fn read(cv: u16, mut decoder: Option<Service>) -> String {
    let (mut reader, mut text) = (Reader::new(cv).unwrap(), String::new());
    let reset = Frame::new(&[0, 0, 0]).unwrap();
    loop {
        let question = reader.question();
        let copies = [reset; 3].into_iter().chain([question; 5]);
        let yes = copies.fold(false, |any, frame| {
            decoder.as_mut().map_or(false, |it| it.apply(&frame)) | any
        });
        writeln!(text, "{question:x} {}", if yes { "yes" } else { "no" }).unwrap();
        match reader.answer(yes) {
            Reading::More => (),
            Reading::Value(value) => return text + &format!("value {value}\n"),
            Reading::NoAnswer => return text + "no answer\n",
        }
    }
}

#[test]
fn a_variable_is_read_as_readcv_reads_it() {
    for (cv, value) in [(1, 10), (29, 2), (8, 200), (1024, 255), (17, 0), (512, 85)] {
        let service = Service::new(&cvs(&[(cv.into(), value)]));
        let written = dcc(&["readcv", "--cv", &cv.to_string()], &text_of(cv, value));
        assert_eq!(read(cv, Some(service)), written);
        assert!(written.ends_with(&format!("value {value}\n")));
    }
    let empty = output(
        Command::new(program()).args(["readcv", "--cv", "3", "--empty"]),
        b"",
    );
    assert_eq!(read(3, None).into_bytes(), empty.stdout);
    assert!(empty.stdout.ends_with(b"no answer\n"));
}

#[test]
fn a_decoder_is_in_service_after_a_reset() {
    let mut decoder = Service::new(&cvs(&[(1, 10)]));
    let verify = Frame::new(&[0x74, 0x00, 0x0A, 0x7E]).unwrap();
    let write = Frame::new(&[0x7C, 0x00, 0x0B, 0x77]).unwrap();
    assert!(!decoder.is_in_service() && !decoder.apply(&verify) && !decoder.apply(&verify));
    assert_eq!((decoder.pending(), decoder.cvs()[0]), (None, 10));
    assert!(!decoder.apply(&frame("loco all reset")));
    assert!(decoder.is_in_service() && decoder.pending().is_none());
    assert!(!decoder.apply(&verify));
    assert_eq!(decoder.pending(), Some(verify));
    assert!(decoder.apply(&verify));
    assert!(!decoder.apply(&write) && decoder.cvs()[0] == 10);
    assert!(decoder.apply(&write) && decoder.cvs()[0] == 11);
    assert!(decoder.cvs()[1..].iter().all(|it| *it == 0));
    decoder.apply(&frame("loco s3 speed28 f 4"));
    assert!(!decoder.is_in_service());
}

#[test]
fn a_reading_stays_at_its_ninth_question() {
    let mut reader = Reader::new(1024).unwrap();
    assert_eq!(format!("{:x}", reader.question()), "7bffe86c");
    for place in 0..8 {
        assert_eq!(reader.answer(0xA5 >> place & 1 == 1), Reading::More);
    }
    assert_eq!(reader.answer(false), Reading::NoAnswer);
    assert_eq!(format!("{:x}", reader.question()), "77ffa52d");
    assert_eq!(reader.answer(true), Reading::Value(0xA5));
}

/// The questions and answers of a writing, and its state at the end.
fn write(cv: u16, value: u8, decoder: &mut Service) -> (String, Writing) {
    let (mut writer, mut text) = (Writer::new(cv, value).unwrap(), String::new());
    let reset = Frame::new(&[0, 0, 0]).unwrap();
    loop {
        let question = writer.question();
        let copies = [reset; 3].into_iter().chain([question; 5]);
        let yes = copies.fold(false, |any, frame| decoder.apply(&frame) | any);
        write!(text, "{question:x} {} ", if yes { "yes" } else { "no" }).unwrap();
        match writer.answer(yes) {
            Writing::More => (),
            end => return (text, end),
        }
    }
}

#[test]
fn a_variable_is_written_by_two_questions() {
    let mut decoder = Service::new(&cvs(&[(1, 3), (8, 200)]));
    let done = "7c000a76 yes 74000a7e yes ".to_owned();
    assert_eq!(write(1, 10, &mut decoder), (done, Writing::Done));
    let failed = "7c07c9b2 no 7407c9ba no ".to_owned();
    assert_eq!(write(8, 201, &mut decoder), (failed, Writing::Failed));
    let there = "7c07c8b3 no 7407c8bb yes ".to_owned();
    assert_eq!(write(8, 200, &mut decoder), (there, Writing::Done));
    assert_eq!((decoder.cvs()[0], decoder.cvs()[7]), (10, 200));
    assert!(decoder.cvs()[8..].iter().all(|it| *it == 0));
}

#[test]
fn a_writing_stays_at_its_second_question() {
    for yes in [false, true] {
        let mut writer = Writer::new(1024, 0xA5).unwrap();
        assert_eq!(format!("{:x}", writer.question()), "7fffa525");
        assert_eq!(writer.answer(yes), Writing::More);
        assert_eq!(format!("{:x}", writer.question()), "77ffa52d");
        assert_eq!(writer.answer(false), Writing::Failed);
        assert_eq!(format!("{:x}", writer.question()), "77ffa52d");
        assert_eq!(writer.answer(true), Writing::Done);
    }
}

#[test]
fn a_station_counts() {
    let mut station = Station::new(2, 4, 2).unwrap();
    let state = |it: &Station| (it.waiting(), it.entries());
    assert_eq!(state(&station), (0, 0));
    let (speed, write) = (frame("loco s3 speed28 f 4"), frame("loco s3 cv write 29 2"));
    assert_eq!(station.command(&speed), Ok(()));
    assert_eq!(station.command(&write), Ok(()));
    assert_eq!(state(&station), (2, 0));
    let reset = frame("loco s4 reset");
    assert_eq!(station.command(&reset), Err(CommandFault::QueueFull));
    assert_eq!(
        station.command(&frame("idle")),
        Err(CommandFault::NoCommand)
    );
    let waits = (speed, (2, 1));
    let mut sent = || (station.send_next(), state(&station));
    let all = [sent(), sent(), sent(), sent(), sent(), sent()];
    let rest = [
        (speed, (1, 1)),
        (write, (1, 0)),
        (write, (1, 0)),
        (write, (0, 0)),
    ];
    assert_eq!(all[0], waits);
    assert_eq!(all[1..5], rest);
    assert_eq!(all[5], (frame("idle"), (0, 0)));
    assert_eq!(format!("{station:?}"), "Station { waiting: 0, entries: 0 }");
    let mut full = Station::new(64, 128, 8).unwrap();
    for n in 1..=64 {
        full.command(&frame(&format!("loco s{n} functions 0 16")))
            .unwrap();
    }
    assert_eq!(format!("{full:?}"), "Station { waiting: 64, entries: 0 }");
    full.send_next();
    assert_eq!(state(&full), (64, 1));
}

#[test]
fn a_station_stops_all() {
    let mut station = Station::new(4, 4, 2).unwrap();
    let (write, stop, standing) = (
        frame("loco s3 cv write 29 2"),
        frame("loco all speed28 f 3"),
        frame("loco s4 speed128 r 1"),
    );
    let moving = [
        frame("loco s3 speed28 f 20"),
        frame("loco s5 speed128 r 9"),
    ];
    for it in [write, moving[0], standing, moving[1]] {
        station.command(&it).unwrap();
    }
    assert_eq!(station.send_next(), write);
    assert_eq!(station.stop(), 2);
    assert_eq!((station.waiting(), station.entries()), (2, 0));
    let sent = [(); 8].map(|_| station.send_next());
    assert_eq!(
        sent,
        [stop, stop, write, write, write, standing, standing, standing]
    );
    assert_eq!(station.stop(), 0);
    assert_eq!(station.send_next(), stop);
    assert_eq!(station.stop(), 0);
    let sent = [(); 3].map(|_| station.send_next());
    assert_eq!(sent, [stop, stop, standing]);
}

#[test]
fn a_station_forgets_one_address() {
    let mut station = Station::new(4, 8, 1).unwrap();
    let (s3, l3, later) = (
        frame("loco s3 speed28 f 4"),
        frame("loco l3 speed28 f 5"),
        frame("loco s3 speed28 r 6"),
    );
    for it in [s3, l3] {
        station.command(&it).unwrap();
        assert_eq!(station.send_next(), it);
    }
    station.command(&later).unwrap();
    for (to, fault) in [
        (Address::Short(0), 1),
        (Address::Short(128), 1),
        (Address::Long(10240), 2),
    ] {
        assert_eq!(station.forget(to), Err(LineFault(fault)));
    }
    for to in [Address::All, Address::Short(4), Address::Long(4)] {
        assert_eq!(station.forget(to), Ok(()));
        assert_eq!((station.waiting(), station.entries()), (1, 2));
    }
    assert_eq!(station.forget(Address::Short(3)), Ok(()));
    assert_eq!((station.waiting(), station.entries()), (1, 1));
    assert_eq!([(); 3].map(|()| station.send_next()), [later, l3, later]);
    assert_eq!(station.forget(Address::Long(3)), Ok(()));
    assert_eq!(station.entries(), 1);
}

#[test]
fn one_function_is_turned() {
    let mut loco = Loco::new(&cvs(&[(1, 3), (29, 2)]));
    let mut functions = Functions::new();
    let to = Address::Short(3);
    for (function, on, line) in [
        (0, true, "loco s3 functions 0 16"),
        (4, true, "loco s3 functions 0 24"),
        (0, false, "loco s3 functions 0 8"),
        (5, true, "loco s3 functions 5 1"),
        (12, true, "loco s3 functions 9 8"),
        (13, true, "loco s3 functions 13 1"),
        (20, true, "loco s3 functions 13 129"),
        (13, false, "loco s3 functions 13 128"),
        (28, true, "loco s3 functions 21 128"),
        (29, true, "loco s3 functions 29 1"),
        (44, true, "loco s3 functions 37 128"),
        (45, true, "loco s3 functions 45 1"),
        (53, true, "loco s3 functions 53 1"),
        (61, true, "loco s3 functions 61 1"),
        (68, true, "loco s3 functions 61 129"),
    ] {
        let turned = functions.turn(to, function, on).unwrap();
        assert_eq!(turned, frame(line));
        loco.apply(&turned);
        assert!((0..=68).all(|n| functions.is_on(n) == loco.function(n)));
        assert_eq!(functions.is_on(function), on);
    }
    assert!((69..=255).all(|n| !functions.is_on(n)));
    let before = functions.clone();
    for (to, function, fault) in [
        (Address::Short(128), 69, 1),
        (Address::Long(10240), 0, 2),
        (to, 69, 13),
        (Address::All, 255, 13),
    ] {
        assert_eq!(functions.turn(to, function, true), Err(LineFault(fault)));
    }
    assert_eq!(functions, before);
    let turned = functions.turn(Address::Long(1000), 6, true);
    assert_eq!(turned, Ok(frame("loco l1000 functions 5 3")));
    let turned = functions.turn(Address::All, 6, false);
    assert_eq!(turned, Ok(frame("loco all functions 5 1")));
    assert_eq!(Functions::new(), Functions::default());
}

#[test]
fn a_packet_has_its_frame() {
    for line in rows() {
        let it = frame(&line);
        assert_eq!(it.packet().frame(), Ok(it), "{line}");
    }
    let (to, cv) = (Address::Short(3), 1025);
    let (group, bits, place, one) = (4, 32, 8, true);
    let (forward, value) = (true, 0);
    for (packet, fault) in [
        (
            Packet::Reset {
                to: Address::Short(0),
            },
            1,
        ),
        (
            Packet::Reset {
                to: Address::Long(10240),
            },
            2,
        ),
        (Packet::Speed28 { to, forward, bits }, 8),
        (
            Packet::Speed128 {
                to,
                forward,
                bits: 128,
            },
            8,
        ),
        (Packet::Functions { to, group, bits }, 10),
        (Packet::Functions { to, group: 0, bits }, 9),
        (
            Packet::State {
                to,
                number: 128,
                on: true,
            },
            14,
        ),
        (Packet::CvWrite { to, cv, value }, 6),
        (Packet::CvVerify { to, cv: 0, value }, 6),
        (Packet::CvBitWrite { to, cv, place, one }, 6),
        (
            Packet::CvBitVerify {
                to,
                cv: 1,
                place,
                one,
            },
            7,
        ),
        (
            Packet::Accessory {
                board: 512,
                output: 8,
                on: true,
            },
            3,
        ),
        (
            Packet::Accessory {
                board: 511,
                output: 8,
                on: true,
            },
            4,
        ),
        (
            Packet::Signal {
                address: 2048,
                aspect: 0,
            },
            5,
        ),
        (
            Packet::Reset {
                to: Address::Short(200),
            },
            1,
        ),
        (Packet::Other(frame("idle")), 12),
    ] {
        assert_eq!(packet.frame(), Err(LineFault(fault)), "{packet:?}");
    }
}

#[test]
fn a_service_packet_has_its_frame() {
    let (cv, value, place, one) = (1024, 165, 5, true);
    for (packet, bytes) in [
        (ServicePacket::Write { cv: 1, value: 10 }, "7c000a76"),
        (ServicePacket::Verify { cv, value }, "77ffa52d"),
        (ServicePacket::BitWrite { cv, place, one }, "7bfffd79"),
        (
            ServicePacket::BitVerify {
                cv,
                place,
                one: false,
            },
            "7bffe561",
        ),
    ] {
        let it = packet.frame().unwrap();
        assert_eq!(format!("{it:x}"), bytes);
        assert_eq!(ServicePacket::read(&it), Some(packet));
    }
    for (packet, fault) in [
        (ServicePacket::Write { cv: 0, value }, 6),
        (ServicePacket::Verify { cv: 1025, value }, 6),
        (
            ServicePacket::BitWrite {
                cv: 0,
                place: 8,
                one,
            },
            6,
        ),
        (ServicePacket::BitVerify { cv, place: 8, one }, 7),
    ] {
        assert_eq!(packet.frame(), Err(LineFault(fault)), "{packet:?}");
    }
    for line in ["idle", "loco s3 speed28 f 4", "frame 7800d8a0"] {
        assert_eq!(ServicePacket::read(&frame(line)), None);
    }
}

#[test]
fn a_question_has_eight_frames() {
    let question = Writer::new(1, 10).unwrap().question();
    let bytes = question_frames(&question).map(|it| format!("{it:x}"));
    assert_eq!(bytes[..3], ["000000"; 3]);
    assert_eq!(bytes[3..], ["7c000a76"; 5]);
}

#[test]
fn turnouts_are_counted_from_board_1_or_0() {
    for (count, first, most) in [
        (Turnouts::FromBoard1, 1, 2040),
        (Turnouts::FromBoard0, 0, 2044),
    ] {
        let mut number = 0;
        for board in first..=510 {
            for output in 0..8 {
                number += u16::from(output % 2 == 0);
                assert_eq!(count.number(board, output), Some(number));
                assert_eq!(count.pair(number), Some((board, output / 2)));
            }
        }
        assert_eq!(number, most);
        for number in [0, most + 1, 65535] {
            assert_eq!(count.pair(number), None);
        }
        for (board, output) in [(511, 0), (65535, 0), (first, 8), (510, 255)] {
            assert_eq!(count.number(board, output), None);
        }
    }
    assert_eq!(Turnouts::FromBoard1.number(0, 0), None);
    let numbers = [Turnouts::FromBoard1, Turnouts::FromBoard0].map(|it| it.number(40, 2));
    assert_eq!(numbers, [Some(158), Some(162)]);
}

#[test]
fn half_bits_have_their_timing() {
    let lines = rows().join("\n") + "\n";
    let mut sent = String::new();
    for line in lines.lines() {
        let halves = frame(line).halves(&Timing::PROGRAMMING);
        let words: Vec<String> = halves.map(|us| us.to_string()).collect();
        writeln!(sent, "{}", words.join(" ")).unwrap();
    }
    assert_eq!(sent, dcc(&["encode", "--service"], &lines));
    let timing = Timing::new(55, 9900, 2100, 15).unwrap();
    let (one, zero) = ([55, 55], [9900, 2100]);
    let bits: Vec<[u16; 2]> = [
        &[one; 15][..],
        &[zero],
        &[one; 8],
        &[zero; 9],
        &[zero],
        &[one; 9],
    ]
    .concat();
    assert!(frame("idle").halves(&timing).eq(bits.concat()));
    let mut halves = frame("idle").halves(&timing);
    assert_eq!(halves.by_ref().count(), 2 * (15 + 28));
    assert_eq!(halves.next(), None);
}

#[test]
fn an_array_is_taken_up_to_each_outcome() {
    let one: Vec<u16> = frame("loco s3 speed28 f 4").halves(&Timing::MAIN).collect();
    let mut both = [one.clone(), one.clone()].concat();
    let mut framer = Framer::new();
    let packet = Some(Seen::Packet(frame("loco s3 speed28 f 4")));
    assert_eq!(framer.push_many(&both[..100]), (84, packet));
    assert_eq!(framer.push_many(&both[84..134]), (50, None));
    assert_eq!(framer.push_many(&[]), (0, None));
    assert_eq!(framer.push_many(&both[134..]), (34, packet));
    both[40] = 70;
    let refused = Some(Seen::Refused(Refusal::BadHalf));
    assert_eq!(framer.push_many(&both), (41, refused));
}

#[test]
fn a_run_tells_the_half_that_completes_it() {
    let mut framer = Framer::new();
    assert_eq!(
        (framer.push_run(58, 40), framer.push_run(100, 1)),
        (None, None)
    );
    assert_eq!(
        framer.push_run(70, 3),
        Some((1, Seen::Refused(Refusal::BadHalf)))
    );
    assert_eq!(
        (framer.push_run(58, u32::MAX), framer.push(100)),
        (None, None)
    );
    assert_eq!(framer.push(58), Some(Seen::Refused(Refusal::SplitBit)));
    assert_eq!(
        (framer.push_run(58, 40), framer.push_run(100, 18)),
        (None, None)
    );
    assert_eq!(
        framer.push_run(58, 9),
        Some((2, Seen::Refused(Refusal::TooShort)))
    );
    assert_eq!(
        (framer.push_run(58, 40), framer.push_run(100, 2)),
        (None, None)
    );
    assert_eq!(
        framer.push_run(100, 500),
        Some((108, Seen::Refused(Refusal::TooLong)))
    );
    assert_eq!(
        (framer.push_run(58, 40), framer.push_run(100, 52)),
        (None, None)
    );
    let bytes = [0, 0, 1, 0, 0, 0];
    let refusal = Refusal::ErrorByte { len: 3, bytes };
    assert_eq!(framer.push_run(58, 9), Some((4, Seen::Refused(refusal))));
    assert_eq!(
        format!(
            "{:?} {:?}",
            Framer::default(),
            frame("idle").halves(&Timing::MAIN)
        ),
        "Framer Halves"
    );
}

#[test]
fn a_fault_has_its_name() {
    let bytes = [1, 2, 3, 4, 5, 6];
    let error_byte = |len| Refusal::ErrorByte { len, bytes };
    for (said, name) in [
        (Refusal::BadHalf.to_string(), "H1"),
        (Refusal::SplitBit.to_string(), "H2"),
        (Refusal::TooShort.to_string(), "H3"),
        (Refusal::TooLong.to_string(), "H4"),
        (error_byte(3).to_string(), "H5 010203"),
        (error_byte(6).to_string(), "H5 010203040506"),
        (error_byte(7).to_string(), "H5 010203040506"),
        (error_byte(255).to_string(), "H5 010203040506"),
        (FrameFault::Length.to_string(), "L1"),
        (FrameFault::ErrorByte.to_string(), "L2"),
        (LineFault(14).to_string(), "P14"),
        (CommandFault::NoCommand.to_string(), "C3"),
        (CommandFault::QueueFull.to_string(), "C4"),
        (frame("idle").to_string(), "idle"),
        (
            format!("{:>6}|{:<6}|", frame("idle"), frame("idle")),
            "  idle|idle  |",
        ),
        (format!("{:x}", frame("idle")), "ff00ff"),
        (format!("{:?}", frame("idle")), "Frame(ff00ff)"),
        (hex(None), "none"),
    ] {
        assert_eq!(said, name);
    }
}

const SPEED: Result<Frame, FrameFault> = Frame::new(&[0x03, 0x62, 0x61]);
static ZEROED: (TrackLoco, TrackBoard, Station) =
    (TrackLoco::zeroed(), TrackBoard::zeroed(), Station::zeroed());
static NEW: (Framer, LostFinder, Meter, Functions) =
    (Framer::new(), LostFinder::new(), Meter::new(), Functions::new());

#[test]
fn objects_of_constants_are_new() {
    let speed = frame("loco s3 speed28 f 4");
    assert_eq!(SPEED, Ok(speed));
    let (mut framer, mut finder, mut meter, mut functions) = NEW.clone();
    let mut halves = speed.halves(&Timing::MAIN);
    let seen: Vec<_> = halves.by_ref().filter_map(|us| framer.push(us)).collect();
    assert_eq!(seen, [Seen::Packet(speed)]);
    // a framer that counts from 0 needs 20 half-bits of ones
    let (mut framer, nineteen) = (NEW.0.clone(), speed.halves(&Timing::MAIN).skip(9));
    assert_eq!(nineteen.filter_map(|us| framer.push(us)).next(), None);
    let short: Vec<_> = speed.halves(&Timing::MAIN).skip(12).collect();
    let lost: Vec<_> = short.iter().filter_map(|us| finder.push(*us)).collect();
    assert_eq!(lost[0].preamble.map(|it| it.ones), Some(16));
    assert_eq!((lost.len(), lost[0].frame), (1, speed));
    meter.push_many(&short).unwrap();
    let found = meter.statistics();
    assert_eq!((found.halves, found.packets, found.lost), (72, 0, 1));
    let turned = functions.turn(Address::Short(3), 5, true).unwrap();
    assert_eq!(turned, frame("loco s3 functions 5 1"));
}

#[test]
fn objects_of_zeros_are_started_in_their_place() {
    let (mut loco, mut board, mut station) = ZEROED.clone();
    let speed = frame("loco s3 speed28 f 4");
    assert_eq!((loco.address(), loco.speed(), board.number()), (None, Speed::Stop, 0));
    assert!(loco.cvs().iter().chain(board.cvs()).all(|it| *it == 0));
    loco.hear(&speed);
    assert_eq!(loco, ZEROED.0);
    let cvs = cvs(&[(1, 3), (9, 1), (29, 2)]);
    loco.power_up(&cvs);
    board.power_up(&cvs);
    assert_eq!((&loco, &board), (&TrackLoco::new(&cvs), &TrackBoard::new(&cvs)));
    assert_eq!((loco.address(), board.number()), (Some(Address::Short(3)), 67));
    loco.hear(&speed);
    board.hear(&frame("accessory 67 1 on"));
    assert_eq!(loco.speed(), Speed::Step { step: 1, of: 28 });
    assert!(board.output(1));
    loco.power_up(&cvs);
    assert_eq!(loco, TrackLoco::new(&cvs));

    assert_eq!(station.command(&speed), Err(CommandFault::QueueFull));
    assert_eq!((station.send_next(), station.waiting(), station.entries()), (frame("idle"), 0, 0));
    assert!(!station.start(0, 4, 2) && !station.start(2, 129, 2) && !station.start(2, 4, 9));
    assert_eq!(station.command(&speed), Err(CommandFault::QueueFull));
    assert!(station.start(1, 4, 2));
    assert_eq!(station.command(&speed), Ok(()));
    assert_eq!(station.command(&speed), Err(CommandFault::QueueFull));
    assert_eq!([(); 2].map(|_| station.send_next()), [speed, speed]);
    assert!(station.start(2, 4, 1));
    assert_eq!((station.send_next(), station.entries()), (frame("idle"), 0));
}

/// Each list of up to seven bytes of 0, 1 and 255.
#[test]
fn frames_have_three_to_six_bytes_and_the_sum_0() {
    for count in 0..=7 {
        for number in 0..3usize.pow(count) {
            let bytes: Vec<u8> = (0..count)
                .map(|at| [0, 1, 255][number / 3usize.pow(at) % 3])
                .collect();
            let sum = bytes.iter().fold(0, |sum, it| sum ^ it);
            let found = Frame::new(&bytes);
            match (bytes.len(), sum) {
                (3..=6, 0) => assert_eq!(found.unwrap().bytes(), bytes),
                (3..=6, _) => assert_eq!(found, Err(FrameFault::ErrorByte)),
                _ => assert_eq!(found, Err(FrameFault::Length)),
            }
        }
    }
}

#[test]
fn what_is_past_its_limits_is_not_made() {
    for (queue, slots, repeats) in [
        (0, 1, 1),
        (65, 1, 1),
        (1, 0, 1),
        (1, 129, 1),
        (1, 1, 0),
        (1, 1, 9),
    ] {
        assert!(Station::new(queue, slots, repeats).is_none());
    }
    assert!(Station::new(64, 128, 8).is_some() && Station::new(1, 1, 1).is_some());
    assert!(Board::new(511).is_none() && Board::new(510).is_some());
    assert!(Reader::new(0).is_none() && Reader::new(1025).is_none());
    assert!(Writer::new(0, 1).is_none() && Writer::new(1025, 1).is_none());
    assert_eq!(Timing::new(54, 100, 100, 14), Err(TimingFault::One));
    assert_eq!(Timing::new(62, 94, 100, 13), Err(TimingFault::One));
    assert_eq!(Timing::new(58, 9900, 2101, 14), Err(TimingFault::Zero));
    assert_eq!(Timing::new(58, 100, 94, 13), Err(TimingFault::Zero));
    assert_eq!(Timing::new(58, 100, 100, 41), Err(TimingFault::Preamble));
    assert_eq!(Timing::new(58, 100, 100, 13), Err(TimingFault::Preamble));
    assert_eq!(Timing::new(58, 100, 100, 14), Ok(Timing::MAIN));
    assert_eq!(Timing::new(58, 100, 100, 20), Ok(Timing::PROGRAMMING));
    for bytes in [&[][..], &[1, 1], &[0; 7]] {
        assert_eq!(Frame::new(bytes), Err(FrameFault::Length));
    }
    assert_eq!(Frame::new(&[1, 2, 4]), Err(FrameFault::ErrorByte));
    assert_eq!(
        Frame::new(&[1, 2, 3]).map(|it| it.bytes().to_vec()),
        Ok(vec![1, 2, 3])
    );
    for (line, fault) in [
        ("loco s128 reset", 1),
        ("loco l10240 reset", 2),
        ("accessory 512 0 on", 3),
        ("accessory 1 8 on", 4),
        ("signal 2048 0", 5),
        ("loco s3 cv write 1025 0", 6),
        ("loco s3 cv bitwrite 1 8 0", 7),
        ("loco s3 speed28 f 32", 8),
        ("loco s3 functions 0 32", 9),
        ("", 10),
        ("idle\0", 10),
        ("idle\n", 10),
        ("loco s3 speed28 f 4\n", 11),
        ("frame 0102", 12),
        ("loco s3 state 128 on", 14),
    ] {
        assert_eq!(line.parse::<Frame>(), Err(LineFault(fault)), "{line}");
    }
}

/// The example `show` lists and refuses what the program lists and refuses.
#[test]
fn the_example_refuses_what_show_refuses() {
    let mut show = std::env::current_exe().unwrap();
    show.pop();
    show.pop();
    show.push("examples/show");
    let good = "58*28 100*14 58*4 100*4 58*4 100*6 58*2 100*6 58*4 100*8 58*4";
    let words = "58*0|5_8|58*-3|58*|58x|*5|-58|+58|58*99999999|58*16777217|58*123456789|58*5*2|\
                 12345678901|00000000058|---|\u{665}|58\x0c58|58\0|58\u{85}|1e3|58.0";
    let mut captures: Vec<Vec<u8>> = words
        .split('|')
        .map(|it| format!("{good}\n# a comment\r\n\t58\n58 {it} 58\n58*0\n").into_bytes())
        .collect();
    captures.extend(
        [
            "",
            "#",
            "58",
            "58#58x",
            "58*16777216",
            "58*16777216 58",
            "58*16777216 58x",
            "70000 4294967354 9999999999*3 0000000058*00000028",
        ]
        .map(|it| it.as_bytes().to_vec()),
    );
    captures.push(format!("\r\n{good}#\n{good} 100 65594 {good}").into_bytes());
    captures.push(b"58*30 100 65594 58*30 100 131130".to_vec());
    captures.push(b"58 \xff".to_vec());
    let full = [&b"#".repeat(67_108_864 - 9)[..], b"\n"].concat();
    for rest in [
        "58 58 58",
        "58 58 58 ",
        "58 58 588",
        "58 58 x",
        "58 58x  9",
        "58 58  x9",
    ] {
        captures.push([&full, rest.as_bytes()].concat());
    }
    for capture in captures {
        let here = output(&mut Command::new(&show), &capture);
        let there = output(Command::new(program()).args(["show", "--words"]), &capture);
        let said = String::from_utf8(here.stderr)
            .unwrap()
            .replace("show: ", "dcc: ");
        let rest = String::from_utf8_lossy(&capture[capture.len().saturating_sub(60)..]);
        assert_eq!(said.into_bytes(), there.stderr, "{rest}");
        assert_eq!(
            (here.stdout, here.status.code()),
            (there.stdout, there.status.code()),
            "{rest}"
        );
    }
    // a full disk: the last write fails
    let full = std::fs::OpenOptions::new().write(true).open("/dev/full");
    let mut child = Command::new(&show)
        .stdin(Stdio::piped())
        .stdout(full.unwrap())
        .stderr(Stdio::piped())
        .spawn()
        .unwrap();
    let mut stdin = child.stdin.take().unwrap();
    stdin.write_all(good.as_bytes()).unwrap();
    drop(stdin);
    let said = child.wait_with_output().unwrap();
    assert_eq!(
        (said.status.code(), &said.stderr[..]),
        (Some(3), &b"show: U5 write failed\n"[..])
    );
}

#[test]
fn a_meter_takes_half_bits_runs_and_lists() {
    let (mut one_by_one, mut by_runs, mut at_once) = (Meter::new(), Meter::new(), Meter::new());
    let runs = [
        (58, 28),
        (100, 14),
        (58, 4),
        (20000, 2),
        (58, 66_500),
        (100, 40),
    ];
    let mut halves = Vec::new();
    for (us, n) in runs {
        by_runs.push_run(us, n).unwrap();
        for _ in 0..n {
            one_by_one.push(us).unwrap();
            halves.push(us);
        }
    }
    at_once.push_many(&halves).unwrap();
    let found = by_runs.statistics();
    assert_eq!(found, one_by_one.statistics());
    assert_eq!(found, at_once.statistics());
    assert_eq!(
        (found.halves, found.above.most, found.preamble, found.gap),
        (66_588, 20000, None, None)
    );
    assert_eq!(
        (found.ones.least, found.zeros.count, found.below),
        (58, 54, Tally::default())
    );
}

#[test]
fn a_full_meter_takes_nothing() {
    let mut meter = Meter::default();
    meter.push_run(58, 12_000).unwrap();
    meter.push_run(100, 345).unwrap();
    assert_eq!(meter.push_run(58, u32::MAX - 12_344), Err(MeterIsFull));
    // 2^32 half-bits take half a minute, so the count in the struct becomes the greatest one
    let words = unsafe { &mut *(&mut meter as *mut Meter).cast::<[u32; 276]>() };
    let at = words.iter().position(|it| *it == 12_345).unwrap();
    words[at] = u32::MAX;
    assert_eq!(meter.push(58), Err(MeterIsFull));
    assert_eq!(meter.push_run(58, 1), Err(MeterIsFull));
    assert_eq!(meter.push_many(&[58]), Err(MeterIsFull));
    assert_eq!(meter.push_many(&[]), Ok(()));
    assert_eq!(meter.statistics().halves, u32::MAX);
    assert_eq!(
        MeterIsFull.to_string(),
        "a meter takes fewer than 2^32 half-bits"
    );
    assert_eq!(format!("{meter:?}"), "Meter");
}
