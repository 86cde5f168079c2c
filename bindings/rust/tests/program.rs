//! Held against the program, on 10,000 random packets of which each 500th half-bit is spoilt.
mod common;

use common::{bit, dcc, name, on, random_lines, side, Fleet};
use dcc::{
    CommandFault, Frame, Framer, LostFinder, LostPacket, Meter, OffLimits, Packet, Seen, Station, Statistics, Tally,
    Timing,
};
use std::fmt::Write as _;

fn frames(lines: &str) -> Vec<Frame> {
    lines.lines().map(|it| it.parse().unwrap()).collect()
}

/// What is sent for these packets, each 500th half-bit cut, and each 500th bit turned.
fn spoilt(lines: &str) -> Vec<u16> {
    let halves = frames(lines)
        .into_iter()
        .flat_map(|it| it.halves(&Timing::MAIN));
    let spoilt = |(at, us)| match at % 1000 {
        499 | 999 => 20,
        700 | 701 => 158 - us,
        _ => us,
    };
    halves.enumerate().map(spoilt).collect()
}

fn capture(halves: &[u16]) -> String {
    halves.iter().fold(String::new(), |mut text, us| {
        writeln!(text, "{us}").unwrap();
        text
    })
}

fn seen(halves: &[u16]) -> impl Iterator<Item = (usize, Seen)> + '_ {
    let mut framer = Framer::new();
    halves
        .iter()
        .enumerate()
        .filter_map(move |(at, us)| Some((at + 1, framer.push(*us)?)))
}

#[test]
fn what_is_sent_is_what_encode_writes() {
    let lines = random_lines();
    let words = |it: &Frame| {
        it.halves(&Timing::MAIN)
            .map(|us| us.to_string())
            .collect::<Vec<_>>()
            .join(" ")
    };
    let sent: String = frames(&lines).iter().map(|it| words(it) + "\n").collect();
    assert!(sent == dcc(&["encode"], &lines));
}

#[test]
fn what_is_seen_is_what_show_lists() {
    let halves = spoilt(&random_lines());
    let mut listing = String::new();
    for (at, it) in seen(&halves) {
        match it {
            Seen::Packet(frame) => writeln!(listing, "{at} {frame}").unwrap(),
            Seen::Refused(refusal) => writeln!(listing, "{at} refused {refusal}").unwrap(),
        }
    }
    assert!(listing == dcc(&["show", "--words"], &capture(&halves)));
    assert!(listing.contains("refused H5") && listing.contains("refused H1"));
}

/// The runs of equal half-bits, each with how many there are.
fn runs(halves: &[u16]) -> Vec<(u16, u32)> {
    let mut runs: Vec<(u16, u32)> = Vec::new();
    for us in halves {
        match runs.last_mut() {
            Some((last, n)) if last == us => *n += 1,
            _ => runs.push((*us, 1)),
        }
    }
    runs
}

#[test]
fn a_run_shows_what_its_halves_show() {
    let halves = spoilt(&random_lines());
    let (mut framer, mut at, mut of_runs) = (Framer::new(), 0, Vec::new());
    for (us, n) in runs(&halves) {
        let found = framer.push_run(us, n);
        of_runs.extend(found.map(|(place, it)| (at + place as usize, it)));
        at += n as usize;
    }
    assert!(of_runs == seen(&halves).collect::<Vec<_>>());
}

/// What a station with faults sends for these packets: short preambles, ones of 66 microseconds, zeros of 85
/// microseconds, a preamble after a refusal, and half-bits of 20 microseconds.
fn faulty(lines: &str) -> Vec<u16> {
    let mut sent = Vec::new();
    for (at, frame) in frames(lines).iter().enumerate() {
        let (is_short, is_slow) = (matches!(at % 7, 1 | 4 | 6), matches!(at % 7, 2 | 6));
        if at % 7 == 4 {
            sent.extend([58; 20].into_iter().chain([100, 70]));
        }
        let skipped = if is_short { 12 + at % 7 } else { 0 };
        for (place, us) in frame.halves(&Timing::MAIN).enumerate().skip(skipped) {
            sent.push(match us {
                58 if is_slow => 66,
                100 if at % 7 == 3 => 85 + (place % 5) as u16,
                _ if at % 7 == 5 && place == 60 => 20,
                _ => us,
            });
        }
    }
    sent
}

/// The line of a lost packet, as the program writes it.
fn lost_line(half: usize, lost: &LostPacket) -> String {
    let off = |name: &str, it: &OffLimits| format!("{name} {} from {} to {}", it.count, it.least, it.most);
    let mut causes: Vec<String> = Vec::new();
    causes.extend(lost.preamble.map(|it| match it.since_refusal {
        None => format!("preamble {}", it.ones),
        Some(since) => format!("preamble {} after {}", it.ones, half - usize::from(since)),
    }));
    causes.extend(lost.ones.iter().map(|it| off("ones", it)));
    causes.extend(lost.zeros.iter().map(|it| off("zeros", it)));
    format!("{half} lost {}: {}\n", lost.frame, causes.join(", "))
}

#[test]
fn what_is_lost_is_what_lost_lists() {
    let halves = faulty(&random_lines());
    let (mut finder, mut listing) = (LostFinder::new(), String::new());
    for (at, us) in halves.iter().enumerate() {
        listing.extend(finder.push(*us).map(|it| lost_line(at + 1, &it)));
    }
    assert!(listing == dcc(&["lost", "--words"], &capture(&halves)));
    for cause in [": preamble 17\n", ": preamble 12 after ", ": ones ", ": zeros ", ": preamble 12, ones "] {
        assert!(listing.matches(cause).count() > 100, "{cause}");
    }
}

/// The text of statistics, as the program writes it.
fn timing_text(it: &Statistics) -> String {
    let shown = |number: Option<u64>| number.map_or("none".to_string(), |it| it.to_string());
    let tally = |name: &str, it: &Tally| {
        let has = |number| shown((it.count > 0).then_some(number));
        let mean = match it.count {
            0 => "none".to_string(),
            count => format!("{}.{:02}", it.sum / count, 100 * (it.sum % count) / count),
        };
        let (least, most) = (has(it.least), has(it.most));
        format!("{name} count {}\n{name} least {least}\n{name} most {most}\n{name} mean {mean}\n", it.count)
    };
    let mut text = format!("halves {}\ntime {}\npackets {}\n", it.halves, it.time, it.packets);
    for (n, count) in it.refused.iter().enumerate() {
        writeln!(text, "refused H{} {count}", n + 1).unwrap();
    }
    let (preamble, gap) = (shown(it.preamble.map(u64::from)), shown(it.gap));
    write!(text, "lost {}\npreamble least {preamble}\ngap most {gap}\n", it.lost).unwrap();
    text + &tally("ones", &it.ones)
        + "ones station 55 61\nones decoder 52 64\n"
        + &tally("differences", &it.differences)
        + "differences station 3\ndifferences decoder 6\n"
        + &tally("zeros", &it.zeros)
        + "zeros station 95 9900\nzeros decoder 90 10000\n"
        + &tally("sums", &it.sums)
        + "sums station 12000\n"
        + &tally("below", &it.below)
        + &tally("between", &it.between)
        + &tally("above", &it.above)
}

#[test]
fn statistics_are_what_timing_writes() {
    let sent = spoilt(&random_lines());
    let odd = [5, 5, 70, 20000, 65535, 58, 58, 100];
    for halves in [&sent[..], &[], &sent[..84], &sent[28..200], &odd] {
        let mut meter = Meter::new();
        meter.push_many(halves).unwrap();
        assert_eq!(timing_text(&meter.statistics()), dcc(&["timing"], &capture(halves)));
    }
}

#[test]
fn in_runs_the_same_packets_are_lost() {
    let mut halves = faulty(&random_lines());
    // long runs, and a packet behind them
    halves.extend([58; 5000].into_iter().chain([100; 3000]).chain([58; 16]));
    halves.extend(frames("loco s3 speed28 f 4")[0].halves(&Timing::MAIN).skip(28));
    halves.extend([58; 700]);
    let (mut finder, mut listing, mut at) = (LostFinder::default(), String::new(), 0);
    for (us, mut n) in runs(&halves) {
        while n > 0 {
            let found = finder.push_run(us, n);
            let taken = found.map_or(n, |it| it.0);
            (at, n) = (at + taken as usize, n - taken);
            listing.extend(found.map(|it| lost_line(at, &it.1)));
        }
    }
    assert!(listing == dcc(&["lost", "--words"], &capture(&halves)));
    assert!(listing.ends_with(" lost loco s3 speed28 f 4: preamble 16\n"));
}

#[test]
fn in_arrays_the_same_packets_are_lost() {
    let halves = faulty(&random_lines());
    let (mut finder, mut listing, mut at) = (LostFinder::new(), String::new(), 0);
    for mut left in halves.chunks(1000) {
        while !left.is_empty() {
            let (taken, found) = finder.push_many(left);
            assert!(found.is_some() || taken == left.len());
            (at, left) = (at + taken, &left[taken..]);
            listing.extend(found.map(|it| lost_line(at, &it)));
        }
    }
    assert!(listing == dcc(&["lost", "--words"], &capture(&halves)));
    assert_eq!(finder.push_many(&[]), (0, None));
}

/// The line of a packet, by what its fields say.
fn line_of(packet: &Packet) -> String {
    match packet {
        Packet::Idle => "idle".into(),
        Packet::Reset { to } => format!("loco {} reset", name(to)),
        Packet::Speed28 { to, forward, bits } => {
            format!("loco {} speed28 {} {bits}", name(to), side(*forward))
        }
        Packet::Speed128 { to, forward, bits } => {
            format!("loco {} speed128 {} {bits}", name(to), side(*forward))
        }
        Packet::Functions { to, group, bits } => {
            format!("loco {} functions {group} {bits}", name(to))
        }
        Packet::State { to, number, on: it } => {
            format!("loco {} state {number} {}", name(to), on(*it))
        }
        Packet::CvWrite { to, cv, value } => format!("loco {} cv write {cv} {value}", name(to)),
        Packet::CvVerify { to, cv, value } => format!("loco {} cv verify {cv} {value}", name(to)),
        Packet::CvBitWrite { to, cv, place, one } => {
            format!("loco {} cv bitwrite {cv} {place} {}", name(to), bit(*one))
        }
        Packet::CvBitVerify { to, cv, place, one } => {
            format!("loco {} cv bitverify {cv} {place} {}", name(to), bit(*one))
        }
        Packet::Accessory {
            board,
            output,
            on: it,
        } => format!("accessory {board} {output} {}", on(*it)),
        Packet::Signal { address, aspect } => format!("signal {address} {aspect}"),
        Packet::Other(frame) => format!("frame {frame:x}"),
    }
}

#[test]
fn the_fields_of_a_packet_are_those_of_its_line() {
    let lines = random_lines();
    for line in lines.lines() {
        let frame: Frame = line.parse().unwrap();
        assert_eq!(line_of(&frame.packet()), frame.to_string());
        assert_eq!(frame.packet().frame(), Ok(frame));
        assert_eq!(Frame::new(frame.bytes()), Ok(frame));
    }
}

#[test]
fn decoders_hold_what_run_writes() {
    let mut fleet = Fleet::new();
    let listing = dcc(&["show", "--words"], &capture(&spoilt(&random_lines())));
    let lines = listing
        .lines()
        .filter_map(|it| it.split_once(' '))
        .map(|it| it.1);
    let lines: Vec<&str> = lines.filter(|it| !it.starts_with("refused")).collect();
    assert!(lines.len() > 8000);
    for piece in lines.chunks(100) {
        let after = fleet.run(&(piece.join("\n") + "\n"));
        for line in piece {
            let frame = line.parse().unwrap();
            assert_eq!(fleet.hears(&frame), fleet.is_for(line), "{line}");
            fleet.apply(&frame);
        }
        assert_eq!(fleet.texts(), after);
    }
}

#[test]
fn a_station_sends_what_encode_sends() {
    let (lines, mut all) = (random_lines(), String::new());
    for (queue, slots, repeats) in [(4, 8, 2), (64, 128, 1), (1, 1, 8), (16, 32, 3)] {
        let mut station = Station::new(queue, slots, repeats).unwrap();
        let (mut sent, mut asked) = (String::new(), String::new());
        for (at, line) in lines.lines().enumerate() {
            asked += &format!("{line}\n");
            match station.command(&line.parse().unwrap()) {
                Ok(()) => (),
                Err(fault @ (CommandFault::NoCommand | CommandFault::QueueFull)) => {
                    sent += &format!("# refused {fault}\n")
                }
            }
            let count = at * 7 % 4;
            if count > 0 {
                asked += &format!("send {count}\n");
            }
            (0..count).for_each(|_| sent += &format!("{:x}\n", station.send_next()));
        }
        let size = |it: u8| it.to_string();
        let words = [
            "--queue",
            &size(queue),
            "--slots",
            &size(slots),
            "--repeats",
            &size(repeats),
        ];
        assert!(
            sent == dcc(
                &[&["encode", "--hex", "--station"], &words[..]].concat(),
                &asked
            )
        );
        all += &sent;
    }
    assert!(all.contains("# refused C3") && all.contains("# refused C4"));
}
