//! `dcc show --words`: a capture on standard input, packets and refusals on standard output.
//!
//! A fault of the capture ends the program with status 3, after the lines before it.
use dcc::{Framer, Seen};
use std::io::{self, BufWriter, Read, Write};
use std::process::exit;

/// The limits of a capture (docs/FORMATS.md).
const MOST_HALVES: u32 = 16_777_216;
const MOST_BYTES: usize = 67_108_864;

/// A number of 1 to `most` decimal digits.
fn number(digits: &str, most: usize) -> Option<u64> {
    let are_digits = digits.bytes().all(|it| it.is_ascii_digit());
    ((1..=most).contains(&digits.len()) && are_digits).then(|| digits.parse().ok())?
}

/// The duration of a word, `58` or `58*28`, and how many half-bits have it.
fn run(word: &[u8]) -> Option<(u16, u32)> {
    let word = std::str::from_utf8(word).ok()?;
    let (us, n) = word.split_once('*').unwrap_or((word, "1"));
    let n = number(n, 8).filter(|n| (1..=MOST_HALVES.into()).contains(n))?;
    Some((number(us, 10)?.min(65535) as u16, n as u32))
}

/// Lists the packets of a capture, and returns what the program says of its fault.
fn list(capture: &[u8], out: &mut impl Write) -> Result<(), String> {
    let (mut framer, mut place) = (Framer::new(), 0);
    let read = &capture[..capture.len().min(MOST_BYTES)];
    for (at, line) in read.split(|it| *it == b'\n').enumerate() {
        let words = line.split(|it| *it == b'#').next().unwrap_or(line);
        for word in words
            .split(|it| b" \t\r".contains(it))
            .filter(|it| !it.is_empty())
        {
            if word.as_ptr_range().end == read.as_ptr_range().end && read.len() < capture.len() {
                break; // (the limit cuts the word)
            }
            let (us, n) = run(word).ok_or(format!("U2 line {}: bad number", at + 1))?;
            if n > MOST_HALVES - place {
                return Err("U7 input too long".into());
            }
            let written = match framer.push_run(us, n) {
                Some((half, Seen::Packet(frame))) => writeln!(out, "{} {frame}", place + half),
                Some((half, Seen::Refused(it))) => writeln!(out, "{} refused {it}", place + half),
                None => Ok(()),
            };
            written.map_err(|_| "U5 write failed")?;
            place += n;
        }
    }
    if read.len() < capture.len() {
        return Err("U7 input too long".into());
    }
    Ok(())
}

fn main() {
    let (mut capture, mut out) = (Vec::new(), BufWriter::new(io::stdout()));
    let read = io::stdin().read_to_end(&mut capture);
    let listed = list(&capture, &mut out);
    let written = out.flush().map_err(|_| "U5 write failed".into());
    let read = read.map_err(|_| "U4 read failed".into());
    if let Err(fault) = listed.and(written).and(read.map(|_| ())) {
        eprintln!("show: {fault}");
        exit(3);
    }
}
