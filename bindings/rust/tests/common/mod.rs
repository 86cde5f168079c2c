//! The program, and the texts of decoders.
//!
//! The program is that of `DCC_PROGRAM`, otherwise that of a release or of this repository.
#![allow(dead_code)]
use dcc::{Address, Board, Cvs, Frame, Loco, Speed};
use std::io::Write as _;
use std::path::{Path, PathBuf};
use std::process::{Command, Output, Stdio};
use std::thread;

pub fn top() -> PathBuf {
    Path::new(env!("CARGO_MANIFEST_DIR")).join("../..")
}

/// What a program does for this input.
pub fn output(command: &mut Command, input: &[u8]) -> Output {
    let mut child = command
        .stdin(Stdio::piped())
        .stdout(Stdio::piped())
        .stderr(Stdio::piped())
        .spawn()
        .expect("the program is there");
    let mut stdin = child.stdin.take().unwrap();
    let input = input.to_owned();
    let feeding = thread::spawn(move || stdin.write_all(&input));
    let output = child.wait_with_output().unwrap();
    // (a program that refuses its input need not read it to its end)
    let fed = feeding.join().unwrap();
    assert!(fed.is_ok() || !output.status.success());
    output
}

/// What a program writes for this input.
pub fn written(command: &mut Command, input: &str) -> String {
    let output = output(command, input.as_bytes());
    assert!(output.status.success(), "{command:?}: {output:?}");
    String::from_utf8(output.stdout).unwrap()
}

pub fn program() -> PathBuf {
    if let Some(path) = std::env::var_os("DCC_PROGRAM") {
        return path.into();
    }
    let places = ["bin/x86_64-unknown-linux-gnu/dcc", "crates/dcc/out/dcc"].map(|it| top().join(it));
    let found = places.iter().find(|it| it.is_file());
    found.expect("no program dcc: name one in DCC_PROGRAM").clone()
}

pub fn dcc(words: &[&str], input: &str) -> String {
    written(Command::new(program()).args(words), input)
}

/// The lines of 10,000 random packets.
pub fn random_lines() -> String {
    let lines = written(
        Command::new("awk")
            .arg("-f")
            .arg(top().join("tools/random-packets.awk")),
        "",
    );
    assert!(lines.lines().count() > 10_000);
    lines
}

/// The lines of bindings/each_register.txt.
pub fn rows() -> Vec<String> {
    let text = std::fs::read_to_string(top().join("bindings/each_register.txt")).unwrap();
    let lines = text.lines().filter(|it| !it.starts_with('#'));
    lines.map(str::to_owned).collect()
}

pub fn frame(line: &str) -> Frame {
    line.parse().unwrap()
}

pub fn bit(one: bool) -> u8 {
    one.into()
}

pub fn on(is_on: bool) -> &'static str {
    if is_on {
        "on"
    } else {
        "off"
    }
}

pub fn side(forward: bool) -> char {
    if forward {
        'f'
    } else {
        'r'
    }
}

pub fn name(address: &Address) -> String {
    match address {
        Address::All => "all".into(),
        Address::Short(number) => format!("s{number}"),
        Address::Long(number) => format!("l{number}"),
    }
}

/// The numbers of those that are on.
fn numbers(head: &str, count: u8, is_on: impl Fn(u8) -> bool) -> String {
    let words: String = (0..count)
        .filter(|it| is_on(*it))
        .map(|it| format!(" {it}"))
        .collect();
    format!("{head}{words}\n")
}

pub fn hex(frame: Option<Frame>) -> String {
    frame.map_or("none".into(), |it| format!("{it:x}"))
}

/// The lines of a locomotive in a decoder text.
pub fn loco_text(loco: &Loco) -> String {
    let address = loco.address().map_or("none".into(), |it| name(&it));
    let speed = match loco.speed() {
        Speed::Stop => "stop".into(),
        Speed::Emergency => "emergency".into(),
        Speed::Step { step, of } => format!("{of} {step}"),
    };
    let mut text = format!(
        "loco {address}\nspeed {speed} {}\n",
        side(loco.is_forward())
    );
    text += &numbers("on", 69, |n| loco.function(n));
    text += &numbers("states", 128, |n| loco.state(n));
    text += &format!("pending {}\n", hex(loco.pending()));
    for (at, value) in loco.cvs().iter().enumerate() {
        if *value > 0 {
            text += &format!("cv {} {value}\n", at + 1);
        }
    }
    text
}

/// The lines of a board in a decoder text.
pub fn board_text(board: &Board) -> String {
    let positions: String = board.positions().map(|it| format!(" {}", bit(it))).concat();
    let aspects: String = board.aspects().map(|it| format!(" {it}")).concat();
    let outs = numbers("out", 8, |n| board.output(n));
    format!(
        "board {}\n{outs}position{positions}\naspect{aspects}\n",
        board.number()
    )
}

pub fn cvs(values: &[(usize, u8)]) -> Cvs {
    let mut cvs = [0; 1024];
    values.iter().for_each(|(cv, value)| cvs[cv - 1] = *value);
    cvs
}

/// The decoders of bindings/each_register.txt.
#[derive(Clone)]
pub struct Fleet {
    pub locos: Vec<Loco>,
    pub boards: Vec<Board>,
}

impl Fleet {
    pub fn new() -> Fleet {
        let locos: [&[(usize, u8)]; 4] = [
            &[(1, 3), (29, 2)],
            &[(17, 0xC3), (18, 0xE8), (29, 0x22)],
            &[(1, 3), (29, 0)],
            &[],
        ];
        Fleet {
            locos: locos.iter().map(|it| Loco::new(&cvs(it))).collect(),
            boards: [12, 0, 510]
                .iter()
                .map(|it| Board::new(*it).unwrap())
                .collect(),
        }
    }

    pub fn apply(&mut self, frame: &Frame) {
        self.locos.iter_mut().for_each(|it| it.apply(frame));
        self.boards.iter_mut().for_each(|it| it.apply(frame));
    }

    /// Whether each decoder hears a packet.
    pub fn hears(&self, frame: &Frame) -> Vec<bool> {
        let locos = self.locos.iter().map(|it| it.hears(frame));
        locos
            .chain(self.boards.iter().map(|it| it.hears(frame)))
            .collect()
    }

    /// Whether the packet of a line is for each decoder, by the line.
    pub fn is_for(&self, line: &str) -> Vec<bool> {
        let locos = self.locos.iter().map(|it| is_for_loco(it, line));
        locos
            .chain(self.boards.iter().map(|it| is_for_board(it, line)))
            .collect()
    }

    /// The lines of each decoder.
    pub fn texts(&self) -> Vec<String> {
        let locos = self.locos.iter().map(loco_text);
        locos.chain(self.boards.iter().map(board_text)).collect()
    }

    /// The lines of each decoder after the program has played these packets to it.
    pub fn run(&self, packets: &str) -> Vec<String> {
        let text = format!("dcc-decoders 2\n{}end\n", self.texts().concat());
        let text = dcc(&["run"], &(text + &dcc(&["encode"], packets)));
        let mut texts: Vec<String> = Vec::new();
        for line in text.lines().skip(1).filter(|it| *it != "end") {
            if line.starts_with("loco") || line.starts_with("board") {
                texts.push(String::new());
            }
            *texts.last_mut().unwrap() += &format!("{line}\n");
        }
        texts
    }
}

fn is_for_loco(loco: &Loco, line: &str) -> bool {
    let words: Vec<&str> = line.split(' ').collect();
    let own = loco.address().map(|it| name(&it));
    match words[0] {
        "loco" => words[1] == "all" || Some(words[1].to_owned()) == own,
        "frame" => {
            let bytes = frame(line).bytes().to_vec();
            let long = (u16::from(bytes[0]) << 8 | u16::from(bytes[1])) & 0x3FFF;
            match bytes[0] {
                0 => true,
                1..=127 => own == Some(format!("s{}", bytes[0])),
                192..=231 => own == Some(format!("l{long}")),
                _ => false,
            }
        }
        _ => false,
    }
}

fn is_for_board(board: &Board, line: &str) -> bool {
    let words: Vec<&str> = line.split(' ').collect();
    let number: u16 = words.get(1).and_then(|it| it.parse().ok()).unwrap_or(9999);
    match words[0] {
        "accessory" => number == board.number() || number == 511,
        "signal" => number / 4 == board.number() || number == 2047,
        _ => line == "loco all reset",
    }
}
