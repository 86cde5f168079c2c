//! What the build script does, and what the crate needs.
#[allow(dead_code)]
#[path = "../build.rs"]
mod build;

use std::path::{Path, PathBuf};
use std::process::Command;
use std::{env, fs};

#[test]
fn a_target_has_a_folder_in_a_release_and_one_in_the_repository() {
    let top = Path::new("/top");
    env::remove_var("DCC_LIB");
    for (target, release, out) in [
        ("x86_64-unknown-linux-gnu", "x86_64-unknown-linux-gnu", ""),
        ("x86_64-unknown-linux-musl", "x86_64-unknown-linux-gnu", ""),
        (
            "aarch64-unknown-linux-gnu",
            "aarch64-unknown-linux-gnu",
            "aarch64-unknown-linux-gnu",
        ),
        (
            "aarch64-unknown-linux-musl",
            "aarch64-unknown-linux-gnu",
            "aarch64-unknown-linux-gnu",
        ),
        ("thumbv6m-none-eabi", "cortex-m0plus", "cortex-m0plus"),
        ("thumbv7m-none-eabi", "cortex-m3", "cortex-m3"),
        ("thumbv7em-none-eabi", "cortex-m4", "cortex-m4"),
        ("riscv32imac-unknown-none-elf", "rv32imac", "rv32imac"),
    ] {
        let wanted = [
            format!("/top/lib/{release}").into(),
            PathBuf::from(format!("/top/crates/dcc_c/out/{out}")),
        ];
        assert_eq!(build::places(top, target), wanted, "{target}");
    }
    assert!(build::places(top, "thumbv8m.main-none-eabi").is_empty());
    let sources = ["/top/c/dcc.c", "/top/crates/dcc_c/out/c/dcc.c"].map(PathBuf::from);
    assert_eq!(build::sources(top), sources);

    env::set_var("DCC_LIB", "/named");
    for target in ["x86_64-unknown-linux-gnu", "thumbv8m.main-none-eabi"] {
        assert_eq!(build::places(top, target), [PathBuf::from("/named")]);
    }
    assert!(build::sources(top).is_empty());
}

#[test]
fn a_shared_library_can_have_the_one_c_file() {
    let words = ["-std=c99", "-O2", "-ffunction-sections", "-fdata-sections"];
    for target in ["x86_64-unknown-linux-gnu", "aarch64-apple-darwin"] {
        assert_eq!(build::words(target), [&words[..], &["-fPIC"]].concat());
    }
    for target in ["thumbv8m.main-none-eabi", "x86_64-pc-windows-gnu"] {
        assert_eq!(build::words(target), words);
    }
}

#[test]
fn the_one_c_file_is_compiled_for_its_processor() {
    for (target, prefix, own) in [
        ("thumbv6m-none-eabi", "arm-none-eabi-", ["-mthumb", "-mcpu=cortex-m0plus"]),
        ("thumbv7m-none-eabi", "arm-none-eabi-", ["-mthumb", "-mcpu=cortex-m3"]),
        ("thumbv7em-none-eabi", "arm-none-eabi-", ["-mthumb", "-mcpu=cortex-m4"]),
        (
            "riscv32imac-unknown-none-elf",
            "riscv64-unknown-elf-",
            ["-march=rv32imac", "-mabi=ilp32"],
        ),
    ] {
        assert_eq!(build::prefix(target), Some(prefix), "{target}");
        let words = build::words(target);
        assert_eq!(words[words.len() - 2..], own, "{target}");
        assert!(!words.contains(&"-fPIC"));
    }
    for target in ["x86_64-unknown-linux-gnu", "aarch64-unknown-none", "avr-none"] {
        assert_eq!(build::prefix(target), None, "{target}");
    }
}

#[test]
fn cargo_links_the_library_again_if_it_changes() {
    let wanted = [
        "cargo:rerun-if-changed=/folder/dcc.c",
        "cargo:rustc-link-search=native=/out",
        "cargo:rustc-link-lib=static=dcc_c",
        "cargo:rustc-env=DCC_FOLDER=/out",
    ];
    assert_eq!(
        build::lines(Path::new("/folder/dcc.c"), Path::new("/out")),
        wanted
    );
}

/// What rustc writes.
fn rustc(words: &[&str]) -> String {
    let done = Command::new("rustc").args(words).output().unwrap();
    // (the lines of rustc would look like an error of this file)
    let said = String::from_utf8_lossy(&done.stderr).replace('\n', " ");
    assert!(done.status.success(), "rustc {words:?}: {said}");
    String::from_utf8(done.stdout).unwrap().trim().into()
}

/// A program without `std` that calls the functions of an interrupt. Its panic handler has no body, so the program is
/// linked only if no call can panic.
const WITHOUT_PANIC: &str = r#"
#![no_std]
#![no_main]
use core::ptr::addr_of_mut;
use dcc::{Frame, Framer, Functions, LostFinder, Meter, Seen, Station, Timing, TrackBoard, TrackLoco};

extern "C" { fn this_call_can_panic() -> !; }

#[panic_handler]
fn panic(_: &core::panic::PanicInfo) -> ! { unsafe { this_call_can_panic() } }

static mut FRAMER: Framer = Framer::new();
static mut FINDER: LostFinder = LostFinder::new();
static mut METER: Meter = Meter::new();
static mut STATION: Station = Station::zeroed();
static mut FUNCTIONS: Functions = Functions::new();
static mut LOCO: TrackLoco = TrackLoco::zeroed();
static mut BOARD: TrackBoard = TrackBoard::zeroed();
const IDLE: Result<Frame, dcc::FrameFault> = Frame::new(&[0xff, 0, 0xff]);

fn sum(frame: &Frame) -> u16 {
    frame.bytes().iter().map(|it| u16::from(*it)).fold(frame.bytes().len() as u16, u16::wrapping_add)
}

#[no_mangle]
pub unsafe extern "C" fn main(us: i32, _: *const *const u8) -> i32 {
    let (framer, finder, meter) = (&mut *addr_of_mut!(FRAMER), &mut *addr_of_mut!(FINDER), &mut *addr_of_mut!(METER));
    let (station, functions) = (&mut *addr_of_mut!(STATION), &mut *addr_of_mut!(FUNCTIONS));
    let (loco, board) = (&mut *addr_of_mut!(LOCO), &mut *addr_of_mut!(BOARD));
    let us = us as u16;
    let mut total = match framer.push(us) {
        Some(Seen::Packet(frame)) => sum(&frame),
        Some(Seen::Refused(dcc::Refusal::ErrorByte { len, bytes })) => u16::from(bytes[0]) + u16::from(len),
        _ => 0,
    };
    total ^= framer.push_run(us, 9).map_or(0, |it| it.0 as u16);
    total ^= framer.push_many(&[us, us]).0 as u16;
    total ^= finder.push(us).map_or(0, |it| sum(&it.frame));
    total ^= meter.push(us).is_ok() as u16 + meter.statistics().packets as u16;
    total ^= station.start(8, 16, 2) as u16 + u16::from(station.stop()) + sum(&station.send_next());
    total ^= functions.is_on(us as u8) as u16;
    if let Ok(frame) = IDLE {
        total ^= station.command(&frame).is_ok() as u16;
        total ^= frame.halves(&Timing::MAIN).fold(0, u16::wrapping_add);
        total ^= loco.hear(&frame).changed.unwrap_or(0) ^ board.hear(&frame).changed.unwrap_or(0);
    }
    total.into()
}
"#;

/// Makes a program of the crate, optimised with the crate. Returns what the linker says if it fails.
fn linked(name: &str, source: &str) -> Option<String> {
    let room = Path::new(env!("CARGO_TARGET_TMPDIR")).join(name);
    fs::create_dir_all(&room).unwrap();
    fs::write(room.join("main.rs"), source).unwrap();
    let (room, crate_) = (room.to_str().unwrap(), concat!(env!("CARGO_MANIFEST_DIR"), "/src/lib.rs"));
    let words = "--edition=2021 -O -C panic=abort --crate-name=dcc --crate-type=rlib";
    let mut words: Vec<_> = words.split(' ').collect();
    words.extend(["--out-dir", room, crate_]);
    rustc(&words);
    let words = "--edition=2021 -O -C panic=abort -C lto=fat -C codegen-units=1 -l static=dcc_c -C link-arg=-lc";
    let done = Command::new("rustc")
        .args(words.split(' '))
        .args(["-L", env!("DCC_FOLDER"), "--extern"])
        .arg(format!("dcc={room}/libdcc.rlib"))
        .arg("-o")
        .arg(format!("{room}/main"))
        .arg(format!("{room}/main.rs"))
        .output()
        .unwrap();
    let said = String::from_utf8_lossy(&done.stderr).into_owned();
    (!done.status.success()).then_some(said)
}

#[test]
fn no_call_of_an_interrupt_can_panic() {
    let said = linked("without-panic", WITHOUT_PANIC);
    assert!(said.is_none(), "{}", said.unwrap().replace('\n', " "));
    // a program that can panic is not linked
    let place = "    let us = us as u16;";
    assert!(WITHOUT_PANIC.contains(place));
    let panics = WITHOUT_PANIC.replace(place, "    let us = [1, 2, 3][us as usize];");
    let said = linked("with-panic", &panics).unwrap_or_default();
    assert!(said.contains("this_call_can_panic"), "{}", said.replace('\n', " "));
}

/// The crate is compiled with the library `core` and without `std`.
#[test]
fn the_crate_needs_no_std() {
    let here = env!("CARGO_MANIFEST_DIR");
    let libraries = PathBuf::from(rustc(&["--print", "target-libdir"]));
    let target = libraries.parent().unwrap().file_name().unwrap();
    let room = Path::new(env!("CARGO_TARGET_TMPDIR")).join("no-std");
    let own = room.join("lib/rustlib").join(target).join("lib");
    fs::create_dir_all(&own).unwrap();
    for it in fs::read_dir(libraries).unwrap().map(Result::unwrap) {
        let name = it.file_name().into_string().unwrap();
        // (an older rustc has the third one too)
        let needed = ["core", "compiler_builtins", "rustc_std_workspace_core"];
        if needed.iter().any(|it| name.starts_with(&format!("lib{it}-"))) {
            fs::copy(it.path(), own.join(name)).unwrap();
        }
    }
    let words = "--crate-type=rlib --edition=2021 --crate-name=dcc --sysroot";
    let mut words: Vec<_> = words.split(' ').collect();
    let (room, source) = (room.to_str().unwrap(), format!("{here}/src/lib.rs"));
    words.extend([room, "--out-dir", room, &source]);
    rustc(&words);
}
