//! Finds the library for C. `DCC_LIB` names the folder of `libdcc_c.a`, and `DCC_SOURCE` the file `dcc.c` to compile
//! in its place. Without them the script takes the archive of a release or of this repository. If the target has no
//! archive there, the script compiles `dcc.c`.
use std::env;
use std::path::{Path, PathBuf};
use std::process::Command;

/// The folders of a target in a release and below `crates/dcc_c/out`; `tools/c-for-mcu` makes those of
/// microcontrollers.
fn folders_of(target: &str) -> Option<(&'static str, &'static str)> {
    match target {
        "x86_64-unknown-linux-gnu" | "x86_64-unknown-linux-musl" => {
            Some(("x86_64-unknown-linux-gnu", ""))
        }
        "aarch64-unknown-linux-gnu" | "aarch64-unknown-linux-musl" => {
            Some(("aarch64-unknown-linux-gnu", "aarch64-unknown-linux-gnu"))
        }
        "thumbv6m-none-eabi" => Some(("cortex-m0plus", "cortex-m0plus")),
        "thumbv7m-none-eabi" => Some(("cortex-m3", "cortex-m3")),
        "thumbv7em-none-eabi" => Some(("cortex-m4", "cortex-m4")),
        "riscv32imac-unknown-none-elf" => Some(("rv32imac", "rv32imac")),
        _ => None,
    }
}

/// The folders in which the archive may be, the first one first.
pub fn places(top: &Path, target: &str) -> Vec<PathBuf> {
    if let Some(folder) = env::var_os("DCC_LIB") {
        return vec![folder.into()];
    }
    let of_target = |(release, out)| {
        vec![
            top.join("lib").join(release),
            top.join("crates/dcc_c/out").join(out),
        ]
    };
    folders_of(target).map_or(vec![], of_target)
}

/// The places of `dcc.c`, the first one first. None if `DCC_LIB` names a folder.
pub fn sources(top: &Path) -> Vec<PathBuf> {
    if env::var_os("DCC_LIB").is_some() {
        return vec![];
    }
    vec![top.join("c/dcc.c"), top.join("crates/dcc_c/out/c/dcc.c")]
}

/// A tool for the target: the one that a variable such as `CC_thumbv7m_none_eabi` names, else `native` on the target
/// itself, and `own` with its prefix for a microcontroller.
fn tool(variable: &str, native: &str, own: &str, target: &str) -> String {
    let of_target = format!("{variable}_{}", target.replace('-', "_"));
    for it in [of_target.as_str(), variable] {
        println!("cargo:rerun-if-env-changed={it}");
    }
    let is_native = env::var("HOST").map_or(false, |host| host == target);
    env::var(&of_target)
        .or_else(|_| env::var(variable))
        .or_else(|it| {
            let of_prefix = prefix(target).map(|it| format!("{it}{own}"));
            of_prefix.or(is_native.then(|| native.into())).ok_or(it)
        })
        .unwrap_or_else(|_| panic!("no C compiler for {target}: name it in {of_target}"))
}

fn run(command: &mut Command) {
    let done = command.status();
    assert!(
        done.map_or(false, |it| it.success()),
        "this command fails: {command:?}"
    );
}

/// The words for the compiler of `dcc.c`: for its processor, and on a desktop for code that can go into a shared
/// library.
pub fn words(target: &str) -> Vec<&'static str> {
    let mut words = vec!["-std=c99", "-O2", "-ffunction-sections", "-fdata-sections"];
    words.extend(match target {
        "thumbv6m-none-eabi" => vec!["-mthumb", "-mcpu=cortex-m0plus"],
        "thumbv7m-none-eabi" => vec!["-mthumb", "-mcpu=cortex-m3"],
        "thumbv7em-none-eabi" => vec!["-mthumb", "-mcpu=cortex-m4"],
        "riscv32imac-unknown-none-elf" => vec!["-march=rv32imac", "-mabi=ilp32"],
        _ if target.contains("-none") || target.contains("windows") => vec![],
        _ => vec!["-fPIC"],
    });
    words
}

/// What the names of Debian's compiler and archiver for a microcontroller begin with.
pub fn prefix(target: &str) -> Option<&'static str> {
    match target {
        _ if target.starts_with("thumb") && target.contains("-none-eabi") => Some("arm-none-eabi-"),
        _ if target.starts_with("riscv32") && target.contains("-none") => {
            Some("riscv64-unknown-elf-")
        }
        _ => None,
    }
}

/// The lines that tell cargo to link an archive in a folder, and to do so again if the file of the library changes.
/// `DCC_FOLDER` is for the tests.
pub fn lines(file: &Path, folder: &Path) -> [String; 4] {
    [
        format!("cargo:rerun-if-changed={}", file.display()),
        format!("cargo:rustc-link-search=native={}", folder.display()),
        "cargo:rustc-link-lib=static=dcc_c".into(),
        format!("cargo:rustc-env=DCC_FOLDER={}", folder.display()),
    ]
}

/// Compiles `dcc.c` to an archive in a folder of cargo.
fn compile(source: &Path, top: &Path, target: &str) -> PathBuf {
    let folder = PathBuf::from(env::var_os("OUT_DIR").expect("cargo tells the folder"));
    let (object, archive) = (folder.join("dcc.o"), folder.join("libdcc_c.a"));
    let _ = std::fs::remove_file(&archive);
    run(Command::new(tool("CC", "cc", "gcc", target))
        .args(words(target))
        .arg("-I")
        .arg(top.join("include"))
        .arg("-c")
        .arg(source)
        .arg("-o")
        .arg(&object));
    run(Command::new(tool("AR", "ar", "ar", target))
        .arg("rcs")
        .arg(&archive)
        .arg(&object));
    folder
}

fn main() {
    let target = env::var("TARGET").expect("cargo tells the target");
    let here = PathBuf::from(env::var_os("CARGO_MANIFEST_DIR").expect("cargo tells the folder"));
    let top = here.join("../..");
    println!("cargo:rerun-if-env-changed=DCC_LIB");
    println!("cargo:rerun-if-env-changed=DCC_SOURCE");
    let source = env::var_os("DCC_SOURCE").map(PathBuf::from);
    let archive = places(&top, &target)
        .into_iter()
        .find(|it| it.join("libdcc_c.a").is_file());
    let (of, folder) = match (source, archive) {
        (Some(source), _) => (source.clone(), compile(&source, &top, &target)),
        (None, Some(folder)) => (folder.join("libdcc_c.a"), folder),
        (None, None) => match sources(&top).into_iter().find(|it| it.is_file()) {
            Some(source) => (source.clone(), compile(&source, &top, &target)),
            None => panic!(
                "no libdcc_c.a for {target} and no dcc.c: name one in DCC_LIB or DCC_SOURCE, or make it (docs/C.md)"
            ),
        },
    };
    for line in lines(&of, &folder) {
        println!("{line}");
    }
}
