//! The C header and its examples: compiled, linked with the archive and run, if there is a C
//! compiler.

use std::path::{Path, PathBuf};
use std::process::{Command, Output};

/// What `collector.c` prints: the listing's answer, the run's and its memory, a refusal, two floats.
const COLLECTOR: &str = "0 0 48 3\n\
    0 0 48 8\n\
    01000100aaaaaaaaaaaaaaaaaaaaaaaa\n\
    0e000000070000000f0000005a000000\n\
    0a0000000a0000000a0000000a000000\n\
    3 5 0 0\n\
    1.5 0.25\n";

/// What `recording.c` prints: each image's answer and what it left, then those of a refused text.
const RECORDING: &str = "0 0 12 11: 01 aa aa aa 00 00 00 00 02 00 00 00\n\
    0 0 12 5: 00 aa aa aa 02 00 00 00 00 00 00 00\n\
    13 51 12 20: 01 aa aa aa 04 00 00 00 05 00 00 00\n\
    3 14 0 0: 01 aa aa aa 00 00 00 00 02 00 00 00\n\
    3 14 0 0: 00 aa aa aa 02 00 00 00 00 00 00 00\n";

/// A C compiler: `$CC`, or the first of the usual names that answers.
fn compiler() -> Option<String> {
    let chosen = std::env::var("CC").ok();
    let usual = ["cc", "gcc", "clang"].map(String::from);
    chosen.into_iter().chain(usual).find(|name| {
        let answer = Command::new(name).arg("--version").output();
        answer.map_or(false, |output| output.status.success())
    })
}

/// The command that starts a program for x86-64: through an emulator where the environment names
/// one.
fn start(program: &Path) -> Command {
    let emulator = std::env::var("EMULATOR").unwrap_or_default();
    let mut words = emulator.split_whitespace();
    match words.next() {
        Some(first) => {
            let mut command = Command::new(first);
            command.args(words).arg(program);
            command
        }
        None => Command::new(program),
    }
}

/// Fails with what the command said, unless it succeeded.
fn check(what: &str, output: &Output) {
    let said = String::from_utf8_lossy(&output.stderr);
    assert!(output.status.success(), "{what}: {}\n{said}", output.status);
}

/// Compiles this example with every warning an error, links it with the archive and runs it; gives
/// what it prints. None where there is no C compiler.
fn printed(example: &str) -> Option<String> {
    let compiler = match compiler() {
        Some(compiler) => compiler,
        None => {
            eprintln!("no C compiler here: the C example {example} is not tried");
            return None;
        }
    };
    let here = Path::new(env!("CARGO_MANIFEST_DIR"));
    let program = PathBuf::from(env!("CARGO_TARGET_TMPDIR")).join(example);
    let compiled = Command::new(&compiler)
        .args([
            "-std=c99",
            "-Wall",
            "-Wextra",
            "-pedantic",
            "-Werror",
            "-O1",
        ])
        .arg("-I")
        .arg(here.join("include"))
        .arg(here.join("examples").join(example).with_extension("c"))
        .arg(env!("RUIHMENTO_ARCHIVE"))
        .arg("-o")
        .arg(&program)
        .output()
        .expect("the compiler starts");
    check("compiling the C example", &compiled);
    let ran = start(&program).output().expect("the example starts");
    check("running the C example", &ran);
    Some(String::from_utf8_lossy(&ran.stdout).into_owned())
}

#[test]
fn the_c_collector_prints_its_output() {
    if let Some(printed) = printed("collector") {
        assert_eq!(printed, COLLECTOR);
    }
}

#[test]
fn the_c_recording_prints_its_output() {
    if let Some(printed) = printed("recording") {
        assert_eq!(printed, RECORDING);
    }
}
