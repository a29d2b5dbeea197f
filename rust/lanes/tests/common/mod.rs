//! Running the program, for its tests.

use std::io::Write;
use std::path::PathBuf;
use std::process::{Command, Output, Stdio};

/// The folder with the routines, the memories and the outputs.
pub fn folder() -> PathBuf {
    PathBuf::from(env!("CARGO_MANIFEST_DIR")).join("tests/golden")
}

/// The words that start the program: through an emulator where the environment names one, since
/// it is built for x86-64.
pub fn program() -> Vec<String> {
    let emulator = std::env::var("EMULATOR").unwrap_or_default();
    let words = emulator.split_whitespace().map(String::from);
    let lanes = env!("CARGO_BIN_EXE_lanes").to_string();
    words.chain([lanes]).collect()
}

/// The program with these arguments, in that folder.
pub fn command(arguments: &[&str]) -> Command {
    let program = program();
    let mut command = Command::new(&program[0]);
    command.args(&program[1..]);
    command.args(arguments).current_dir(folder());
    command.env_remove("COLUMNS");
    command
}

/// Runs the program.
#[allow(dead_code)]
pub fn lanes(arguments: &[&str]) -> Output {
    command(arguments).output().expect("lanes starts")
}

/// Runs the program with this as standard input.
#[allow(dead_code)]
pub fn lanes_with(arguments: &[&str], input: &[u8]) -> Output {
    let mut command = command(arguments);
    command.stdin(Stdio::piped());
    command.stdout(Stdio::piped()).stderr(Stdio::piped());
    let mut program = command.spawn().expect("lanes starts");
    let mut stdin = program.stdin.take().expect("the input is a pipe");
    // The program may not read to the end.
    let _ = stdin.write_all(input);
    drop(stdin);
    program.wait_with_output().expect("lanes ends")
}

/// A file for one test.
#[allow(dead_code)]
pub fn file(name: &str, bytes: &[u8]) -> String {
    let path = PathBuf::from(env!("CARGO_TARGET_TMPDIR")).join(name);
    std::fs::write(&path, bytes).expect("the file can be written");
    path.to_str().expect("the path is UTF-8").into()
}
