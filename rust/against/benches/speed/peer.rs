//! The kernels in C and Lua: programs that run them when asked to, and say how long it took.

use crate::timing::Side;
use std::io::{BufRead, BufReader, Write};
use std::path::{Path, PathBuf};
use std::process::{Child, ChildStdin, ChildStdout, Command, Stdio};

/// The folder with the kernels' sources.
const SOURCES: &str = concat!(env!("CARGO_MANIFEST_DIR"), "/benches/peers");

/// The programs that may run the Lua kernels.
pub const LUAS: [(&str, &[&str]); 2] = [
    ("LuaJIT", &["luajit"]),
    ("Lua 5.4", &["lua5.4", "lua54", "lua"]),
];

/// A program that runs one kernel over blocks of one length.
pub struct Peer {
    child: Child,
    to: ChildStdin,
    from: BufReader<ChildStdout>,
    /// What it is asked for: to run, or to copy the block alone.
    ask: &'static str,
}

impl Peer {
    /// The kernel in C, compiled for blocks of this length; none where there is no C compiler.
    pub fn in_c(kernel: &str, lanes: usize) -> Option<Self> {
        let program = PathBuf::from(env!("CARGO_TARGET_TMPDIR")).join(format!("kernels_{lanes}"));
        let compiler = std::env::var("CC").unwrap_or_else(|_| "cc".into());
        let mut compile = Command::new(compiler);
        compile.args(["-std=gnu99", "-O3", "-Wall", "-Wextra", "-Werror"]);
        compile.arg(format!("-DLANES={lanes}"));
        compile.arg(Path::new(SOURCES).join("kernels.c"));
        compile.arg("-o").arg(&program);
        let compiled = compile.status().ok()?;
        assert!(compiled.success(), "the kernels in C compile");
        let emulator = std::env::var("EMULATOR").unwrap_or_default();
        let mut start = match emulator.as_str() {
            "" => Command::new(program),
            emulator => {
                let mut command = Command::new(emulator);
                command.arg(program);
                command
            }
        };
        start.arg(kernel);
        Peer::start(&mut start)
    }

    /// The kernel in Lua, by the first of these programs that is there and speaks this Lua.
    pub fn in_lua(lua: &str, names: &[&str], kernel: &str, lanes: usize) -> Option<Self> {
        let speaks = |name: &&&str| {
            let asked = Command::new(name).arg("-v").output();
            asked.map_or(false, |told| {
                let told = [told.stdout, told.stderr].concat();
                String::from_utf8_lossy(&told).starts_with(lua)
            })
        };
        let mut start = Command::new(names.iter().find(speaks)?);
        start.arg(Path::new(SOURCES).join("kernels.lua"));
        start.arg(kernel).arg(lanes.to_string());
        Peer::start(&mut start)
    }

    /// Starts a program that answers each line by a line.
    fn start(command: &mut Command) -> Option<Self> {
        let command = command.stdin(Stdio::piped()).stdout(Stdio::piped());
        let mut child = command.spawn().ok()?;
        let to = child.stdin.take()?;
        let from = BufReader::new(child.stdout.take()?);
        Some(Peer {
            child,
            to,
            from,
            ask: "run",
        })
    }

    /// Asks for this, and gives the answer.
    fn asked(&mut self, line: &str) -> String {
        let sent = writeln!(self.to, "{line}");
        sent.expect("the kernel's program takes a line");
        let mut answer = String::new();
        let read = self.from.read_line(&mut answer);
        read.expect("the kernel's program answers");
        answer.trim().to_string()
    }

    /// What one run leaves in the lanes of the two blocks that the kernel writes.
    pub fn left(&mut self) -> Vec<i32> {
        let answer = self.asked("left");
        let numbers = answer.split_whitespace().map(str::parse);
        numbers.map(|number| number.expect("a number")).collect()
    }

    /// Times only the copying of the block from now on, which is a part of every run.
    pub fn only_copies(&mut self) {
        self.ask = "copy";
    }
}

impl Side for Peer {
    fn seconds(&mut self, calls: u32) -> f64 {
        let answer = self.asked(&format!("{} {calls}", self.ask));
        answer.parse().expect("a number of seconds")
    }
}

impl Drop for Peer {
    fn drop(&mut self) {
        let _ = self.child.kill();
        let _ = self.child.wait();
    }
}
