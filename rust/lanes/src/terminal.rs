//! Whether somebody looks, and how wide the terminal is.

use std::fs::File;
use std::process::{Command, Stdio};

/// The width where nothing is known of a terminal.
const WIDTH: usize = 100;

/// Whether standard output (1) or standard error (2) is a terminal.
pub fn is_terminal(stream: u32) -> bool {
    let target = std::fs::read_link(format!("/proc/self/fd/{stream}"));
    let target = target.unwrap_or_default();
    let target = target.to_string_lossy();
    ["/dev/pts/", "/dev/tty", "/dev/console"]
        .iter()
        .any(|start| target.starts_with(start))
}

/// How many columns to use: as asked for, as the environment says, as the terminal has.
pub fn width(asked: Option<u32>) -> usize {
    let asked = asked.map(|asked| asked as usize);
    let columns = || std::env::var("COLUMNS").ok()?.parse().ok();
    let known = asked.or_else(columns).or_else(terminal_width);
    known.unwrap_or(WIDTH).max(20)
}

/// What the terminal itself says; none where the output goes elsewhere.
fn terminal_width() -> Option<usize> {
    if !is_terminal(1) {
        return None;
    }
    let terminal = File::open("/dev/tty").ok()?;
    let mut command = Command::new("stty");
    let command = command.arg("size").stdin(terminal).stderr(Stdio::null());
    let size = command.output().ok()?.stdout;
    let size = String::from_utf8(size).ok()?;
    size.split_whitespace().nth(1)?.parse().ok()
}
