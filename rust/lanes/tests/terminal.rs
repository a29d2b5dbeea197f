//! On a terminal: the trace is as wide as it is. The terminal is made by the program `script`;
//! where there is none, the test says so and ends.

mod common;

use common::{command, folder, program};
use std::process::{Command, Stdio};

/// What the program shows on a terminal of so many columns; none where none can be made.
fn on_terminal(columns: u32, arguments: &str) -> Option<String> {
    let command = format!("stty cols {columns} && {} {arguments}", program().join(" "));
    let mut script = Command::new("script");
    let script = script.args(["-qec", &command, "/dev/null"]);
    let script = script.current_dir(folder()).env_remove("COLUMNS");
    match script.stdin(Stdio::null()).output() {
        Ok(output) => Some(String::from_utf8_lossy(&output.stdout).into_owned()),
        Err(_) => {
            eprintln!("skipped: there is no `script` to make a terminal");
            None
        }
    }
}

#[test]
fn a_trace_is_as_wide_as_the_terminal() {
    as_wide_as_asked(
        "trace routine.txt memory.bin --watch s --watch ok",
        [64, 100],
    );
}

#[test]
fn sixty_four_lanes_are_as_wide_as_the_terminal() {
    as_wide_as_asked("trace card.txt --csv card.csv", [80, 120]);
    as_wide_as_asked("run card.txt --csv card.csv", [80, 120]);
}

/// On terminals of so many columns the program shows what it shows where that width is asked for,
/// and no line is longer.
fn as_wide_as_asked(arguments: &str, widths: [u32; 2]) {
    for columns in widths {
        let shown = match on_terminal(columns, arguments) {
            Some(shown) => shown.replace('\r', ""),
            None => return,
        };
        let words: Vec<&str> = arguments.split_whitespace().collect();
        let width = columns.to_string();
        let expected = command(&words).args(["--width", &width]).output();
        let expected = expected.expect("lanes starts").stdout;
        assert_eq!(shown, String::from_utf8_lossy(&expected), "{columns}");
        assert!(shown.lines().all(|line| line.len() <= columns as usize));
    }
}
