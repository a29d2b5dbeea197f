//! A longer run of generated cases on the archive and on the independent implementation.
#![forbid(unsafe_code)]

use against::{sweep, Tally};
use std::io::Write;
use std::os::unix::fs::FileTypeExt;
use std::process::ExitCode;
use std::time::{Instant, SystemTime, UNIX_EPOCH};

/// How the program is called.
const USAGE: &str = "usage: against [--cases COUNT] [--seed SEED] [--from INDEX]

Compares the archive with the independent implementation on COUNT generated
cases (1,000,000 unless given), from case INDEX of SEED on (0 of a seed by the
clock unless given), on every processor. A line on standard error shows the
progress. The first case that differs is made small and printed.

Exit status: 0 no difference, 1 a difference, 64 usage.";

/// What is asked for.
struct Wish {
    cases: u64,
    seed: u64,
    from: u64,
}

fn main() -> ExitCode {
    let arguments: Vec<String> = std::env::args().skip(1).collect();
    if arguments
        .iter()
        .any(|word| word == "--help" || word == "-h")
    {
        println!("{USAGE}");
        return ExitCode::SUCCESS;
    }
    let wish = match wish(&arguments) {
        Some(wish) => wish,
        None => {
            eprintln!("{USAGE}");
            return ExitCode::from(64);
        }
    };
    println!(
        "seed {}, cases {} to {}",
        wish.seed,
        wish.from,
        wish.from + wish.cases
    );
    let mut line = Line::new(wish.cases);
    let result = sweep(wish.seed, wish.from..wish.from + wish.cases, |done| {
        line.show(done);
    });
    line.clear();
    match result {
        Ok(tally) => {
            print(&tally, line.start);
            ExitCode::SUCCESS
        }
        Err(found) => {
            println!("{found}");
            ExitCode::FAILURE
        }
    }
}

/// Reads the arguments; none where they do not fit the usage.
fn wish(arguments: &[String]) -> Option<Wish> {
    let clock = SystemTime::now().duration_since(UNIX_EPOCH);
    let mut wish = Wish {
        cases: 1_000_000,
        seed: clock.map_or(1, |since| since.as_secs()),
        from: 0,
    };
    for option in arguments.chunks(2) {
        let (name, value) = match option {
            [name, value] => (name, value),
            _ => return None,
        };
        let number = value.parse().ok()?;
        match name.as_str() {
            "--cases" => wish.cases = number,
            "--seed" => wish.seed = number,
            "--from" => wish.from = number,
            _ => return None,
        }
    }
    wish.from.checked_add(wish.cases).map(|_| wish)
}

/// Says what was compared.
fn print(tally: &Tally, start: Instant) {
    let seconds = start.elapsed().as_secs_f64();
    let (cases, calls, images) = (tally.cases, tally.calls, tally.images);
    println!("no difference: {cases} cases, {calls} calls on each side, {seconds:.1} s");
    println!("  {images} images run by run_each");
    println!(
        "  {} texts accepted, {} of them with a block of more than 16 lanes, {} with floats",
        tally.accepted, tally.long, tally.floats
    );
    for (sort, count) in &tally.sorts {
        println!("  {sort:>12} {count:>9}");
    }
    for (code, count) in &tally.codes {
        println!("  {:>12} {count:>9}", format!("code {code}"));
    }
}

/// Whether standard error is a terminal, or another device that takes characters.
fn on_terminal() -> bool {
    let known = std::fs::metadata("/dev/stderr");
    known.map_or(false, |file| file.file_type().is_char_device())
}

/// The progress line: on a terminal it is written over, elsewhere now and then anew.
struct Line {
    all: u64,
    start: Instant,
    shown: Option<Instant>,
    terminal: bool,
}

impl Line {
    /// A line for so many cases.
    fn new(all: u64) -> Self {
        Line {
            all,
            start: Instant::now(),
            shown: None,
            terminal: on_terminal(),
        }
    }

    /// Shows that so many are done, unless it was shown just before.
    fn show(&mut self, done: u64) {
        let pause = if self.terminal { 0.2 } else { 10.0 };
        let before = self.shown.unwrap_or(self.start);
        if before.elapsed().as_secs_f64() < pause {
            return;
        }
        self.shown = Some(Instant::now());
        let seconds = self.start.elapsed().as_secs_f64();
        let rate = done as f64 / seconds;
        let left = (self.all - done) as f64 / rate.max(1.0);
        let percent = done * 100 / self.all.max(1);
        let line = format!(
            "{done} of {} cases ({percent} %), {rate:.0} a second, {left:.0} s left",
            self.all
        );
        let (begin, end) = if self.terminal {
            ("\r\x1b[K", "")
        } else {
            ("", "\n")
        };
        eprint!("{begin}{line}{end}");
        let _ = std::io::stderr().flush();
    }

    /// Takes the line off a terminal.
    fn clear(&self) {
        if self.terminal && self.shown.is_some() {
            eprint!("\r\x1b[K");
        }
    }
}
