//! Judges, runs, traces and compares lane routines at the command line.
#![forbid(unsafe_code)]
#![warn(missing_docs)]

mod arguments;
mod blocks;
mod compare;
mod csv;
mod escape;
mod files;
mod help;
mod hints;
mod json;
mod listing;
mod near;
mod options;
mod outcome;
mod routine;
mod run;
mod samples;
mod source;
mod status;
mod steps;
mod syntax;
mod terminal;
mod trace;
mod values;
mod verdict;

use arguments::Command;
use outcome::{Outcome, Streams};
use routine::Routine;
use status::{Failure, Status};
use std::ffi::OsString;
use std::io::{BufWriter, Write};
use std::process::ExitCode;

fn main() -> ExitCode {
    let arguments: Vec<OsString> = std::env::args_os().skip(1).collect();
    let mut out = BufWriter::new(std::io::stdout().lock());
    let mut err = std::io::stderr().lock();
    let done = perform(
        &arguments,
        &mut Streams {
            out: &mut out,
            err: &mut err,
        },
    );
    let flushed = out.flush().map_err(Failure::from);
    let status = match done.and_then(|status| flushed.map(|()| status)) {
        Ok(status) => status,
        Err(failure) => {
            // Where even standard error is closed there is nobody to tell.
            let _ = match failure.told() {
                Some(told) => writeln!(err, "{told}"),
                None => Ok(()),
            };
            failure.status()
        }
    };
    ExitCode::from(status as u8)
}

/// Does what the arguments ask for.
fn perform(arguments: &[OsString], to: &mut Streams) -> Result<Status, Failure> {
    match arguments::read(arguments)? {
        Command::Help => {
            write!(to.out, "{}", help::HELP)?;
            Ok(Status::Ended)
        }
        Command::Version => {
            writeln!(to.out, "lanes {}", env!("CARGO_PKG_VERSION"))?;
            Ok(Status::Ended)
        }
        Command::Judge(file, format) => {
            let routine = Routine::read(&file)?;
            Outcome::judged(&routine).show(format, to)
        }
        Command::Template(file, all, rows) => run::template(&file, all, rows, to),
        Command::Run(start, results) => run::run(&start, &results, to),
        Command::Trace(start, view) => trace::trace(&start, &view, to),
        Command::Compare(comparison) => compare::compare(&comparison, to),
    }
}
