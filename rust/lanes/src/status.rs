//! How the program ends: exit statuses, and failures that are no answer of the engine.

use crate::escape;
use ruihmento::{Answer, Refusal};
use std::io::ErrorKind;
use std::path::{Path, PathBuf};

/// The exit statuses. Those above 3 are the customary ones of `sysexits.h`.
#[derive(Clone, Copy, Debug, PartialEq, Eq)]
#[repr(u8)]
pub enum Status {
    /// Accepted, or the run ended, or all blocks agree.
    Ended = 0,
    /// The text is refused (codes 1 to 11), or a block differs.
    Refused = 1,
    /// The memory is shorter than the text needs: code 12.
    MemoryTooShort = 2,
    /// The budget is spent: code 13.
    BudgetSpent = 3,
    /// The arguments do not fit the usage.
    Usage = 64,
    /// The samples do not fit the routine, or their file is damaged.
    Samples = 65,
    /// A file cannot be read.
    Unreadable = 66,
    /// The proved engine and the independent one disagree.
    Disagreement = 70,
    /// A file cannot be written.
    Unwritable = 73,
    /// The output cannot be written.
    Output = 74,
}

impl Status {
    /// The status of an answer.
    pub fn of(answer: Answer) -> Status {
        match answer.refusal() {
            None => Status::Ended,
            Some(Refusal::MemoryTooShort) => Status::MemoryTooShort,
            Some(Refusal::BudgetSpent) => Status::BudgetSpent,
            Some(_) => Status::Refused,
        }
    }
}

/// What kept the program from an answer.
#[derive(Debug)]
pub enum Failure {
    /// The arguments do not fit; why.
    Usage(String),
    /// The samples do not fit; why.
    Samples(String),
    /// This file cannot be read.
    Unreadable(PathBuf, std::io::Error),
    /// This file cannot be written.
    Unwritable(PathBuf, std::io::Error),
    /// The two engines differ after so many steps; how.
    Disagreement(u32, String),
    /// Standard output cannot be written.
    Output(std::io::Error),
}

impl Failure {
    /// This file could not be read.
    pub fn reading(path: &Path) -> impl FnOnce(std::io::Error) -> Failure {
        let path = path.to_path_buf();
        |error| Failure::Unreadable(path, error)
    }

    /// This file could not be written.
    pub fn writing(path: &Path) -> impl FnOnce(std::io::Error) -> Failure {
        let path = path.to_path_buf();
        |error| match error.kind() {
            ErrorKind::BrokenPipe => Failure::Output(error),
            _ => Failure::Unwritable(path, error),
        }
    }

    /// The exit status; a reader of the output that has gone away is no failure.
    pub fn status(&self) -> Status {
        match self {
            Failure::Usage(_) => Status::Usage,
            Failure::Samples(_) => Status::Samples,
            Failure::Unreadable(..) => Status::Unreadable,
            Failure::Unwritable(..) => Status::Unwritable,
            Failure::Disagreement(..) => Status::Disagreement,
            Failure::Output(error) if error.kind() == ErrorKind::BrokenPipe => Status::Ended,
            Failure::Output(_) => Status::Output,
        }
    }

    /// What happened, in words; none where nobody reads any more.
    pub fn told(&self) -> Option<String> {
        let told = match self {
            Failure::Usage(why) => format!("{}\nTry `lanes --help`.", one_line(why)),
            Failure::Samples(why) => one_line(why),
            Failure::Unreadable(path, error) => {
                format!("cannot read {}: {error}", escape::path(path))
            }
            Failure::Unwritable(path, error) => {
                format!("cannot write {}: {error}", escape::path(path))
            }
            Failure::Disagreement(steps, how) => format!(
                "after {steps} steps the proved engine and the independent implementation \
                 disagree; please report this with the two files\n{how}"
            ),
            Failure::Output(error) if error.kind() == ErrorKind::BrokenPipe => return None,
            Failure::Output(error) => format!("cannot write the output: {error}"),
        };
        Some(format!("lanes: {told}"))
    }
}

/// Words of the command line as they are shown.
fn one_line(why: &str) -> String {
    escape::text(why.as_bytes())
}

impl From<std::io::Error> for Failure {
    fn from(error: std::io::Error) -> Self {
        Failure::Output(error)
    }
}
