//! Options and other words of a command line.

use crate::near::nearest;
use crate::status::Failure;
use std::ffi::{OsStr, OsString};
use std::os::unix::ffi::OsStrExt;
use std::path::PathBuf;

/// The options that stand alone, with the name under which they are known.
const FLAGS: [(&str, &str); 7] = [
    ("--json", "--json"),
    ("--all", "--all"),
    ("--rows", "--rows"),
    ("--help", "--help"),
    ("-h", "--help"),
    ("--version", "--version"),
    ("-V", "--version"),
];

/// The options that take a value, and what it is.
const VALUES: [(&str, &str); 15] = [
    ("--budget", NUMBER),
    ("--from", NUMBER),
    ("--to", NUMBER),
    ("--block", NUMBER),
    ("--stride", NUMBER),
    ("--lane", NUMBER),
    ("--width", NUMBER),
    ("--show", NUMBER),
    ("--out", FILE),
    ("--csv", FILE),
    ("--csv-out", FILE),
    ("--blocks", FILE),
    ("--html", FILE),
    ("--set", "NAME=VALUE,VALUE and so on"),
    ("--watch", "a variable's name"),
];

/// A value that is a number.
const NUMBER: &str = "a number from 0 to 4294967295";

/// A value that is a file.
const FILE: &str = "a file";

/// The options and the other words of a command line.
#[derive(Debug, Default)]
pub struct Options<'a> {
    /// The words that are no options.
    pub plain: Vec<&'a OsStr>,
    given: Vec<(&'static str, &'a OsStr)>,
}

/// Tells options from other words.
pub fn read(arguments: &[OsString]) -> Result<Options<'_>, Failure> {
    let mut options = Options::default();
    let mut rest = arguments.iter().map(OsString::as_os_str);
    while let Some(word) = rest.next() {
        if word == "--" {
            options.plain.extend(rest.by_ref());
        } else if word.len() > 1 && word.as_bytes()[0] == b'-' {
            let (name, value) = split(word);
            let given = option(&name, value, || rest.next())?;
            options.given.push(given);
        } else {
            options.plain.push(word);
        }
    }
    Ok(options)
}

/// An option's name, and its value where both stand in one word: `--budget=5`.
fn split(word: &OsStr) -> (String, Option<&OsStr>) {
    let bytes = word.as_bytes();
    match bytes.iter().position(|byte| *byte == b'=') {
        Some(at) => {
            let name = String::from_utf8_lossy(&bytes[..at]).into_owned();
            (name, Some(OsStr::from_bytes(&bytes[at + 1..])))
        }
        None => (word.to_string_lossy().into_owned(), None),
    }
}

/// One option with its value, which may be the next word.
fn option<'a>(
    name: &str,
    value: Option<&'a OsStr>,
    next: impl FnOnce() -> Option<&'a OsStr>,
) -> Result<(&'static str, &'a OsStr), Failure> {
    if let Some((_, known)) = FLAGS.iter().find(|(flag, _)| *flag == name) {
        return match value {
            Some(_) => usage(format!("{name} takes no value")),
            None => Ok((known, OsStr::new(""))),
        };
    }
    match VALUES.iter().find(|(option, _)| *option == name) {
        Some((known, what)) => match value.or_else(next) {
            Some(value) => Ok((known, value)),
            None => usage(format!("{name} takes {what}")),
        },
        None => unknown(name),
    }
}

/// There is no such option; perhaps another was meant.
fn unknown<T>(name: &str) -> Result<T, Failure> {
    let flags = FLAGS.iter().map(|(flag, _)| *flag);
    let known = flags.chain(VALUES.iter().map(|(option, _)| *option));
    match nearest(name, known.filter(|_| name.len() > 2)) {
        Some(near) => usage(format!("there is no option {name}: is {near} meant?")),
        None => usage(format!("there is no option {name}")),
    }
}

/// The arguments do not fit.
fn usage<T>(why: String) -> Result<T, Failure> {
    Err(Failure::Usage(why))
}

impl Options<'_> {
    /// Whether this option is given.
    pub fn has(&self, name: &str) -> bool {
        self.values(name).next().is_some()
    }

    /// The values of this option, in order.
    fn values<'o>(&'o self, name: &'o str) -> impl DoubleEndedIterator<Item = &'o OsStr> {
        let given = self.given.iter().filter(move |given| given.0 == name);
        given.map(|given| given.1)
    }

    /// The last value of this option as a path.
    pub fn path(&self, name: &str) -> Option<PathBuf> {
        self.values(name).next_back().map(PathBuf::from)
    }

    /// The last value of this option as a number.
    pub fn number(&self, name: &str) -> Result<Option<u32>, Failure> {
        let value = match self.values(name).next_back() {
            Some(value) => value,
            None => return Ok(None),
        };
        match value.to_str().and_then(|value| value.parse().ok()) {
            Some(number) => Ok(Some(number)),
            None => usage(format!("{name} takes {NUMBER}")),
        }
    }

    /// All values of this option as texts.
    pub fn words(&self, name: &str) -> Result<Vec<String>, Failure> {
        let words = self.values(name).map(|value| match value.to_str() {
            Some(word) => Ok(word.to_string()),
            None => usage(format!("{name} takes a value in UTF-8")),
        });
        words.collect()
    }

    /// Refuses an option that the command does not take.
    pub fn allow(&self, command: &str, allowed: &[&str]) -> Result<(), Failure> {
        let refused = self.given.iter().find(|(name, _)| !allowed.contains(name));
        match refused {
            Some((name, _)) => usage(format!("{command} takes no {name}")),
            None => Ok(()),
        }
    }
}
