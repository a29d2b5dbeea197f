//! What the command line asks for.

use crate::files::is_standard;
use crate::near::nearest;
use crate::options::{self, Options};
use crate::status::Failure;
use std::ffi::{OsStr, OsString};
use std::path::{Path, PathBuf};

/// The budget where none is given.
const BUDGET: u32 = 1000;

/// How many differing lanes `compare` shows where nothing else is said.
const SHOWN: u32 = 10;

/// Text for readers, or JSON for programs.
#[derive(Clone, Copy, Debug, PartialEq, Eq)]
pub enum Format {
    /// For readers.
    Text,
    /// For programs.
    Json,
}

/// Where the memory before a run comes from: first the file, then samples by name.
#[derive(Clone, Debug, PartialEq, Eq)]
pub struct Start {
    /// The routine's file.
    pub file: PathBuf,
    /// The memory's file; none for zeros.
    pub memory: Option<PathBuf>,
    /// A file of samples by name.
    pub csv: Option<PathBuf>,
    /// A file with many blocks.
    pub blocks: Option<PathBuf>,
    /// The one of the blocks that is meant.
    pub block: Option<u32>,
    /// How many bytes lie from one block to the next, if not as many as the routine needs.
    pub stride: Option<u32>,
    /// Samples as `NAME=V,V`.
    pub sets: Vec<String>,
    /// The most steps to take.
    pub budget: u32,
}

/// Where the results of a run go, beside what is shown.
#[derive(Clone, Debug, PartialEq, Eq)]
pub struct Results {
    /// Where the memory after the run goes.
    pub out: Option<PathBuf>,
    /// Where the results go by name.
    pub csv_out: Option<PathBuf>,
    /// The most characters of a line.
    pub width: Option<u32>,
    /// How to show it.
    pub format: Format,
}

/// What of a trace is shown.
#[derive(Clone, Debug, PartialEq, Eq)]
pub struct View {
    /// The first step.
    pub from: u32,
    /// The last step.
    pub to: u32,
    /// The variables to show after each step.
    pub watch: Vec<String>,
    /// The lane to run by itself beside it.
    pub lane: Option<u32>,
    /// Where the page goes.
    pub html: Option<PathBuf>,
    /// The most characters of a line.
    pub width: Option<u32>,
    /// How to show it.
    pub format: Format,
}

/// What to compare.
#[derive(Clone, Debug, PartialEq, Eq)]
pub struct Comparison {
    /// The routine and the recorded blocks before the run.
    pub start: Start,
    /// The recorded blocks after the run.
    pub after: PathBuf,
    /// How many differing lanes are shown.
    pub shown: u32,
    /// How to show it.
    pub format: Format,
}

/// One use of the program.
#[derive(Clone, Debug, PartialEq, Eq)]
pub enum Command {
    /// Print the help.
    Help,
    /// Print the version.
    Version,
    /// Judge this file.
    Judge(PathBuf, Format),
    /// Print a head for samples of this file; of all variables; with a row a lane.
    Template(PathBuf, bool, bool),
    /// Run.
    Run(Start, Results),
    /// Trace.
    Trace(Start, View),
    /// Compare recorded blocks.
    Compare(Comparison),
}

/// The commands: name, least and most files, usage, options.
const COMMANDS: [(&str, usize, usize, &str, &[&str]); 5] = [
    ("judge", 1, 1, "lanes judge FILE", &["--json"]),
    (
        "template",
        1,
        1,
        "lanes template FILE",
        &["--all", "--rows"],
    ),
    (
        "run",
        1,
        2,
        "lanes run FILE [MEMORY]",
        &[
            "--set",
            "--csv",
            "--blocks",
            "--block",
            "--stride",
            "--budget",
            "--out",
            "--csv-out",
            "--width",
            "--json",
        ],
    ),
    (
        "trace",
        1,
        2,
        "lanes trace FILE [MEMORY]",
        &[
            "--set", "--csv", "--blocks", "--block", "--stride", "--budget", "--from", "--to",
            "--watch", "--lane", "--html", "--width", "--json",
        ],
    ),
    (
        "compare",
        3,
        3,
        "lanes compare FILE BEFORE AFTER",
        &["--stride", "--budget", "--show", "--json"],
    ),
];

/// Reads a command line.
pub fn read(arguments: &[OsString]) -> Result<Command, Failure> {
    let options = options::read(arguments)?;
    if options.has("--help") {
        return Ok(Command::Help);
    }
    if options.has("--version") {
        return Ok(Command::Version);
    }
    let (command, files) = match options.plain.split_first() {
        Some((command, files)) => (command.to_string_lossy(), files),
        None => return usage(format!("a command is missing: {}", names())),
    };
    if command == "help" {
        return Ok(Command::Help);
    }
    let known = COMMANDS.iter().find(|known| known.0 == command);
    let (name, least, most, use_of, allowed) = match known {
        Some(known) => *known,
        None => return unknown_command(&command),
    };
    if files.len() < least || files.len() > most {
        let files = match (least, most) {
            (1, 1) => "one file",
            (1, _) => "one or two files",
            _ => "three files",
        };
        return usage(format!("{name} takes {files}: {use_of}"));
    }
    options.allow(name, allowed)?;
    command_of(name, files, &options)
}

/// The command of this name, with its files and options.
fn command_of(name: &str, files: &[&OsStr], options: &Options) -> Result<Command, Failure> {
    let format = match options.has("--json") {
        true => Format::Json,
        false => Format::Text,
    };
    let start = start(files, options)?;
    let file = start.file.clone();
    Ok(match name {
        "judge" => Command::Judge(file, format),
        "template" => Command::Template(file, options.has("--all"), options.has("--rows")),
        "run" => Command::Run(start, results(options, format)?),
        "trace" => Command::Trace(start, view(options, format)?),
        _ => Command::Compare(Comparison {
            start: Start {
                memory: None,
                blocks: files.get(1).map(PathBuf::from),
                ..start
            },
            after: files.get(2).map(PathBuf::from).unwrap_or_default(),
            shown: options.number("--show")?.unwrap_or(SHOWN),
            format,
        }),
    })
}

/// Where the memory comes from, and the budget.
fn start(files: &[&OsStr], options: &Options) -> Result<Start, Failure> {
    let memory = files.get(1).filter(|_| files.len() == 2);
    let start = Start {
        file: files.first().map(PathBuf::from).unwrap_or_default(),
        memory: memory.map(PathBuf::from),
        csv: options.path("--csv"),
        blocks: options.path("--blocks"),
        block: options.number("--block")?,
        stride: options.number("--stride")?,
        sets: options.words("--set")?,
        budget: options.number("--budget")?.unwrap_or(BUDGET),
    };
    let named = [&start.csv, &start.blocks];
    let named = named.into_iter().flatten().map(PathBuf::as_path);
    let read = files.iter().map(Path::new).chain(named);
    if read.filter(|path| is_standard(path)).count() > 1 {
        return usage("`-` is standard input, which can be read only once");
    }
    if start.blocks.is_some() && (start.memory.is_some() || start.csv.is_some()) {
        return usage("--blocks brings the memories: give no MEMORY and no --csv beside it");
    }
    if start.blocks.is_none() && start.block.is_some() {
        return usage("--block chooses one of --blocks FILE, which is missing");
    }
    if start.stride == Some(0) {
        return usage("--stride takes a number above 0");
    }
    Ok(start)
}

/// Where the results go.
fn results(options: &Options, format: Format) -> Result<Results, Failure> {
    Ok(Results {
        out: file_of("--out", options)?,
        csv_out: options.path("--csv-out"),
        width: options.number("--width")?,
        format,
    })
}

/// What of a trace is shown.
fn view(options: &Options, format: Format) -> Result<View, Failure> {
    let blocks = options.path("--blocks").is_some();
    if blocks && options.number("--block")?.is_none() {
        return usage("a trace is of one block: choose it with --block N");
    }
    let view = View {
        from: options.number("--from")?.unwrap_or(1).max(1),
        to: options.number("--to")?.unwrap_or(u32::MAX),
        watch: options.words("--watch")?,
        lane: options.number("--lane")?,
        html: file_of("--html", options)?,
        width: options.number("--width")?,
        format,
    };
    if view.to < view.from {
        return usage("--to is before --from");
    }
    let table = view.html.is_none() && format == Format::Text;
    if !table && (view.lane.is_some() || !view.watch.is_empty()) {
        return usage("--lane and --watch belong to the table, not to --html or --json");
    }
    Ok(view)
}

/// The file of an option that cannot go to standard output.
fn file_of(name: &str, options: &Options) -> Result<Option<PathBuf>, Failure> {
    match options.path(name) {
        Some(path) if is_standard(&path) => usage(format!("{name} takes a file, and not `-`")),
        path => Ok(path),
    }
}

/// The arguments do not fit.
fn usage<T>(why: impl Into<String>) -> Result<T, Failure> {
    Err(Failure::Usage(why.into()))
}

/// The commands' names in a row.
fn names() -> String {
    let names: Vec<&str> = COMMANDS.iter().map(|command| command.0).collect();
    names.join(", ")
}

/// There is no such command; perhaps another was meant.
fn unknown_command<T>(command: &str) -> Result<T, Failure> {
    let names_and_help = COMMANDS.iter().map(|known| known.0).chain(["help"]);
    match nearest(command, names_and_help) {
        Some(near) => usage(format!(
            "there is no command `{command}`: is `{near}` meant?"
        )),
        None => usage(format!("there is no command `{command}`, only {}", names())),
    }
}
