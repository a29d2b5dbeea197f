//! Prints cases with the oracle's results, one a line, for other runners to be compared with.
#![forbid(unsafe_code)]

use generate::{case, Case, Random, Sort};
use oracle::run;
use std::io::{BufWriter, Write};
use std::process::ExitCode;

/// How the program is called.
const USAGE: &str = "usage: cases COUNT SEED [--text-max BYTES] [--memory-max BYTES]
             [--budget-max STEPS] [--sort NAME]

Prints COUNT cases, one a line, as fields with a space between them:
  text memory budget code place need steps memory-after
Bytes are lower-case hex, `-` where there are none. NAME is one of:
  well-typed nearly-typed any-typed damaged soup nesting declarations long-text
  comments names numbers";

/// How many cases may lie outside the bounds before the next one within them.
const MOST_TRIES: u64 = 1_000_000;

/// What is asked for.
struct Wish {
    count: u64,
    seed: u64,
    text_max: usize,
    memory_max: usize,
    budget_max: u32,
    sort: Option<Sort>,
}

fn main() -> ExitCode {
    let arguments: Vec<String> = std::env::args().skip(1).collect();
    let wish = match wish(&arguments) {
        Some(wish) => wish,
        None => {
            eprintln!("{USAGE}");
            return ExitCode::from(2);
        }
    };
    match print(&wish) {
        Ok(()) => ExitCode::SUCCESS,
        Err(_) => ExitCode::FAILURE,
    }
}

/// Reads the arguments; none where they do not fit the usage.
fn wish(arguments: &[String]) -> Option<Wish> {
    let mut wish = Wish {
        count: arguments.first()?.parse().ok()?,
        seed: arguments.get(1)?.parse().ok()?,
        text_max: usize::MAX,
        memory_max: usize::MAX,
        budget_max: u32::MAX,
        sort: None,
    };
    for option in arguments[2..].chunks(2) {
        let (name, value) = match option {
            [name, value] => (name, value),
            _ => return None,
        };
        match name.as_str() {
            "--text-max" => wish.text_max = value.parse().ok()?,
            "--memory-max" => wish.memory_max = value.parse().ok()?,
            "--budget-max" => wish.budget_max = value.parse().ok()?,
            "--sort" => wish.sort = Some(sort(value)?),
            _ => return None,
        }
    }
    Some(wish)
}

/// The sort of this name.
fn sort(name: &str) -> Option<Sort> {
    let found = Sort::ALL.iter().find(|(_, known)| *known == name);
    found.map(|(sort, _)| *sort)
}

/// Prints the cases that keep the bounds, by rising index.
fn print(wish: &Wish) -> std::io::Result<()> {
    let mut out = BufWriter::new(std::io::stdout().lock());
    let mut index = 0;
    for _ in 0..wish.count {
        let mut tries = (index..index + MOST_TRIES).map(|index| (index, tried(wish, index)));
        let (found, case) = match tries.find(|(_, case)| within(wish, case)) {
            Some(found) => found,
            None => {
                eprintln!("no case of {MOST_TRIES} keeps these bounds");
                return Err(std::io::ErrorKind::NotFound.into());
            }
        };
        writeln!(out, "{}", line(&case))?;
        index = found + 1;
    }
    out.flush()
}

/// Whether the case keeps the bounds on text and memory.
fn within(wish: &Wish, case: &Case) -> bool {
    case.text.len() <= wish.text_max && case.memory.len() <= wish.memory_max
}

/// The case of this index, of the sort asked for or any.
fn tried(wish: &Wish, index: u64) -> Case {
    let mut tried = match wish.sort {
        Some(sort) => case(sort, &mut Random::new(wish.seed, index)),
        None => generate::mixed(wish.seed, index).1,
    };
    if tried.budget > wish.budget_max {
        tried.budget = (tried.budget as u64 % (u64::from(wish.budget_max) + 1)) as u32;
    }
    tried
}

/// One case and the oracle's results, as a line.
fn line(case: &Case) -> String {
    let mut after = case.memory.clone();
    let answer = run(&case.text, &mut after, case.budget);
    format!(
        "{} {} {} {} {} {} {} {}",
        hex(&case.text),
        hex(&case.memory),
        case.budget,
        answer.code,
        answer.place,
        answer.need,
        answer.steps,
        hex(&after)
    )
}

/// Bytes as lower-case hex, `-` where there are none.
fn hex(bytes: &[u8]) -> String {
    if bytes.is_empty() {
        return "-".into();
    }
    bytes.iter().map(|byte| format!("{byte:02x}")).collect()
}
