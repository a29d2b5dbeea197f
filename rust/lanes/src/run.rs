//! The commands `run` and `template`.

use crate::arguments::{Format, Results, Start};
use crate::blocks::{self, Blocks};
use crate::csv;
use crate::files;
use crate::json::{self, Object};
use crate::outcome::{self, Outcome, Streams};
use crate::routine::{Routine, Variable};
use crate::status::{Failure, Status};
use crate::syntax::tokens;
use crate::values;
use ruihmento::Answer;
use std::io::Write;
use std::path::{Path, PathBuf};

/// Runs a routine over one memory or many.
pub fn run(start: &Start, results: &Results, to: &mut Streams) -> Result<Status, Failure> {
    let routine = Routine::read(&start.file)?;
    if !routine.answer.is_accepted() {
        return Outcome::judged(&routine).show(results.format, to);
    }
    match &start.blocks {
        Some(path) if start.block.is_none() => {
            let blocks = Blocks::open(&routine, path, start)?;
            run_many(&routine, blocks, start.budget, results, to)
        }
        _ => run_one(&routine, start, results, to),
    }
}

/// Runs over one memory and shows what it leaves.
fn run_one(
    routine: &Routine,
    start: &Start,
    results: &Results,
    to: &mut Streams,
) -> Result<Status, Failure> {
    let mut memory = blocks::one(routine, start)?;
    let answer = ruihmento::run(&routine.source.text, &mut memory, start.budget);
    let outcome = Outcome::ran(routine, answer, &memory, results.width);
    let csv_only = results.csv_out.as_deref().map_or(false, files::is_standard);
    let status = match csv_only {
        true => outcome.tell(results.format, to)?,
        false => outcome.show(results.format, to)?,
    };
    if !outcome.has_run() {
        return Ok(status);
    }
    if let Some(path) = &results.out {
        files::write(path, &memory)?;
    }
    if let Some(path) = &results.csv_out {
        let variables = &routine.variables;
        let rows = format!(
            "{}\n{}\n",
            csv::head(variables),
            csv::row(variables, &memory)
        );
        write_to(path, &rows, to)?;
    }
    Ok(status)
}

/// Writes a text to a file, or with the other output where the file is `-`.
fn write_to(path: &Path, text: &str, to: &mut Streams) -> Result<(), Failure> {
    match files::is_standard(path) {
        true => Ok(to.out.write_all(text.as_bytes())?),
        false => files::write(path, text.as_bytes()),
    }
}

/// A file that is open for writing, and its name.
type Opened<'a> = (&'a Path, Box<dyn Write>);

/// Where the results of many blocks go.
struct Outputs<'a> {
    bytes: Option<Opened<'a>>,
    csv: Option<Opened<'a>>,
    format: Format,
}

/// Runs over many memories, and shows a line for each.
fn run_many(
    routine: &Routine,
    mut blocks: Blocks,
    budget: u32,
    results: &Results,
    to: &mut Streams,
) -> Result<Status, Failure> {
    let mut outputs = Outputs {
        bytes: opened(&results.out)?,
        csv: opened(&results.csv_out)?,
        format: results.format,
    };
    outputs.csv_line(&csv::results_head(routine), to)?;
    let (mut number, mut spent) = (0, 0);
    while let Some(mut memory) = blocks.next()? {
        let answer = ruihmento::run(&routine.source.text, &mut memory, budget);
        spent += u64::from(!answer.is_ended());
        outputs.block(routine, number, answer, &memory, to)?;
        number += 1;
    }
    outputs.end()?;
    if outputs.format == Format::Text && !outputs.csv_is_shown() {
        let ended = number - spent;
        let blocks = values::counted(number, "block");
        writeln!(
            to.out,
            "{blocks}: {ended} ended, {spent} spent their budget"
        )?;
    }
    Ok(match spent {
        0 => Status::Ended,
        _ => Status::BudgetSpent,
    })
}

/// A file that is open for writing, if one is wanted.
fn opened(path: &Option<PathBuf>) -> Result<Option<Opened<'_>>, Failure> {
    match path {
        Some(path) => Ok(Some((path, files::create(path)?))),
        None => Ok(None),
    }
}

impl Outputs<'_> {
    /// Whether the comma separated values are the whole output.
    fn csv_is_shown(&self) -> bool {
        self.csv
            .as_ref()
            .map_or(false, |(path, _)| files::is_standard(path))
    }

    /// A line of comma separated values, where they are wanted.
    fn csv_line(&mut self, line: &str, to: &mut Streams) -> Result<(), Failure> {
        match &mut self.csv {
            Some((path, _)) if files::is_standard(path) => Ok(writeln!(to.out, "{line}")?),
            Some((path, file)) => writeln!(file, "{line}").map_err(Failure::writing(path)),
            None => Ok(()),
        }
    }

    /// What a run over one block has left.
    fn block(
        &mut self,
        routine: &Routine,
        number: u64,
        answer: Answer,
        memory: &[u8],
        to: &mut Streams,
    ) -> Result<(), Failure> {
        let Answer { code, steps, .. } = answer;
        if let Some((path, file)) = &mut self.bytes {
            file.write_all(memory).map_err(Failure::writing(path))?;
        }
        if self.csv.is_some() {
            let row = csv::results_row(routine, number, code, steps, memory);
            self.csv_line(&row, to)?;
        }
        match self.format {
            _ if self.csv_is_shown() => {}
            Format::Text => {
                let values = sets(&routine.variables, memory);
                let steps = values::counted(u64::from(steps), "step");
                writeln!(to.out, "block {number}: code {code}, {steps}, {values}")?;
            }
            Format::Json => writeln!(to.out, "{}", block_json(routine, number, answer, memory))?,
        }
        Ok(())
    }

    /// All is written.
    fn end(&mut self) -> Result<(), Failure> {
        for (path, file) in self.bytes.iter_mut().chain(&mut self.csv) {
            file.flush().map_err(Failure::writing(path))?;
        }
        Ok(())
    }
}

/// The variables in the form that `--set` takes.
fn sets(variables: &[Variable], memory: &[u8]) -> String {
    let sets = variables.iter().map(|variable| {
        let values = values::joined(variable, memory, ",");
        format!("{}={values}", variable.name)
    });
    sets.collect::<Vec<String>>().join(" ")
}

/// One block's results as a JSON object.
fn block_json(routine: &Routine, number: u64, answer: Answer, memory: &[u8]) -> String {
    let variables = routine.variables.iter();
    let variables = variables.map(|variable| outcome::variable_json(variable, Some(memory)));
    let object = Object::new()
        .with("block", number)
        .with("code", answer.code)
        .with("place", answer.place)
        .with("steps", answer.steps)
        .with("variables", json::list(variables));
    object.json()
}

/// Prints a head for samples: of the variables declared without a value, or of all; with `rows`
/// a name a column and an empty row a lane.
pub fn template(path: &Path, all: bool, rows: bool, to: &mut Streams) -> Result<Status, Failure> {
    let routine = Routine::read(path)?;
    if !routine.answer.is_accepted() {
        return Outcome::judged(&routine).show(Format::Text, to);
    }
    let wanted = routine.variables.iter();
    let wanted = wanted.filter(|variable| all || !has_value(&routine, variable));
    let wanted: Vec<Variable> = wanted.cloned().collect();
    if !rows {
        writeln!(to.out, "{}", csv::head(&wanted))?;
        return Ok(Status::Ended);
    }
    let names: Vec<&str> = wanted.iter().map(|variable| &variable.name[..]).collect();
    writeln!(to.out, "{}", names.join(","))?;
    let longest = wanted.iter().map(|variable| variable.length).max();
    for _ in 0..longest.unwrap_or(0) {
        writeln!(to.out, "{}", ",".repeat(names.len() - 1))?;
    }
    Ok(Status::Ended)
}

/// Whether a variable is declared with an initial value.
fn has_value(routine: &Routine, variable: &Variable) -> bool {
    let tokens = tokens::tokens(&routine.source.text).unwrap_or_default();
    let name = tokens
        .iter()
        .position(|token| token.start == variable.place);
    let next = name.and_then(|name| tokens.get(name + 1));
    next.map_or(false, |next| next.is("="))
}
