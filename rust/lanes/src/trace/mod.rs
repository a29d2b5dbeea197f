//! The command `trace`: a table, JSON or a page.

mod alone;
mod html;
mod objects;
mod table;

#[cfg(test)]
mod generated;

use crate::arguments::{Format, Start, View};
use crate::blocks;
use crate::files;
use crate::outcome::{Outcome, Streams};
use crate::routine::Routine;
use crate::status::{Failure, Status};
use crate::steps::{Step, Steps};
use crate::terminal;
use alone::Alone;
use table::Table;

/// How many steps a table has; a longer trace has several.
const ROWS: usize = 200;

/// Traces a routine.
pub fn trace(start: &Start, view: &View, to: &mut Streams) -> Result<Status, Failure> {
    let routine = Routine::read(&start.file)?;
    if !routine.answer.is_accepted() {
        return Outcome::judged(&routine).show(view.format, to);
    }
    let memory = blocks::one(&routine, start)?;
    if memory.len() < routine.need() {
        let answer = ruihmento::run(&routine.source.text, &mut memory.clone(), start.budget);
        return Outcome::ran(&routine, answer, &memory, view.width).show(view.format, to);
    }
    let steps = Steps::new(&routine, &memory);
    let alone = match view.lane {
        Some(lane) => Some(Alone::new(&routine, &memory, lane as usize)?),
        None => None,
    };
    let trace = Trace {
        steps: &steps,
        budget: start.budget,
        view,
        alone: alone.as_ref(),
    };
    if let Some(path) = &view.html {
        files::write(path, trace.page()?.as_bytes())?;
    } else if view.format == Format::Json {
        trace.each(|step| Ok(writeln!(to.out, "{}", objects::step(&routine, &step))?))?;
    } else {
        trace.write_table(to)?;
    }
    let last = steps.after(start.budget)?;
    Outcome::ran(&routine, last.answer, &last.memory, view.width).show(view.format, to)
}

/// A trace that is asked for.
struct Trace<'a> {
    steps: &'a Steps<'a>,
    budget: u32,
    view: &'a View,
    alone: Option<&'a Alone>,
}

impl Trace<'_> {
    /// Hands on each step that is to be shown.
    fn each(&self, mut take: impl FnMut(Step) -> Result<(), Failure>) -> Result<(), Failure> {
        let last = self.view.to.min(self.budget);
        let mut now = self.steps.after((self.view.from - 1).min(last))?;
        while now.answer.steps < last {
            match self.steps.step(&now)? {
                Some((step, next)) => {
                    take(step)?;
                    now = next;
                }
                None => break,
            }
        }
        Ok(())
    }

    /// The variables that are watched.
    fn watched(&self) -> Result<Vec<usize>, Failure> {
        let variables = &self.steps.routine.variables;
        let watched = self.view.watch.iter().map(|name| {
            let found = self.steps.routine.find(name);
            let found = found.map_err(|why| Failure::Samples(format!("--watch {name}: {why}")))?;
            Ok(variables
                .iter()
                .position(|other| other == found)
                .unwrap_or(0))
        });
        watched.collect()
    }

    /// Writes tables, so many steps at a time.
    fn write_table(&self, to: &mut Streams) -> Result<(), Failure> {
        let width = terminal::width(self.view.width);
        let alone = match self.alone {
            Some(alone) => Some(alone.beside(self.view.to.min(self.budget))?),
            None => None,
        };
        let mut table = Table::new(self.steps.routine, self.watched()?, alone, width);
        self.each(|step| {
            table.add(&step);
            if table.rows() == ROWS {
                table.write(to.out)?;
            }
            Ok(())
        })?;
        table.write(to.out)?;
        table.write_signs(to.out)?;
        if let Some(alone) = self.alone {
            let left = self.steps.after(self.budget)?;
            writeln!(to.out, "{}", alone.compared(&left)?)?;
        }
        Ok(writeln!(to.out)?)
    }

    /// The page.
    fn page(&self) -> Result<String, Failure> {
        let last = self.steps.after(self.budget)?;
        let first = self.steps.after((self.view.from - 1).min(self.budget))?;
        let mut steps = Vec::new();
        self.each(|step| {
            steps.push(step);
            Ok(())
        })?;
        Ok(html::page(self.steps, &first.memory, &steps, last.answer))
    }
}
