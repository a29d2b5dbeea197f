//! What a judgement or a run came to, as text and as JSON.

use crate::arguments::Format;
use crate::hints;
use crate::json::{self, Object};
use crate::listing;
use crate::routine::{Routine, Variable};
use crate::status::{Failure, Status};
use crate::syntax::tokens;
use crate::terminal;
use crate::values;
use crate::verdict;
use ruihmento::{Answer, Refusal};
use std::io::{self, Write};

/// Where things are written: results, and what is told beside them.
pub struct Streams<'a> {
    /// Standard output.
    pub out: &'a mut dyn Write,
    /// Standard error.
    pub err: &'a mut dyn Write,
}

/// An answer with all that is shown beside it.
#[derive(Debug)]
pub struct Outcome<'a> {
    /// The text and its variables.
    routine: &'a Routine,
    /// The four numbers.
    pub answer: Answer,
    /// The memory after a run.
    memory: Option<&'a [u8]>,
    /// The most characters of a line that are asked for.
    width: Option<u32>,
}

impl<'a> Outcome<'a> {
    /// The outcome of a judgement.
    pub fn judged(routine: &'a Routine) -> Self {
        Outcome {
            routine,
            answer: routine.answer,
            memory: None,
            width: None,
        }
    }

    /// The outcome of a run that left this memory, for lines of so many characters if asked for.
    pub fn ran(routine: &'a Routine, answer: Answer, memory: &'a [u8], width: Option<u32>) -> Self {
        Outcome {
            routine,
            answer,
            memory: Some(memory),
            width,
        }
    }

    /// Whether the routine ran, to its end or until the budget was spent.
    pub fn has_run(&self) -> bool {
        let ran = matches!(self.answer.refusal(), None | Some(Refusal::BudgetSpent));
        self.memory.is_some() && ran
    }

    /// The memory that a run has left.
    fn left(&self) -> Option<&'a [u8]> {
        self.memory.filter(|_| self.has_run())
    }

    /// The answer in one sentence.
    fn sentence(&self) -> String {
        match self.memory {
            Some(_) if self.answer.is_ended() => {
                let steps = values::counted(u64::from(self.answer.steps), "step");
                format!("The run ended after {steps}.")
            }
            memory => {
                let memory = memory.map_or(0, <[u8]>::len);
                verdict::sentence(&self.routine.source, self.answer, memory)
            }
        }
    }

    /// Shows the outcome in the format asked for; gives its status.
    pub fn show(&self, format: Format, to: &mut Streams) -> Result<Status, Failure> {
        let status = self.tell(format, to)?;
        if format == Format::Text {
            self.write_values(to.out)?;
        }
        Ok(status)
    }

    /// Shows the outcome without the values, a refusal on standard error; gives its status.
    pub fn tell(&self, format: Format, to: &mut Streams) -> Result<Status, Failure> {
        match format {
            Format::Json => writeln!(to.out, "{}", self.json())?,
            Format::Text if self.answer.is_ended() => self.write_answer(to.out)?,
            Format::Text => {
                to.out.flush()?;
                self.write_answer(to.err)?;
            }
        }
        Ok(Status::of(self.answer))
    }

    /// Writes the answer for readers.
    fn write_answer(&self, mut out: &mut dyn Write) -> io::Result<()> {
        let Answer {
            code,
            place,
            need,
            steps,
        } = self.answer;
        let source = &self.routine.source;
        let place_is_shown = verdict::has_place(self.answer);
        write!(out, "{}", source.name)?;
        if place_is_shown {
            write!(out, ":{}", source.position(place))?;
        }
        writeln!(out, ": {}", self.sentence())?;
        if place_is_shown {
            let part = tokens::span_at(&source.text, place);
            source.write_line(part, &mut out)?;
        }
        for hint in hints::hints(source, self.answer) {
            writeln!(out, "  {hint}")?;
        }
        writeln!(
            out,
            "code {code}, place {place}, need {need}, steps {steps}"
        )
    }

    /// How many columns the lanes of long blocks have; the terminal is not asked where there are none.
    fn width(&self) -> usize {
        let mut variables = self.routine.variables.iter();
        match variables.any(|variable| variable.length > values::COUNTED) {
            true => terminal::width(self.width),
            false => usize::MAX,
        }
    }

    /// Writes the variables and the memory for readers.
    fn write_values(&self, mut out: &mut dyn Write) -> io::Result<()> {
        if self.answer.is_accepted() && !self.routine.variables.is_empty() {
            let accepted_only = !self.answer.is_ended() && !self.has_run();
            if !accepted_only {
                writeln!(out)?;
                listing::write_variables(self.routine, self.left(), self.width(), &mut out)?;
            }
        }
        match self.left() {
            Some(memory) if !memory.is_empty() => {
                writeln!(out)?;
                listing::write_memory(memory, &mut out)
            }
            _ => Ok(()),
        }
    }

    /// The outcome as one JSON object.
    fn json(&self) -> String {
        let answer = self.answer;
        let source = &self.routine.source;
        let hints = hints::hints(source, answer);
        let mut object = Object::new()
            .with_text("file", &source.name)
            .with("code", answer.code)
            .with("place", answer.place)
            .with("need", answer.need)
            .with("steps", answer.steps)
            .with_text("message", &self.sentence());
        if !hints.is_empty() {
            let hints = hints.iter().map(|hint| json::string(hint));
            object = object.with("hints", json::list(hints));
        }
        if verdict::has_place(answer) {
            let place = answer.place;
            let position = source.position(place);
            object = object
                .with("line", position.line)
                .with("column", position.column)
                .with("end", tokens::span_at(&source.text, place).end);
        }
        if answer.is_accepted() {
            let variables = self.routine.variables.iter();
            let variables = variables.map(|variable| variable_json(variable, self.left()));
            object = object.with("variables", json::list(variables));
        }
        if let Some(memory) = self.left() {
            object = object.with_text("memory", &listing::hex(memory));
        }
        object.json()
    }
}

/// A variable as a JSON object, with its values where there is a memory.
pub fn variable_json(variable: &Variable, memory: Option<&[u8]>) -> String {
    let object = Object::new()
        .with_text("name", &variable.name)
        .with_text("kind", &variable.kind.to_string())
        .with("length", variable.length)
        .with("address", variable.address)
        .with("place", variable.place);
    let object = match memory {
        Some(memory) => {
            let lanes = values::lanes(variable, memory);
            let lanes = lanes.map(|bytes| values::json(variable.kind, bytes));
            object.with("values", json::list(lanes))
        }
        None => object,
    };
    object.json()
}
