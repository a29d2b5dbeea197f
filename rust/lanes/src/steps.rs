//! A run step by step: the proved engine with growing budgets, and masks from the independent
//! implementation, which must agree with it.

use crate::listing;
use crate::routine::Routine;
use crate::status::Failure;
use crate::syntax::evaluate;
use crate::syntax::types::{Action, Condition, Doing};
use crate::syntax::{self, expression::Part};
use oracle::{Program, Watched};
use ruihmento::Answer;
use std::ops::Range;

/// A routine and the memory that it starts from.
pub struct Steps<'a> {
    /// The text and its variables.
    pub routine: &'a Routine,
    /// What its statements do, in text order.
    pub doings: Vec<Doing<'a>>,
    memory: &'a [u8],
    program: Result<Program, oracle::Answer>,
}

/// The run after so many steps.
pub struct Moment {
    /// The proved engine's answer.
    pub answer: Answer,
    /// The proved engine's memory.
    pub memory: Vec<u8>,
    /// The mask of the step that is due, if one is.
    due: Option<Watched>,
}

/// What a step is about.
#[derive(Clone, Debug, PartialEq, Eq)]
pub enum Subject {
    /// Nothing: `;`.
    Nothing,
    /// A variable that is declared and keeps its bytes.
    Kept(usize),
    /// A variable whose active lanes are written.
    Written(usize),
    /// A condition with these lanes.
    Tested(Vec<bool>),
}

/// One step.
#[derive(Clone, Debug)]
pub struct Step {
    /// Its number, from 1 on.
    pub number: u32,
    /// Which of the statements it belongs to.
    pub doing: usize,
    /// Where that statement stands.
    pub head: Range<usize>,
    /// Its mask; at a `while` test the lanes still in the loop.
    pub mask: Watched,
    /// What it is about.
    pub subject: Subject,
    /// The memory before it.
    pub before: Vec<u8>,
    /// The memory after it.
    pub after: Vec<u8>,
}

impl Step {
    /// Whether a lane of something of this length is active.
    pub fn active(&self, length: usize, lane: usize) -> bool {
        length == 1 || self.mask.length == 1 || self.mask.mask >> lane & 1 == 1
    }

    /// Whether this lane of this variable is written.
    pub fn writes(&self, routine: &Routine, variable: usize, lane: usize) -> bool {
        let length = routine.variables[variable].length;
        self.subject == Subject::Written(variable) && self.active(length, lane)
    }
}

impl<'a> Steps<'a> {
    /// The steps of an accepted routine over this memory.
    pub fn new(routine: &'a Routine, memory: &'a [u8]) -> Self {
        Steps {
            routine,
            doings: syntax::doings(&routine.source),
            memory,
            program: Program::prepare(&routine.source.text),
        }
    }

    /// The run after so many steps, on which both implementations must agree.
    pub fn after(&self, steps: u32) -> Result<Moment, Failure> {
        let mut memory = self.memory.to_vec();
        let answer = ruihmento::run(&self.routine.source.text, &mut memory, steps);
        let mut expected = self.memory.to_vec();
        let (theirs, due) = match &self.program {
            Ok(program) => program.run_watched(&mut expected, steps),
            Err(refused) => (*refused, None),
        };
        let (place, need) = (answer.place as u32, answer.need as u32);
        let proved = [answer.code, place, need, answer.steps];
        let independent = [theirs.code, theirs.place, theirs.need, theirs.steps];
        if proved != independent || memory != expected {
            let proved = side("proved engine", proved, &memory);
            let independent = side("independent implementation", independent, &expected);
            return Err(Failure::Disagreement(steps, proved + &independent));
        }
        Ok(Moment {
            answer,
            memory,
            due,
        })
    }

    /// The step that is due, and the run after it; none where the run has ended.
    pub fn step(&self, now: &Moment) -> Result<Option<(Step, Moment)>, Failure> {
        let mask = match now.due {
            Some(mask) => mask,
            None => return Ok(None),
        };
        let number = now.answer.steps + 1;
        let next = self.after(number)?;
        let doing = self.doing(now.answer.place);
        let step = Step {
            number,
            doing,
            head: self.doings[doing].head.clone(),
            mask,
            subject: self.subject(now, doing, mask)?,
            before: now.memory.clone(),
            after: next.memory.clone(),
        };
        Ok(Some((step, next)))
    }

    /// The statement that stands at this place.
    fn doing(&self, place: usize) -> usize {
        let mut doings = self.doings.iter();
        let found = doings.position(|doing| doing.head.start == place);
        found.expect("a step is due at a statement of the text")
    }

    /// What the step that is due is about.
    fn subject(&self, now: &Moment, doing: usize, mask: Watched) -> Result<Subject, Failure> {
        Ok(match &self.doings[doing].action {
            Action::Nothing => Subject::Nothing,
            Action::Declares(variable) => Subject::Kept(*variable),
            Action::Writes(variable) => Subject::Written(*variable),
            Action::Tests(condition) => self.tested(condition, now, mask),
            Action::Repeats(condition, body) => {
                let asked = |part: &Part| *part == Part::CurrentMask;
                let mut parts = condition.items.iter().map(|(item, _)| item.part);
                let mask = match parts.any(|part| asked(&part)) {
                    true => self.entry(now, doing, body)?,
                    false => mask,
                };
                self.tested(condition, now, mask)
            }
        })
    }

    /// The lanes of a condition.
    fn tested(&self, condition: &Condition, now: &Moment, mask: Watched) -> Subject {
        let variables = &self.routine.variables;
        let lanes = evaluate::condition(condition, variables, &now.memory, mask);
        Subject::Tested(lanes)
    }

    /// The mask with which the loop was entered whose test is due: that of its first test, the
    /// last one that does not follow the body or the test itself.
    fn entry(&self, now: &Moment, doing: usize, body: &Range<usize>) -> Result<Watched, Failure> {
        let mut first = now.due;
        for steps in (0..now.answer.steps).rev() {
            let before = self.after(steps)?;
            let place = before.answer.place;
            let test = self.doings[doing].head.start == place;
            if test {
                first = before.due;
            } else if !body.contains(&place) {
                break;
            }
        }
        let first = first.expect("a step is due");
        Ok(first)
    }
}

/// One side of a disagreement.
fn side(name: &str, [code, place, need, steps]: [u32; 4], memory: &[u8]) -> String {
    let memory = listing::hex(memory);
    format!("{name}: {code} {place} {need} {steps}, memory {memory}\n")
}

#[cfg(test)]
mod tests {
    use super::*;
    use crate::source::Source;
    use std::path::Path;

    #[test]
    fn a_disagreement_is_told() {
        let source = Source::new(Path::new("f"), b"int x = 1;".to_vec());
        let routine = Routine::new(source);
        let mut steps = Steps::new(&routine, &[0; 4]);
        steps.program = Program::prepare(b"int y = 1;");
        assert!(steps.after(1).is_ok());
        steps.program = Program::prepare(b"int x = 2;");
        match steps.after(1) {
            Err(Failure::Disagreement(1, how)) => {
                let expected = "proved engine: 0 0 4 1, memory 01000000\n\
                    independent implementation: 0 0 4 1, memory 02000000\n";
                assert_eq!(how, expected);
            }
            _ => panic!("the memories differ after one step"),
        }
    }
}
