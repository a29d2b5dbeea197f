//! One lane as a run of its own, beside the run of all lanes.

use super::table::{cells, Beside};
use crate::routine::Routine;
use crate::source::Source;
use crate::status::Failure;
use crate::steps::{Moment, Steps};
use crate::syntax::tokens;
use crate::values;
use std::collections::BTreeMap;

/// A routine narrowed to one lane, and the bytes that the lane starts from.
pub struct Alone {
    full: Routine,
    memory: Vec<u8>,
    narrowed: Routine,
    narrowed_memory: Vec<u8>,
    lane: usize,
}

/// The text with `block[N]` made `block[1]`, so that every place stays.
fn narrow(text: &[u8]) -> Vec<u8> {
    let mut narrowed = text.to_vec();
    let tokens = tokens::tokens(text).unwrap_or_default();
    for three in tokens.windows(3) {
        if three[0].is("block") && three[1].is("[") {
            let digits = &mut narrowed[three[2].span()];
            digits.fill(b' ');
            digits[0] = b'1';
        }
    }
    narrowed
}

impl Alone {
    /// This lane of a routine over this memory.
    pub fn new(routine: &Routine, memory: &[u8], lane: usize) -> Result<Alone, Failure> {
        let short = |length: usize| length > 1 && length <= lane;
        if let Some(short) = routine.variables.iter().find(|v| short(v.length)) {
            let (name, length) = (&short.name, short.length);
            let why = format!(
                "--lane {lane}: `{name}` has lanes 0 to {}, so the routine has no lane {lane}",
                length - 1
            );
            return Err(Failure::Samples(why));
        }
        let again = |text: Vec<u8>| {
            let name = routine.source.name.clone();
            Routine::new(Source { name, text })
        };
        let full = again(routine.source.text.clone());
        let narrowed = again(narrow(&routine.source.text));
        let mut narrowed_memory = vec![0; narrowed.need()];
        for (from, to) in full.variables.iter().zip(&narrowed.variables) {
            let bytes = &memory[from.lane(lane.min(from.length - 1))];
            narrowed_memory[to.range()].copy_from_slice(bytes);
        }
        Ok(Alone {
            full,
            memory: memory.to_vec(),
            narrowed,
            narrowed_memory,
            lane,
        })
    }

    /// What stands beside the steps of the full run, up to the last that is shown: the steps of
    /// the lane's own run, each at the next step at the same place in which the lane is active.
    pub fn beside(&self, last: u32) -> Result<Beside, Failure> {
        let full = Steps::new(&self.full, &self.memory);
        let alone = Steps::new(&self.narrowed, &self.narrowed_memory);
        let head = format!("lane {} alone", self.lane);
        let mut shown = BTreeMap::new();
        let mut now = full.after(0)?;
        let mut due = alone.step(&alone.after(0)?)?;
        while now.answer.steps < last {
            let (step, after) = match full.step(&now)? {
                Some(step) => step,
                None => break,
            };
            let (own, then) = match &due {
                Some(own) => own,
                None => break,
            };
            if step.head.start == own.head.start && step.active(step.mask.length, self.lane) {
                let cell = cells(&self.narrowed, own).join("");
                shown.insert(
                    step.number,
                    format!("step {}  {}", own.number, cell.trim_end()),
                );
                due = alone.step(then)?;
            }
            now = after;
        }
        Ok((head, shown))
    }

    /// Whether the lane's own run left the same bytes as the full run, in words.
    pub fn compared(&self, left: &Moment) -> Result<String, Failure> {
        let alone = Steps::new(&self.narrowed, &self.narrowed_memory);
        let own = alone.after(left.answer.steps)?;
        let lane = self.lane;
        let variables = self.full.variables.iter().zip(&self.narrowed.variables);
        let mut differs = Vec::new();
        for (full, single) in variables {
            let here = &left.memory[full.lane(lane.min(full.length - 1))];
            let there = &own.memory[single.range()];
            if here != there {
                let shown = |bytes: &[u8]| values::shown(full.kind, bytes);
                let (here, there) = (shown(here), shown(there));
                differs.push(format!("`{}` is {there} and not {here}", full.name));
            }
        }
        let scalar = tokens::tokens(&self.full.source.text).unwrap_or_default();
        let scalar = scalar.iter().any(|token| token.is("scalar"));
        let promise = match (left.answer.is_ended(), scalar) {
            (true, false) => "",
            (false, _) => " (the run has not ended, so nothing is promised)",
            (true, true) => " (the routine has `scalar`, so nothing is promised)",
        };
        let steps = values::counted(u64::from(own.answer.steps), "step");
        let end = match differs.is_empty() {
            true => format!("it leaves what lane {lane} has here"),
            false => differs.join(", "),
        };
        Ok(format!("  lane {lane} alone takes {steps}: {end}{promise}"))
    }
}
