//! For those who follow a run step by step: under which mask the step that is due would run.

use crate::answer::Answer;
use crate::lanes::Mask;
use crate::program::Program;
use crate::running;

/// Execution: the mask under which a step runs; for a `while` test, the lanes still in the loop.
#[derive(Clone, Copy, Debug, PartialEq, Eq)]
pub struct Watched {
    /// Typing: how many lanes the mask has.
    pub length: usize,
    /// Execution: the mask, one bit a lane, lane 0 lowest.
    pub mask: Mask,
}

impl Program {
    /// What is built: as [`Program::run`], and at code 13 the mask of the step that is due.
    pub fn run_watched(&self, memory: &mut [u8], budget: u32) -> (Answer, Option<Watched>) {
        running::run(self, memory, budget)
    }
}
