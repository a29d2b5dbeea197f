//! An independent judge and runner for lane routines, written from document 01 and the requests of
//! document 02 that are named, and from them alone ([`run_each`] from the sentence that it quotes).
//!
//! A text passes one module after another: `tokens`, `reading` into a `tree`, `typing` into a
//! `program` with its addresses from `memory`, then `running` on `lanes`, of which those of floats
//! are `singles`.
//! Comments quote document 01 under the heading they name, and document 02 by its requests.
#![forbid(unsafe_code)]
#![warn(missing_docs)]

mod answer;
mod lanes;
mod memory;
mod program;
mod reading;
mod running;
mod singles;
mod tokens;
mod tree;
mod typing;
mod watching;

pub use answer::{Answer, Code, ANSWER};
pub use program::{Program, Row};
pub use watching::Watched;

/// What is built: "Judge takes a program text and gives a verdict."
pub fn judge(text: &[u8]) -> Answer {
    match Program::prepare(text) {
        Ok(program) => Answer::ended(program.need(), 0),
        Err(refused) => refused,
    }
}

/// What is built: "judges the text itself, then executes over that memory".
pub fn run(text: &[u8], memory: &mut [u8], budget: u32) -> Answer {
    match Program::prepare(text) {
        Ok(program) => program.run(memory, budget),
        Err(refused) => refused,
    }
}

/// Run each: "Image k is the bytes from k·size to (k+1)·size, its answer the 16 bytes at 16·k. It
/// runs as many images as stand whole in `images` and in `answers` (none where size is 0), answers
/// how many, and leaves image k and answer k exactly as `run` would [...]; every other byte
/// stays."
pub fn run_each(
    text: &[u8],
    images: &mut [u8],
    size: usize,
    budget: u32,
    answers: &mut [u8],
) -> usize {
    if size == 0 {
        return 0;
    }
    let mut count = 0;
    let whole = images.chunks_exact_mut(size);
    for (image, bytes) in whole.zip(answers.chunks_exact_mut(ANSWER)) {
        bytes.copy_from_slice(&run(text, image, budget).to_bytes());
        count += 1;
    }
    count
}

/// Memory: "Every declaration in the text has an address of its own, in text order", listed.
#[derive(Clone, Debug, PartialEq, Eq)]
pub struct Variables {
    /// Codes: the judge's code, place and need, with the number of declarations as steps.
    pub answer: Answer,
    /// Memory: one row for each declaration, "in text order".
    pub rows: Vec<Row>,
}

/// Memory: where "every declaration in the text" lies; a refused text has no rows.
pub fn variables(text: &[u8]) -> Variables {
    match Program::prepare(text) {
        Ok(program) => Variables {
            answer: Answer::ended(program.need(), program.rows().len() as u32),
            rows: program.rows().to_vec(),
        },
        Err(answer) => Variables {
            answer,
            rows: Vec::new(),
        },
    }
}
