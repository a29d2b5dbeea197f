//! The text as a reader sees it: tokens, statements and types with their places.
//!
//! The judge alone says whether a text is accepted. What is read here serves to say more about
//! its answer, and is shown only where it comes to the very same code and place.

pub mod evaluate;
pub mod expression;
pub mod facts;
pub mod tokens;
pub mod tree;
pub mod types;

#[cfg(test)]
mod generated;

use crate::source::Source;
use ruihmento::Answer;
use types::{Doing, Known};

/// A code and a place, as the judge gives them.
#[derive(Clone, Copy, Debug, PartialEq, Eq)]
pub struct Refused {
    /// The code.
    pub code: u32,
    /// The place.
    pub place: usize,
}

impl Refused {
    /// Whether an answer of the judge is this refusal.
    pub fn is(&self, answer: Answer) -> bool {
        self.code == answer.code && self.place == answer.place
    }
}

/// What the statements of an accepted text do, in text order; nothing of a refused one.
pub fn doings(source: &Source) -> Vec<Doing<'_>> {
    let statements = tokens::tokens(&source.text).and_then(|tokens| tree::statements(&tokens));
    let doings = statements.map(|statements| types::doings(source, &statements));
    match doings {
        Ok(Ok(doings)) => doings,
        _ => Vec::new(),
    }
}

/// What is known of the refusal of a text, if it is refused by its statements, kinds or lengths.
pub fn known(source: &Source) -> Option<Known> {
    let tokens = tokens::tokens(&source.text).ok()?;
    let statements = tree::statements(&tokens);
    let typed = statements.map(|statements| types::doings(source, &statements));
    match typed {
        Ok(typed) => typed.err(),
        Err(refused) => Some(Known {
            refused,
            facts: Vec::new(),
        }),
    }
}
