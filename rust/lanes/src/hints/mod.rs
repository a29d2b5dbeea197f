//! More about a refusal: what was found, what may stand there, what was probably meant.
//!
//! All of it starts from the judge's own code and place. What may stand at a place is found by
//! asking the judge; kinds and lengths are told only where the reading of `syntax` comes to the
//! same code and place.

mod allowed;
mod bytes;
mod habits;

use crate::source::Source;
use crate::syntax::{self, tokens};
use ruihmento::{Answer, Refusal};

/// What else can be said of an answer.
pub fn hints(source: &Source, answer: Answer) -> Vec<String> {
    let place = answer.place;
    match answer.refusal() {
        Some(Refusal::BadBytes) => bytes::hint(&source.text, place).into_iter().collect(),
        Some(Refusal::NotAllowed) => not_allowed(source, place),
        Some(refusal) if refusal.is_of_text() => match syntax::known(source) {
            Some(known) if known.refused.is(answer) => known.facts,
            _ => Vec::new(),
        },
        _ => Vec::new(),
    }
}

/// What was probably meant at this place, and what may stand there.
fn not_allowed(source: &Source, place: usize) -> Vec<String> {
    let tokens = match tokens::tokens(&source.text) {
        Ok(tokens) => tokens,
        Err(_) => return Vec::new(),
    };
    let at = match tokens.iter().position(|token| token.start == place) {
        Some(at) => at,
        None => return Vec::new(),
    };
    let allowed = allowed::at(&source.text[..place]);
    let habit = habits::hint(source, &tokens, at, &allowed);
    habit.into_iter().chain(allowed.sentence()).collect()
}
