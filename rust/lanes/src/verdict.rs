//! An answer in words, for the place where it stands.

use crate::source::Source;
use crate::syntax::tokens;
use crate::values::counted;
use ruihmento::{Answer, Refusal};

/// The answer in one sentence, as exact as text, memory and budget allow.
pub fn sentence(source: &Source, answer: Answer, memory: usize) -> String {
    let refusal = match answer.refusal() {
        Some(refusal) => refusal,
        None => return "The text is accepted.".into(),
    };
    let sentence = match refusal {
        Refusal::MemoryTooShort => {
            let memory = counted(memory as u64, "byte");
            return format!("The memory has {memory}; the text needs {}.", answer.need);
        }
        Refusal::BudgetSpent => {
            let steps = counted(u64::from(answer.steps), "step");
            return format!("The budget of {steps} is spent, and a step of this statement is due.");
        }
        Refusal::TextTooLong => "The text has more than 4096 bytes, which is the limit.",
        Refusal::BadBytes => bad_token(source, answer.place),
        Refusal::NotAllowed if answer.place == source.text.len() => "The text ends too soon.",
        Refusal::NotAllowed => "This token is not allowed here.",
        Refusal::TooDeep => "This token opens the 33rd level of nesting; the limit is 32.",
        Refusal::UnknownName => "No variable of this name is open here.",
        Refusal::AlreadyOpen => "A variable of this name is already open here.",
        Refusal::LengthNotListed => "A block has 1, 2, 4, 8, 16, 32 or 64 lanes.",
        Refusal::WrongKind => "The kind is wrong here.",
        Refusal::WrongLength => "The number of lanes is wrong here.",
        Refusal::LengthOneTarget => {
            "A variable of one lane is not written under a condition of several lanes."
        }
        Refusal::TooManyDeclarations => "This is the 65th declaration; the limit is 64.",
        _ => return format!("The judge refuses it with code {}.", answer.code),
    };
    sentence.into()
}

/// Which of the reasons for code 2 it is.
fn bad_token(source: &Source, place: usize) -> &'static str {
    let token = &source.text[tokens::span_at(&source.text, place)];
    match token {
        [b'0', b'0'..=b'9', ..] => "This number starts with a spare zero.",
        [b'0'..=b'9', .., b'.', b'0'] => "This float is above 16777216.0.",
        [b'0'..=b'9', ..] if token.contains(&b'.') => {
            "A float is written as a whole number followed by `.0`."
        }
        [b'0'..=b'9', ..] => "This number is above 2147483647.",
        [b'_' | b'a'..=b'z' | b'A'..=b'Z', ..] => "This name is too long.",
        _ => "This character is outside the text rules.",
    }
}

/// Whether the place of such an answer is shown in the text.
pub fn has_place(answer: Answer) -> bool {
    let without = [
        Some(Refusal::TextTooLong),
        Some(Refusal::MemoryTooShort),
        None,
    ];
    !without.contains(&answer.refusal())
}
