//! Seeded generators of cases (a text, a memory, a budget) to test lane runners with.
//!
//! [`mixed`] gives case after case from a seed; [`case`] gives one of a chosen [`Sort`];
//! A [`Shape`] makes many images of a case's text. [`narrow`] makes one lane a program of its own,
//! and [`shrink`] makes a failing case smaller.
#![forbid(unsafe_code)]
#![warn(missing_docs)]

mod any_typed;
mod batches;
mod damage;
mod expression;
mod layout;
mod limits;
mod memories;
mod narrow;
mod nearly;
mod pieces;
mod random;
mod shrink;
mod singles;
mod soup;
mod well_typed;

pub use batches::{Batch, Shape};
pub use memories::{budget_for, memory_for};
pub use narrow::{lane_bytes, narrow, narrow_memory};
pub use pieces::{pieces, Piece};
pub use random::Random;
pub use shrink::shrink;
pub use well_typed::{Wishes, BLOCK_LENGTHS};

use layout::{layout, Style};
use well_typed::well_typed;

/// What a run takes.
#[derive(Clone, Debug, PartialEq, Eq)]
pub struct Case {
    /// The program text.
    pub text: Vec<u8>,
    /// The memory before the run.
    pub memory: Vec<u8>,
    /// The budget of steps.
    pub budget: u32,
}

/// How a text is made.
#[derive(Clone, Copy, Debug, PartialEq, Eq)]
pub enum Sort {
    /// Every rule of typing is kept.
    WellTyped,
    /// One change of kind, length, scope, target or order.
    NearlyTyped,
    /// Any kinds, lengths and names within the grammar.
    AnyTyped,
    /// Bytes flipped, inserted, deleted, moved.
    Damaged,
    /// Tokens or bytes in any order.
    Soup,
    /// Nesting of 30 to 34 levels.
    Nesting,
    /// 60 to 68 declarations.
    Declarations,
    /// 4,090 to 4,100 bytes.
    LongText,
    /// Comments with any bytes.
    Comments,
    /// Names of 30 to 33 bytes.
    Names,
    /// Numbers and constants of floats round the limits.
    Numbers,
}

impl Sort {
    /// Every sort, with its name.
    pub const ALL: [(Sort, &'static str); 11] = [
        (Sort::WellTyped, "well-typed"),
        (Sort::NearlyTyped, "nearly-typed"),
        (Sort::AnyTyped, "any-typed"),
        (Sort::Damaged, "damaged"),
        (Sort::Soup, "soup"),
        (Sort::Nesting, "nesting"),
        (Sort::Declarations, "declarations"),
        (Sort::LongText, "long-text"),
        (Sort::Comments, "comments"),
        (Sort::Names, "names"),
        (Sort::Numbers, "numbers"),
    ];
}

/// A text of this sort.
pub fn text(sort: Sort, random: &mut Random) -> Vec<u8> {
    match sort {
        Sort::WellTyped => well_typed_text(&Wishes::any(random), random),
        Sort::NearlyTyped => nearly_typed_text(random),
        Sort::AnyTyped => {
            let tokens = any_typed::any_typed(random);
            let style = Style::any(random);
            layout(&tokens, style, random)
        }
        Sort::Damaged => {
            let mut text = well_typed_text(&Wishes::any(random), random);
            damage::damage(&mut text, random);
            text
        }
        Sort::Soup => soup::soup(random),
        Sort::Nesting => limits::nesting(random),
        Sort::Declarations => limits::declarations(random),
        Sort::LongText => limits::long_text(random),
        Sort::Comments => limits::comments(random),
        Sort::Names => limits::names(random),
        Sort::Numbers => limits::numbers(random),
    }
}

/// A text that keeps every rule of typing and these wishes.
pub fn well_typed_text(wishes: &Wishes, random: &mut Random) -> Vec<u8> {
    let tokens = well_typed(wishes, random);
    let style = Style::any(random);
    layout(&tokens, style, random)
}

/// A well-typed text with one change.
fn nearly_typed_text(random: &mut Random) -> Vec<u8> {
    let wishes = Wishes::any(random);
    let mut tokens = well_typed(&wishes, random);
    nearly::change(&mut tokens, random);
    let style = Style::any(random);
    layout(&tokens, style, random)
}

/// A case of this sort.
pub fn case(sort: Sort, random: &mut Random) -> Case {
    let text = text(sort, random);
    let memory = memory_for(&text, random);
    let budget = budget_for(&text, random);
    Case {
        text,
        memory,
        budget,
    }
}

/// The case of this seed and index: well typed or nearly so more often than the other sorts.
pub fn mixed(seed: u64, index: u64) -> (Sort, Case) {
    let mut random = Random::new(seed, index);
    let sort = match random.below(16) {
        0..=4 => Sort::WellTyped,
        5..=6 => Sort::NearlyTyped,
        7..=8 => Sort::AnyTyped,
        _ => random.pick(&Sort::ALL).0,
    };
    let case = case(sort, &mut random);
    (sort, case)
}
