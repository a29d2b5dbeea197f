//! Expressions in the order of their evaluation.

use super::tokens::Token;
use std::ops::Range;

/// An expression: operands before their operator.
#[derive(Clone, Debug)]
pub struct Expression<'t> {
    /// Its parts.
    pub items: Vec<Item<'t>>,
    /// Where it stands.
    pub span: Range<usize>,
}

/// One part of an expression.
#[derive(Clone, Debug)]
pub struct Item<'t> {
    /// What it is.
    pub part: Part,
    /// The number, word, name or operator itself.
    pub token: Token<'t>,
    /// Where it stands, with its operands.
    pub span: Range<usize>,
}

/// What a part of an expression is.
#[derive(Clone, Copy, Debug, PartialEq, Eq)]
pub enum Part {
    /// A number.
    Number,
    /// A constant of a float.
    Decimal,
    /// `true` or `false`.
    Truth,
    /// `current_mask`.
    CurrentMask,
    /// A name.
    Name,
    /// An operator before its operand.
    Unary,
    /// An operator between its operands.
    Binary,
}

/// How tightly a binary operator holds its operands; none for any other token.
pub fn level(operator: &str) -> Option<u32> {
    match operator {
        "|" => Some(0),
        "^" => Some(1),
        "&" => Some(2),
        "==" | "!=" => Some(3),
        "<" | ">" | "<=" | ">=" => Some(4),
        "+" | "-" => Some(5),
        "*" => Some(6),
        _ => None,
    }
}
