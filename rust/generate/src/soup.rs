//! Token soup: tokens in any order, and bytes in any order.

use crate::layout::{layout, Style};
use crate::random::Random;
use crate::singles::NEAR_CONSTANTS;

/// The reserved words: the first of the tokens.
pub fn reserved() -> &'static [&'static str] {
    &TOKENS[..11]
}

/// Every reserved word and sign, with some names, numbers and constants of floats.
const TOKENS: [&str; 50] = [
    "int",
    "bool",
    "block",
    "if",
    "else",
    "while",
    "scalar",
    "current_mask",
    "true",
    "false",
    "float",
    ";",
    "{",
    "}",
    "(",
    ")",
    "[",
    "]",
    "=",
    "==",
    "!=",
    "<",
    ">",
    "<=",
    ">=",
    "+",
    "-",
    "*",
    "&",
    "|",
    "^",
    "~",
    "!",
    "a",
    "b",
    "x",
    "_",
    "0",
    "1",
    "2",
    "4",
    "16",
    "32",
    "64",
    "2147483647",
    "3",
    "0.0",
    "1.0",
    "2.0",
    "16777216.0",
];

/// Starts that let some soup get further than its first token.
const STARTS: [&str; 13] = [
    "",
    "int x ;",
    "int x = ",
    "bool b = (",
    "int block [ 4 ] a ; a =",
    "int block [ 64 ] a ; a =",
    "bool block [ 32 ] b ; if ( b ) { ",
    "if ( true ) ; else",
    "while ( 1 <",
    "bool b ; if ( b ) { ",
    "float x =",
    "float block [ 4 ] a ; a =",
    "while ( 1.0 <",
];

/// A text of tokens or bytes in any order.
pub fn soup(random: &mut Random) -> Vec<u8> {
    if random.once_in(6) {
        return (0..random.below(40)).map(|_| random.byte()).collect();
    }
    let start = random.pick(&STARTS).split_whitespace();
    let mut tokens: Vec<String> = start.map(String::from).collect();
    for _ in 0..random.below(30) {
        tokens.push(random.token(&TOKENS).into());
    }
    if random.once_in(12) {
        tokens.push(random.token(&NEAR_CONSTANTS).into());
    }
    let style = *random.pick(&[Style::Plain, Style::Tight, Style::Wild]);
    layout(&tokens, style, random)
}
