//! Well-typed programs with one change of kind, length, scope, target or order.

use crate::random::Random;
use crate::singles::NEAR_CONSTANTS;
use crate::soup::reserved;

/// The words of the kinds.
const KINDS: [&str; 3] = ["int", "bool", "float"];

/// Changes one thing in these tokens, if there is a place for it. Each way of changing gives
/// none where it finds no place.
pub fn change(tokens: &mut Vec<String>, random: &mut Random) {
    for _ in 0..8 {
        let changed = match random.below(14) {
            0 => replace(tokens, random, &KINDS, &KINDS),
            1 => block_length(tokens, random),
            2 => without_block(tokens, random),
            3 => with_block(tokens, random),
            4..=5 => other_name(tokens, random),
            6 => operator(tokens, random),
            7 => constant(tokens, random),
            8 => replace(tokens, random, &["{", "}"], &[";", "{", "scalar"]),
            9 => without_scalar(tokens, random),
            10 => statement(tokens, random),
            11 => insert_unary(tokens, random),
            12 => near_constant(tokens, random),
            _ => insert_statement(tokens, random),
        };
        if changed.is_some() {
            return;
        }
    }
}

/// The index of a token at random among those that satisfy the test.
fn find(tokens: &[String], random: &mut Random, test: impl Fn(usize) -> bool) -> Option<usize> {
    let found: Vec<usize> = (0..tokens.len()).filter(|index| test(*index)).collect();
    match found.is_empty() {
        true => None,
        false => Some(*random.pick(&found)),
    }
}

/// Puts one of `others` in the place of one of `these`.
fn replace(
    tokens: &mut [String],
    random: &mut Random,
    these: &[&str],
    others: &[&'static str],
) -> Option<()> {
    let among = |index: usize| these.contains(&tokens[index].as_str());
    let index = find(tokens, random, among)?;
    tokens[index] = random.token(others).into();
    Some(())
}

/// Another number in one `block[N]`.
fn block_length(tokens: &mut [String], random: &mut Random) -> Option<()> {
    let number = |index: usize| index >= 2 && tokens[index - 2] == "block";
    let index = find(tokens, random, number)?;
    let numbers = [
        "1", "2", "4", "8", "16", "32", "64", "0", "3", "17", "31", "33", "63", "65", "128",
    ];
    tokens[index] = random.token(&numbers).into();
    Some(())
}

/// One type loses its `block[N]`.
fn without_block(tokens: &mut Vec<String>, random: &mut Random) -> Option<()> {
    let block = |index: usize| tokens[index] == "block";
    let index = find(tokens, random, block)?;
    tokens.drain(index..(index + 4).min(tokens.len()));
    Some(())
}

/// One type gets a `block[N]`.
fn with_block(tokens: &mut Vec<String>, random: &mut Random) -> Option<()> {
    let scalar = |index: usize| {
        let next = tokens.get(index + 1).map(String::as_str);
        KINDS.contains(&tokens[index].as_str()) && next != Some("block")
    };
    let index = find(tokens, random, scalar)?;
    let number = random.token(&["1", "2", "4", "8", "16", "32", "64"]);
    let block = ["block", "[", number, "]"].map(String::from);
    tokens.splice(index + 1..index + 1, block);
    Some(())
}

/// One statement loses its `scalar`.
fn without_scalar(tokens: &mut Vec<String>, random: &mut Random) -> Option<()> {
    let scalar = |index: usize| tokens[index] == "scalar";
    let index = find(tokens, random, scalar)?;
    tokens.remove(index);
    Some(())
}

/// Whether a token is a name.
fn is_name(token: &str) -> bool {
    let first = token.as_bytes()[0];
    (first.is_ascii_alphabetic() || first == b'_') && !reserved().contains(&token)
}

/// Another name of the text, or an unknown one, in the place of a name.
fn other_name(tokens: &mut [String], random: &mut Random) -> Option<()> {
    let name = |index: usize| is_name(&tokens[index]);
    let index = find(tokens, random, name)?;
    let other = find(tokens, random, name).map(|other| tokens[other].clone());
    tokens[index] = match other {
        Some(other) if !random.once_in(5) => other,
        _ => "unknown".into(),
    };
    Some(())
}

/// Another operator in the place of one.
fn operator(tokens: &mut [String], random: &mut Random) -> Option<()> {
    let signs = [
        "|", "^", "&", "==", "!=", "<", ">", "<=", ">=", "+", "-", "*",
    ];
    replace(tokens, random, &signs, &signs)
}

/// Whether a token is a constant or current_mask, and no length of a block.
fn is_constant(tokens: &[String], index: usize) -> bool {
    let token = tokens[index].as_str();
    let number = token.as_bytes()[0].is_ascii_digit();
    let block = index >= 2 && tokens[index - 2] == "block";
    !block && (number || ["true", "false", "current_mask"].contains(&token))
}

/// A constant or current_mask in the place of a constant.
fn constant(tokens: &mut [String], random: &mut Random) -> Option<()> {
    let index = find(tokens, random, |index| is_constant(tokens, index))?;
    let others = ["true", "7", "current_mask", "7.0"];
    tokens[index] = random.token(&others).into();
    Some(())
}

/// What is nearly a constant of a float in the place of a constant.
fn near_constant(tokens: &mut [String], random: &mut Random) -> Option<()> {
    let index = find(tokens, random, |index| is_constant(tokens, index))?;
    tokens[index] = random.token(&NEAR_CONSTANTS).into();
    Some(())
}

/// The span of a simple statement: from after a `;`, `{` or `}` to its `;`.
fn simple(tokens: &[String], random: &mut Random) -> Option<(usize, usize)> {
    let boundary = |index: usize| [";", "{", "}"].contains(&tokens[index].as_str());
    let end = find(tokens, random, |index| tokens[index] == ";")?;
    let start = (0..end).rev().find(|index| boundary(*index));
    Some((start.map_or(0, |index| index + 1), end + 1))
}

/// One statement is left out, or said twice, or moved.
fn statement(tokens: &mut Vec<String>, random: &mut Random) -> Option<()> {
    let (start, end) = simple(tokens, random)?;
    let span: Vec<String> = match random.below(3) {
        0 => tokens[start..end].to_vec(),
        _ => tokens.drain(start..end).collect(),
    };
    if random.once_in(2) {
        let to = simple(tokens, random).map_or(0, |(start, _)| start);
        tokens.splice(to..to, span);
    }
    Some(())
}

/// A unary operator before an operand.
fn insert_unary(tokens: &mut Vec<String>, random: &mut Random) -> Option<()> {
    let operand =
        |index: usize| index > 0 && ["=", "(", "+", "<", "&"].contains(&tokens[index - 1].as_str());
    let index = find(tokens, random, operand)?;
    let sign = random.token(&["-", "~", "!"]);
    tokens.insert(index, sign.into());
    Some(())
}

/// A statement that may not fit where it stands.
fn insert_statement(tokens: &mut Vec<String>, random: &mut Random) -> Option<()> {
    let to = simple(tokens, random).map_or(0, |(start, _)| start);
    let statements: [&[&str]; 12] = [
        &["float", "new", "=", "1.0", ";"],
        &["float", "x", ";"],
        &["x", "=", "1.0", ";"],
        &["int", "new", "=", "1", ";"],
        &["bool", "new", "=", "true", ";"],
        &["int", "x", ";"],
        &["x", "=", "1", ";"],
        &["bool", "ok", "=", "current_mask", ";"],
        &["int", "block", "[", "4", "]", "s", "=", "1", ";"],
        &["int", "block", "[", "64", "]", "s", "=", "1", ";"],
        &["scalar", "a", "=", "0", ";"],
        &["while", "(", "b", ")", "c", "=", "c", ";"],
    ];
    let statement = random
        .pick(&statements)
        .iter()
        .map(|token| token.to_string());
    tokens.splice(to..to, statement);
    Some(())
}
