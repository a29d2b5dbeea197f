//! What is known of a refusal of typing, in words.

use super::tokens::{self, Token};
use super::types::{Context, Declared, Found, Type, Typing};
use crate::near::nearest;
use crate::routine::{described, Kind};
use crate::source::Source;

/// The most characters of an operand that are shown.
const LONGEST: usize = 40;

/// What to know of ints and floats that are no constants.
pub const NO_CONVERSION: &str = "An int does not become a float, nor a float an int.";

/// An operand as it stands in the text.
fn operand(source: &Source, found: &Found) -> String {
    let shown = source.shown(found.span.clone());
    match shown.chars().count() {
        0..=LONGEST => format!("`{shown}`"),
        _ => {
            let start: String = shown.chars().take(LONGEST - 3).collect();
            format!("`{start}...`")
        }
    }
}

/// What an operand is.
fn what(source: &Source, found: &Found) -> String {
    let (name, of) = (operand(source, found), found.of);
    format!("{name} is {}", an(of))
}

/// A type with its article.
fn an(of: Type) -> String {
    described(of.kind, of.length)
}

/// A number of lanes.
fn lanes(length: usize) -> String {
    match length {
        1 => "one lane".into(),
        _ => format!("{length} lanes"),
    }
}

/// The operands are not of a kind that the operator takes, or not of one kind.
pub fn operands(source: &Source, operator: Token, taken: &[Kind], found: &[Found]) -> Vec<String> {
    let takes = taken.iter().map(|kind| taken_as(*kind, found.len()));
    let refused = |found: &&Found| !taken.contains(&found.of.kind);
    let mut wrong: Vec<&Found> = found.iter().filter(refused).collect();
    let mixed = wrong.is_empty();
    if mixed {
        wrong.extend(found);
    }
    let told: Vec<String> = wrong.iter().map(|found| what(source, found)).collect();
    let (sign, takes) = (operator.text, either(takes.collect()));
    let mut facts = vec![format!("`{sign}` takes {takes}; {}.", told.join(", and "))];
    if let (true, [left, right]) = (mixed, found) {
        facts.extend(converted(source, left, right));
    }
    facts
}

/// One of these, in words.
fn either(mut words: Vec<String>) -> String {
    match (words.pop(), words.is_empty()) {
        (Some(last), false) => format!("{} or {last}", words.join(", ")),
        (last, _) => last.unwrap_or_default(),
    }
}

/// What an operator with so many operands takes, of this kind.
fn taken_as(kind: Kind, operands: usize) -> String {
    match (kind, operands) {
        (Kind::Int, 1) => "an int".into(),
        (kind, 1) => format!("a {kind}"),
        (kind, _) => format!("two {kind}s"),
    }
}

/// What to write where an int and a float meet; nothing of other kinds.
fn converted(source: &Source, one: &Found, other: &Found) -> Option<String> {
    let (int, float) = match (one.of.kind, other.of.kind) {
        (Kind::Int, Kind::Float) => (one, other),
        (Kind::Float, Kind::Int) => (other, one),
        _ => return None,
    };
    let shown = |found: &Found| source.shown(found.span.clone());
    if let Some(constant) = as_float(&shown(int)) {
        return Some(format!("As a float it is written `{constant}`."));
    }
    if let Some(digits) = as_int(&shown(float)) {
        return Some(format!("As an int it is written `{digits}`."));
    }
    Some(NO_CONVERSION.into())
}

/// The constant of a float for these digits, perhaps behind a minus, if there is one.
fn as_float(digits: &str) -> Option<String> {
    let constant = format!("{digits}.0");
    let known = tokens::decimal(constant.trim_start_matches('-'));
    known.map(|_| constant)
}

/// The digits of an int for this constant of a float, perhaps behind a minus.
fn as_int(constant: &str) -> Option<&str> {
    tokens::decimal(constant.trim_start_matches('-'))?;
    constant.strip_suffix(".0")
}

/// The operands have different lengths.
pub fn operand_lengths(source: &Source, left: &Found, right: &Found) -> String {
    format!(
        "{} has {}, and {} has {}: the lengths must be equal, or one of them 1.",
        operand(source, left),
        lanes(left.of.length),
        operand(source, right),
        lanes(right.of.length)
    )
}

/// The value is of another kind than its target.
pub fn stored_kind(source: &Source, name: Token, of: Type, found: &Found) -> Vec<String> {
    let name = name.text;
    let value = what(source, found);
    let mut facts = vec![format!("`{name}` is {}; its value {value}.", an(of))];
    let shown = source.shown(found.span.clone());
    let written = match (of.kind, found.of.kind) {
        (Kind::Bool, kind) => Some(format!(
            "A bool is true, false, or a comparison such as `x != {}`.",
            zero(kind)
        )),
        (Kind::Float, Kind::Int) => as_float(&shown).map(|constant| format!("Write `{constant}`.")),
        (Kind::Int, Kind::Float) => as_int(&shown).map(|digits| format!("Write `{digits}`.")),
        _ => return facts,
    };
    facts.push(written.unwrap_or_else(|| NO_CONVERSION.into()));
    facts
}

/// The zero with which a value of this kind is compared.
fn zero(kind: Kind) -> &'static str {
    match kind {
        Kind::Float => "0.0",
        _ => "0",
    }
}

/// The value has another length than its target.
pub fn stored_length(source: &Source, name: Token, of: Type, found: &Found) -> String {
    let allowed = match of.length {
        1 => "1".into(),
        length => format!("{length} or 1"),
    };
    format!(
        "`{}` has {}; its value {} has {}, and may have {allowed}.",
        name.text,
        lanes(of.length),
        operand(source, found),
        lanes(found.of.length)
    )
}

/// The condition under which a statement stands, in words.
fn condition_at(source: &Source, context: Context) -> String {
    let word = source.shown(tokens::span_at(&source.text, context.place));
    let position = source.position(context.place);
    let lanes = lanes(context.length);
    format!("the condition of the `{word}` at {position} has {lanes}")
}

/// A name's length fits neither the condition nor 1.
pub fn name_in_context(source: &Source, name: Token, of: Type, context: Context) -> String {
    let (name, has, allowed) = (name.text, lanes(of.length), context.length);
    let condition = condition_at(source, context);
    format!("`{name}` has {has}; {condition}, so a name under it has {allowed} or 1.")
}

/// A target of one lane under a condition of several; `open` says that it is declared already.
pub fn one_lane(
    source: &Source,
    name: Token,
    of: Type,
    context: Context,
    open: bool,
) -> Vec<String> {
    let condition = condition_at(source, context);
    let (name, length, kind) = (name.text, context.length, of.kind);
    let block = format!("declare `{kind} block[{length}] {name}`");
    vec![
        format!("`{name}` has one lane; {condition}."),
        match open {
            true => format!("Write `scalar {name} = ..;` to write it once, or {block}."),
            false => format!("For a lane each, {block}."),
        },
    ]
}

/// A condition that is no bool.
pub fn condition(source: &Source, place: usize, found: &Found) -> Vec<String> {
    let word = source.shown(tokens::span_at(&source.text, place));
    let value = what(source, found);
    vec![
        format!("`{word}` takes a bool; {value}."),
        format!("Compare it, for example with `!= {}`.", zero(found.of.kind)),
    ]
}

/// A length that is not in the list.
pub fn block_length(given: usize, lengths: &[usize]) -> Vec<String> {
    let next = lengths.iter().find(|length| **length > given);
    let next = next.map(|next| format!("The next greater length is {next}."));
    next.into_iter().collect()
}

/// Where a name was declared first.
pub fn first_declared(source: &Source, first: &Declared) -> String {
    let (name, position) = (first.name.text, source.position(first.name.start));
    format!("`{name}` is declared at {position}, and its scope is open here.")
}

/// What is like a name that is not open: the one whose initial value it stands in, one that was
/// open, one that will be, one that is near.
pub fn unknown_name(typing: &Typing, name: Token, own: Option<Token>) -> Vec<String> {
    let source = typing.source;
    if own.map_or(false, |own| own.text == name.text) {
        let name = name.text;
        return vec![format!(
            "The initial value of `{name}` is read before the name is open."
        )];
    }
    let mut declared = typing.declared.iter();
    if let Some(closed) = declared.rfind(|known| known.name.text == name.text) {
        let position = source.position(closed.name.start);
        let name = name.text;
        return vec![format!(
            "`{name}` is declared at {position}, in a scope that is closed here."
        )];
    }
    if let Some(later) = declared_later(source, name) {
        let position = source.position(later);
        let name = name.text;
        return vec![format!(
            "`{name}` is declared only at {position}, after this place."
        )];
    }
    let open = typing.declared.iter().filter(|known| known.open);
    let open: Vec<&Declared> = open.collect();
    let near = nearest(name.text, open.iter().map(|known| known.name.text));
    let near = open.iter().find(|known| Some(known.name.text) == near);
    let near = near.map(|near| {
        let position = source.position(near.name.start);
        format!("Is `{}` meant, declared at {position}?", near.name.text)
    });
    let told = near.or_else(|| no_constant(name.text));
    told.into_iter().collect()
}

/// What to know of a float that is no number, and has no constant.
fn no_constant(name: &str) -> Option<String> {
    let named = ["nan", "inf", "infinity"].contains(&name.to_ascii_lowercase().as_str());
    named.then(|| "There is no constant for it: it is a sample, or is computed.".into())
}

/// Where a later declaration of this name stands.
fn declared_later(source: &Source, name: Token) -> Option<usize> {
    let tokens = tokens::tokens(&source.text).ok()?;
    let mut pairs = tokens.windows(2);
    let declares = |before: &Token| {
        let words = ["int", "bool", "float", "]"];
        words.iter().any(|word| before.is(word))
    };
    let later = pairs
        .find(|pair| pair[1].start > name.start && pair[1].text == name.text && declares(&pair[0]));
    later.map(|pair| pair[1].start)
}
