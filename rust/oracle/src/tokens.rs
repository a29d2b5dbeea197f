//! Document 01, "The text": from bytes to tokens.

use crate::answer::{Code, Refusal};
use crate::singles;

/// The text: "At most 4,096 bytes."
const LONGEST_TEXT: usize = 4096;

/// The text: a name is "at most 31 bytes".
const LONGEST_NAME: usize = 31;

/// The text: "A number is decimal, 0 to 2147483647".
const LARGEST_NUMBER: u32 = 2_147_483_647;

/// Document 02, R-2: "A constant is a whole number up to 16777216".
const LARGEST_WHOLE: u32 = 16_777_216;

/// The text: "Reserved: int bool block if else while scalar current_mask true false."; document
/// 02, R-2: "`float` becomes reserved."
const RESERVED: [(&[u8], Form); 11] = [
    (b"int", Form::Int),
    (b"bool", Form::Bool),
    (b"block", Form::Block),
    (b"if", Form::If),
    (b"else", Form::Else),
    (b"while", Form::While),
    (b"scalar", Form::Scalar),
    (b"current_mask", Form::CurrentMask),
    (b"true", Form::True),
    (b"false", Form::False),
    (b"float", Form::Float),
];

/// The text: a token's form, and where its first byte stands.
#[derive(Clone, Copy, Debug)]
pub struct Token {
    /// What is built: "place (a byte offset in the text)".
    pub place: u32,
    /// The text: which of the names, numbers, reserved words and signs it is.
    pub form: Form,
}

/// The text: names, numbers, reserved words and signs; the text's end is one more form.
#[derive(Clone, Copy, Debug, PartialEq, Eq)]
pub enum Form {
    Name {
        length: u8,
    },
    Number(u32),
    /// Document 02, R-2: "A constant", by its pattern.
    Single(u32),
    Int,
    Bool,
    Block,
    If,
    Else,
    While,
    Scalar,
    CurrentMask,
    True,
    False,
    Float,
    Semicolon,
    OpenBrace,
    CloseBrace,
    OpenParenthesis,
    CloseParenthesis,
    OpenBracket,
    CloseBracket,
    Assign,
    Equal,
    Unequal,
    Less,
    Greater,
    AtMost,
    AtLeast,
    Plus,
    Minus,
    Star,
    And,
    Or,
    Xor,
    Tilde,
    Bang,
    End,
}

/// Codes: "Order: 1; then 2 over the whole text", before any token is judged.
pub fn tokens(text: &[u8]) -> Result<Vec<Token>, Refusal> {
    if text.len() > LONGEST_TEXT {
        return Err(Refusal::new(Code::TextTooLong, 0));
    }
    let mut tokens = Vec::with_capacity(text.len() / 2 + 1);
    let mut at = after_separators(text, 0);
    while at < text.len() {
        let place = at as u32;
        let taken = token(&text[at..]);
        let (form, length) = taken.ok_or(Refusal::new(Code::BadBytes, place))?;
        tokens.push(Token { place, form });
        at = after_separators(text, at + length);
    }
    tokens.push(Token {
        place: text.len() as u32,
        form: Form::End,
    });
    Ok(tokens)
}

/// The text: "Space, tab, LF, CR separate; `//` runs over any bytes to LF or the end."
fn after_separators(text: &[u8], mut at: usize) -> usize {
    loop {
        match text[at..] {
            [b' ' | b'\t' | b'\n' | b'\r', ..] => at += 1,
            [b'/', b'/', ..] => at += count(&text[at..], |byte| byte != b'\n'),
            _ => return at,
        }
    }
}

/// The text: "Tokens are taken longest first."
fn token(rest: &[u8]) -> Option<(Form, usize)> {
    match rest[0] {
        b'a'..=b'z' | b'A'..=b'Z' | b'_' => word(rest),
        b'0'..=b'9' => digits(rest),
        _ => sign(rest),
    }
}

/// The text: "A name is a letter or `_`, then letters, digits, `_`".
fn word(rest: &[u8]) -> Option<(Form, usize)> {
    let length = count(rest, |byte| byte.is_ascii_alphanumeric() || byte == b'_');
    if length > LONGEST_NAME {
        return None;
    }
    let name = Form::Name {
        length: length as u8,
    };
    let reserved = RESERVED.iter().find(|(word, _)| *word == &rest[..length]);
    Some((reserved.map_or(name, |(_, form)| *form), length))
}

/// The text: "A number is decimal"; document 02, R-2: with a dot behind its digits it is a
/// "constant", well formed or not.
fn digits(rest: &[u8]) -> Option<(Form, usize)> {
    let length = count_digits(rest);
    match rest.get(length) {
        Some(b'.') => constant(rest, length),
        _ => Some((
            Form::Number(number(&rest[..length], LARGEST_NUMBER)?),
            length,
        )),
    }
}

/// The text: "0 to 2147483647, with no leading zero unless it is `0`", or to another limit.
fn number(digits: &[u8], largest: u32) -> Option<u32> {
    if digits[0] == b'0' && digits.len() > 1 {
        return None;
    }
    let mut value: u32 = 0;
    for digit in digits {
        let digit = u32::from(digit - b'0');
        value = value.checked_mul(10)?.checked_add(digit)?;
    }
    (value <= largest).then_some(value)
}

/// Document 02, R-2: "a whole number up to 16777216 followed by `.0`"; any other digits behind
/// the dot make it "malformed".
fn constant(rest: &[u8], whole: usize) -> Option<(Form, usize)> {
    let value = number(&rest[..whole], LARGEST_WHOLE)?;
    let behind = &rest[whole + 1..];
    let length = count_digits(behind);
    if behind[..length] != *b"0" {
        return None;
    }
    Some((Form::Single(singles::constant(value)), whole + 1 + length))
}

/// The text: how many digits stand here.
fn count_digits(rest: &[u8]) -> usize {
    count(rest, |byte| byte.is_ascii_digit())
}

/// The text: "Signs: `; { } ( ) [ ] = == != < > <= >= + - * & | ^ ~ !`", longest first.
fn sign(rest: &[u8]) -> Option<(Form, usize)> {
    let form = match rest {
        [b'=', b'=', ..] => return Some((Form::Equal, 2)),
        [b'!', b'=', ..] => return Some((Form::Unequal, 2)),
        [b'<', b'=', ..] => return Some((Form::AtMost, 2)),
        [b'>', b'=', ..] => return Some((Form::AtLeast, 2)),
        [b';', ..] => Form::Semicolon,
        [b'{', ..] => Form::OpenBrace,
        [b'}', ..] => Form::CloseBrace,
        [b'(', ..] => Form::OpenParenthesis,
        [b')', ..] => Form::CloseParenthesis,
        [b'[', ..] => Form::OpenBracket,
        [b']', ..] => Form::CloseBracket,
        [b'=', ..] => Form::Assign,
        [b'<', ..] => Form::Less,
        [b'>', ..] => Form::Greater,
        [b'+', ..] => Form::Plus,
        [b'-', ..] => Form::Minus,
        [b'*', ..] => Form::Star,
        [b'&', ..] => Form::And,
        [b'|', ..] => Form::Or,
        [b'^', ..] => Form::Xor,
        [b'~', ..] => Form::Tilde,
        [b'!', ..] => Form::Bang,
        _ => return None,
    };
    Some((form, 1))
}

/// The text: how many bytes a token or comment "runs over", byte by byte.
fn count(rest: &[u8], runs: impl Fn(u8) -> bool) -> usize {
    let end = rest.iter().position(|byte| !runs(*byte));
    end.unwrap_or(rest.len())
}
