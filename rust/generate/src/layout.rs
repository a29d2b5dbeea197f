//! Tokens set as a text, with more or fewer separators and comments.

use crate::random::Random;

/// How the space between two tokens is filled.
#[derive(Clone, Copy, Debug, PartialEq, Eq)]
pub enum Style {
    /// One space between tokens.
    Plain,
    /// A space only where two words would join.
    Tight,
    /// A line for each statement.
    Lines,
    /// Any separators, and comments now and then.
    Wild,
    /// Comments with any bytes at every third token.
    Comments,
}

impl Style {
    /// A style at random, comments seldom.
    pub fn any(random: &mut Random) -> Self {
        let styles = [
            Style::Plain,
            Style::Plain,
            Style::Tight,
            Style::Lines,
            Style::Wild,
        ];
        *random.pick(&styles)
    }
}

/// The text of these tokens in this style.
pub fn layout(tokens: &[String], style: Style, random: &mut Random) -> Vec<u8> {
    let mut text = Vec::new();
    for token in tokens {
        let joins = text.last().copied().map_or(false, is_word) && is_word(token.as_bytes()[0]);
        match style {
            Style::Plain if !text.is_empty() => text.push(b' '),
            Style::Tight if joins => text.push(b' '),
            Style::Lines => line(&mut text),
            Style::Wild => wild(&mut text, joins, 12, random),
            Style::Comments => wild(&mut text, joins, 3, random),
            _ => {}
        }
        text.extend(token.as_bytes());
    }
    if matches!(style, Style::Wild | Style::Comments) {
        wild(&mut text, false, 3, random);
    }
    text
}

/// Whether two such bytes would join to one token.
fn is_word(byte: u8) -> bool {
    byte.is_ascii_alphanumeric() || byte == b'_'
}

/// A new line after `;`, `{` and `}`, else a space.
fn line(text: &mut Vec<u8>) {
    match text.last() {
        None => {}
        Some(b';' | b'{' | b'}') => text.push(b'\n'),
        Some(_) => text.push(b' '),
    }
}

/// Any separators, a comment once in so many times.
fn wild(text: &mut Vec<u8>, joins: bool, comment_once_in: usize, random: &mut Random) {
    for _ in 0..random.below(3) + usize::from(joins) {
        if random.once_in(comment_once_in) {
            comment(text, random);
        } else {
            text.push(*random.pick(b" \t\n\r "));
        }
    }
}

/// A comment of any bytes up to its LF.
pub fn comment(text: &mut Vec<u8>, random: &mut Random) {
    text.extend(b"//");
    for _ in 0..random.below(12) {
        let bytes = [b'/', b';', b'"', b'a', b'\r', 0, 255, random.byte()];
        let byte = *random.pick(&bytes);
        text.push(if byte == b'\n' { b'*' } else { byte });
    }
    text.push(b'\n');
}
