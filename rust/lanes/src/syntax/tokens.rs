//! Tokens and where they stand.

use super::Refused;
use std::ops::Range;

/// The most bytes of a name.
const LONGEST_NAME: usize = 31;

/// The largest whole number of a float's constant.
const LARGEST_WHOLE: i32 = 16_777_216;

/// The words that are no names.
pub const RESERVED: [&str; 11] = [
    "int",
    "bool",
    "block",
    "if",
    "else",
    "while",
    "scalar",
    "current_mask",
    "true",
    "false",
    "float",
];

/// The signs, longer ones first.
pub const SIGNS: [&str; 22] = [
    "==", "!=", "<=", ">=", ";", "{", "}", "(", ")", "[", "]", "=", "<", ">", "+", "-", "*", "&",
    "|", "^", "~", "!",
];

/// What a token is.
#[derive(Clone, Copy, Debug, PartialEq, Eq)]
pub enum Sort {
    /// A name.
    Name,
    /// A number.
    Number,
    /// A constant of a float: a whole number and `.0`.
    Decimal,
    /// A reserved word.
    Word,
    /// A sign.
    Sign,
    /// The end of the text.
    End,
}

/// A token; the end of the text is the last one, without bytes.
#[derive(Clone, Copy, Debug, PartialEq, Eq)]
pub struct Token<'t> {
    /// What it is.
    pub sort: Sort,
    /// Where it starts.
    pub start: usize,
    /// Its bytes.
    pub text: &'t str,
}

impl Token<'_> {
    /// Where it ends.
    pub fn end(&self) -> usize {
        self.start + self.text.len()
    }

    /// Where it stands.
    pub fn span(&self) -> Range<usize> {
        self.start..self.end()
    }

    /// Whether it is this reserved word or sign.
    pub fn is(&self, text: &str) -> bool {
        self.text == text && matches!(self.sort, Sort::Word | Sort::Sign)
    }
}

/// The tokens of a text, or the first place where there is none.
pub fn tokens(text: &[u8]) -> Result<Vec<Token<'_>>, Refused> {
    let mut tokens = Vec::new();
    let mut at = after_space(text, 0);
    while at < text.len() {
        let found = token(text, at).ok_or(Refused { code: 2, place: at })?;
        tokens.push(found);
        at = after_space(text, found.end());
    }
    tokens.push(Token {
        sort: Sort::End,
        start: text.len(),
        text: "",
    });
    Ok(tokens)
}

/// The place after separators and comments.
fn after_space(text: &[u8], mut at: usize) -> usize {
    loop {
        match text[at..] {
            [b' ' | b'\t' | b'\n' | b'\r', ..] => at += 1,
            [b'/', b'/', ..] => at += run(&text[at..], |byte| byte != b'\n'),
            _ => return at,
        }
    }
}

/// How many bytes from the start pass the test.
fn run(bytes: &[u8], test: impl Fn(u8) -> bool) -> usize {
    bytes.iter().take_while(|byte| test(**byte)).count()
}

/// How many bytes of a word or a number stand here; none for any other byte.
fn length(bytes: &[u8]) -> (Sort, usize) {
    match bytes[0] {
        b'0'..=b'9' => digits(bytes),
        b'_' | b'a'..=b'z' | b'A'..=b'Z' => {
            let in_name = |byte: u8| byte == b'_' || byte.is_ascii_alphanumeric();
            (Sort::Name, run(bytes, in_name))
        }
        _ => (Sort::Sign, 0),
    }
}

/// How many bytes of a number stand here; with a dot behind its digits it is a float's.
fn digits(bytes: &[u8]) -> (Sort, usize) {
    let digits = |bytes: &[u8]| run(bytes, |byte| byte.is_ascii_digit());
    let whole = digits(bytes);
    match bytes.get(whole) {
        Some(b'.') => (Sort::Decimal, whole + 1 + digits(&bytes[whole + 1..])),
        _ => (Sort::Number, whole),
    }
}

/// The token that starts here, the longest that there is.
fn token(text: &[u8], start: usize) -> Option<Token<'_>> {
    let rest = &text[start..];
    let (sort, length) = length(rest);
    let word = std::str::from_utf8(&rest[..length]).unwrap_or_default();
    let (sort, text) = match sort {
        Sort::Number if number(word).is_some() => (Sort::Number, word),
        Sort::Decimal if decimal(word).is_some() => (Sort::Decimal, word),
        Sort::Name if RESERVED.contains(&word) => (Sort::Word, word),
        Sort::Name if length <= LONGEST_NAME => (Sort::Name, word),
        Sort::Sign => {
            let sign = SIGNS
                .iter()
                .find(|sign| rest.starts_with(sign.as_bytes()))?;
            (Sort::Sign, *sign)
        }
        _ => return None,
    };
    Some(Token { sort, start, text })
}

/// The value of a number's digits, if they are allowed.
pub fn number(digits: &str) -> Option<i32> {
    let spare_zero = digits.len() > 1 && digits.starts_with('0');
    digits.parse().ok().filter(|_| !spare_zero)
}

/// The value of a float's constant, if it is allowed.
pub fn decimal(word: &str) -> Option<f32> {
    let whole = number(word.strip_suffix(".0")?)?;
    // Up to here every whole number is a float.
    (whole <= LARGEST_WHOLE).then_some(whole as f32)
}

/// Where the token or character that stands at this place stands, also where it is no token.
pub fn span_at(text: &[u8], place: usize) -> Range<usize> {
    if place >= text.len() {
        return place..place;
    }
    let rest = &text[place..];
    let end = match length(rest).1 {
        0 => match token(text, place) {
            Some(sign) => sign.end(),
            None => place + character_length(rest),
        },
        length => place + length,
    };
    place..end
}

/// How many bytes the first character has; 1 where it is no UTF-8.
fn character_length(bytes: &[u8]) -> usize {
    let part = &bytes[..bytes.len().min(4)];
    let valid = match std::str::from_utf8(part) {
        Ok(text) => text,
        Err(error) => std::str::from_utf8(&part[..error.valid_up_to()]).unwrap_or_default(),
    };
    valid.chars().next().map_or(1, char::len_utf8)
}

#[cfg(test)]
mod tests {
    use super::*;

    #[test]
    fn tokens_have_their_places() {
        let found = tokens(b"int x=12<=y; // end\n ").unwrap();
        let found: Vec<(usize, &str)> = found.iter().map(|t| (t.start, t.text)).collect();
        let expected = [
            (0, "int"),
            (4, "x"),
            (5, "="),
            (6, "12"),
            (8, "<="),
            (10, "y"),
        ];
        assert_eq!(found[..6], expected);
        assert_eq!(found[6..], [(11, ";"), (21, "")]);
    }

    #[test]
    fn what_is_no_token_has_a_span() {
        for (text, place, span) in [
            (&b"int x = 010;"[..], 8, 8..11),
            ("a ü".as_bytes(), 2, 2..4),
            (b"a \xff\xff", 2, 2..3),
            (b"a >= b", 2, 2..4),
            (b"a", 1, 1..1),
            (b"x = 1.5;", 4, 4..7),
            (b"x = 1.;", 4, 4..6),
            (b"x = 1 .5;", 6, 6..7),
        ] {
            assert_eq!(span_at(text, place), span);
        }
        assert_eq!(tokens(b"x = 1.5;").unwrap_err().place, 4);
        assert_eq!(tokens(b"x = 1 .5;").unwrap_err().place, 6);
    }

    #[test]
    fn floats_are_whole_numbers_and_a_zero() {
        for (word, value) in [("0.0", 0.0), ("10.0", 10.0), ("16777216.0", 16_777_216.0)] {
            assert_eq!(decimal(word), Some(value));
        }
        for word in [
            "1.",
            "1.5",
            "1.00",
            "01.0",
            "16777217.0",
            "99999999999.0",
            "1",
            ".0",
        ] {
            assert_eq!(decimal(word), None, "{word}");
        }
    }
}
