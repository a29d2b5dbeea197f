//! What was probably meant by something that is no token.

use crate::syntax::tokens;

/// What to write instead of what stands at this place.
pub fn hint(text: &[u8], place: usize) -> Option<String> {
    let span = tokens::span_at(text, place);
    let bad = &text[span.clone()];
    let next = text.get(span.end).copied();
    match *bad.first()? {
        b'0'..=b'9' if bad.contains(&b'.') => float(&String::from_utf8_lossy(bad)),
        b'0'..=b'9' => number(text, place, bad),
        b'_' | b'a'..=b'z' | b'A'..=b'Z' => Some(format!(
            "It has {} bytes; a name has at most 31.",
            bad.len()
        )),
        b'/' if next == Some(b'*') => {
            Some("A comment begins with `//` and runs to the end of its line.".into())
        }
        b',' if in_digits(text, place) => {
            Some("There is no `,` in numbers: a float is a whole number followed by `.0`.".into())
        }
        byte => other(byte).map(String::from),
    }
}

/// Whether digits stand directly before and behind this place.
fn in_digits(text: &[u8], place: usize) -> bool {
    let digit = |at: usize| text.get(at).map_or(false, u8::is_ascii_digit);
    digit(place.wrapping_sub(1)) && digit(place + 1)
}

/// A number that is not allowed.
fn number(text: &[u8], place: usize, digits: &[u8]) -> Option<String> {
    let digits = String::from_utf8_lossy(digits);
    if digits.starts_with('0') {
        let rest = digits.trim_start_matches('0');
        let rest = if rest.is_empty() { "0" } else { rest };
        return Some(format!("Numbers are decimal: write `{rest}`."));
    }
    let mut before = text[..place].iter().rev();
    let sign = before.find(|byte| !b" \t\r\n".contains(byte));
    if digits == "2147483648" && sign == Some(&b'-') {
        return Some("The least int is written `-2147483647 - 1`.".into());
    }
    Some("Ints run from -2147483648 to 2147483647.".into())
}

/// A constant of a float that is not allowed.
fn float(word: &str) -> Option<String> {
    let (whole, behind) = word.split_once('.')?;
    let whole = match whole.trim_start_matches('0') {
        "" => "0",
        whole => whole,
    };
    let meant = format!("{whole}.0");
    let zeros = behind.bytes().all(|digit| digit == b'0');
    Some(match tokens::decimal(&meant) {
        None => "A greater value is a sample, or is computed.".into(),
        Some(_) if zeros => format!("Write `{meant}`."),
        Some(_) => "Only whole numbers have constants: any other value is a sample.".into(),
    })
}

/// A byte that begins no token.
fn other(byte: u8) -> Option<&'static str> {
    match byte {
        b'/' => Some("There is no division; a comment begins with `//`."),
        b'%' => Some("There is no remainder."),
        b',' => Some("There is no `,`: declare each variable by a statement of its own."),
        b'.' => Some("A `.` stands in a float such as `1.0` alone, right behind its digits."),
        b'?' | b':' => Some("There is no `? :`: write `if (..) .. else ..`."),
        b'"' | b'\'' => Some("There are no texts, only ints, bools and floats."),
        0x80..=0xff => Some("Outside of comments only ASCII characters may stand."),
        _ => None,
    }
}
