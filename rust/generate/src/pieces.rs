//! Any bytes cut into pieces that a reader of document 01 would not cut further.

/// One piece of a text.
#[derive(Clone, Copy, Debug, PartialEq, Eq)]
pub struct Piece<'t> {
    /// Where it starts.
    pub start: usize,
    /// Its bytes.
    pub bytes: &'t [u8],
}

impl Piece<'_> {
    /// Whether a reader passes over it: a separator or a comment.
    pub fn is_space(&self) -> bool {
        self.bytes.starts_with(b"//") || b" \t\r\n".contains(&self.bytes[0])
    }
}

/// The pieces of a text: comments, separators, words, numbers, digits with a dot behind them and
/// the digits behind that, and single other bytes.
pub fn pieces(text: &[u8]) -> Vec<Piece<'_>> {
    let mut pieces = Vec::new();
    let mut start = 0;
    while start < text.len() {
        let rest = &text[start..];
        let length = match rest[0] {
            b'/' if rest.starts_with(b"//") => run(rest, |byte| byte != b'\n'),
            b'0'..=b'9' => number(rest),
            b'_' | b'a'..=b'z' | b'A'..=b'Z' => {
                run(rest, |byte| byte == b'_' || byte.is_ascii_alphanumeric())
            }
            _ => 1,
        };
        let bytes = &rest[..length];
        pieces.push(Piece { start, bytes });
        start += length;
    }
    pieces
}

/// How many bytes the number at the start has.
fn number(rest: &[u8]) -> usize {
    let digits = |rest: &[u8]| run(rest, |byte| byte.is_ascii_digit());
    let whole = digits(rest);
    match rest.get(whole) {
        Some(b'.') => whole + 1 + digits(&rest[whole + 1..]),
        _ => whole,
    }
}

/// How many bytes from the start satisfy the test.
fn run(rest: &[u8], test: impl Fn(u8) -> bool) -> usize {
    rest.iter().take_while(|byte| test(**byte)).count()
}
