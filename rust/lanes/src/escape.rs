//! Bytes as they are shown: nothing that a terminal or a page would obey, and known widths.

use std::path::Path;

/// One character of a text as it is shown.
#[derive(Clone, Debug, PartialEq, Eq)]
pub struct Shown {
    /// What is shown.
    pub text: String,
    /// How many columns of a terminal it takes.
    pub width: usize,
}

/// Characters of which a terminal makes two columns: ranges, first and last.
const WIDE: [(u32, u32); 9] = [
    (0x1100, 0x115f),
    (0x2e80, 0xa4cf),
    (0xac00, 0xd7a3),
    (0xf900, 0xfaff),
    (0xfe30, 0xfe6f),
    (0xff00, 0xff60),
    (0xffe0, 0xffe6),
    (0x1f300, 0x1faff),
    (0x20000, 0x3fffd),
];

/// Characters that change the order of others, or that nobody sees: ranges, first and last.
const HIDDEN: [(u32, u32); 8] = [
    (0x00ad, 0x00ad),
    (0x061c, 0x061c),
    (0x180e, 0x180e),
    (0x200b, 0x200f),
    (0x2028, 0x202e),
    (0x2060, 0x206f),
    (0xfeff, 0xfeff),
    (0xe0000, 0xe0fff),
];

/// The characters of these bytes as they are shown; a byte that is no UTF-8 counts as one.
pub fn characters(bytes: &[u8]) -> Vec<Shown> {
    let mut shown = Vec::new();
    let mut rest = bytes;
    while !rest.is_empty() {
        let (valid, bad) = match std::str::from_utf8(rest) {
            Ok(text) => (text, 0),
            Err(error) => {
                let valid = &rest[..error.valid_up_to()];
                (std::str::from_utf8(valid).unwrap_or_default(), 1)
            }
        };
        shown.extend(valid.chars().map(character));
        let end = valid.len() + bad;
        let wrong = rest[valid.len()..end].iter();
        shown.extend(wrong.map(|byte| escaped(format!("\\x{byte:02x}"))));
        rest = &rest[end..];
    }
    shown
}

/// One character as it is shown: a tab is a space, and what is not seen is escaped.
fn character(character: char) -> Shown {
    let code = character as u32;
    let within = |ranges: &[(u32, u32)]| {
        let mut ranges = ranges.iter();
        ranges.any(|(first, last)| (*first..=*last).contains(&code))
    };
    match character {
        '\t' => escaped(" ".into()),
        control if control.is_control() && code < 0x80 => escaped(format!("\\x{code:02x}")),
        hidden if hidden.is_control() || within(&HIDDEN) => escaped(format!("\\u{{{code:x}}}")),
        other => Shown {
            text: other.to_string(),
            width: match code {
                0x300..=0x36f | 0x20d0..=0x20ff | 0xfe00..=0xfe0f => 0,
                _ if within(&WIDE) => 2,
                _ => 1,
            },
        },
    }
}

/// A text of plain characters.
fn escaped(text: String) -> Shown {
    let width = text.len();
    Shown { text, width }
}

/// These bytes as one text to show.
pub fn text(bytes: &[u8]) -> String {
    let characters = characters(bytes).into_iter();
    characters.map(|character| character.text).collect()
}

/// The name of a file, to show.
pub fn path(path: &Path) -> String {
    use std::os::unix::ffi::OsStrExt;
    match path.as_os_str().as_bytes() {
        b"-" => "standard input".into(),
        bytes => text(bytes),
    }
}

#[cfg(test)]
mod tests {
    use super::*;

    #[test]
    fn controls_directions_and_wrong_bytes_are_escaped() {
        let bytes = "a\t\u{1b}[2J\u{202e}\u{85}ü".as_bytes();
        assert_eq!(text(bytes), "a \\x1b[2J\\u{202e}\\u{85}ü");
        assert_eq!(text(b"\xff\xc3\x28\xe2\x82"), "\\xff\\xc3(\\xe2\\x82");
    }

    #[test]
    fn widths_are_those_of_a_terminal() {
        let widths = characters("aü表\u{301}\u{7}".as_bytes());
        let widths: Vec<usize> = widths.iter().map(|shown| shown.width).collect();
        assert_eq!(widths, [1, 1, 2, 0, 4]);
    }
}
