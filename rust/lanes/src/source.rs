//! A routine's text, its lines, and what is underlined in them.

use crate::escape::{self, Shown};
use std::io::{self, Write};
use std::ops::Range;
use std::path::Path;

/// The most columns of a line that are shown; longer lines are cut round what is underlined.
const WIDTH: usize = 66;

/// What stands for the part of a line that is cut off.
const CUT: &str = "...";

/// A text and the name of its file.
#[derive(Debug)]
pub struct Source {
    /// The file's name, for readers.
    pub name: String,
    /// The text.
    pub text: Vec<u8>,
}

/// A place for readers: both numbers count from 1, columns in characters.
#[derive(Clone, Copy, Debug, PartialEq, Eq)]
pub struct Position {
    /// The line.
    pub line: usize,
    /// The column.
    pub column: usize,
}

impl std::fmt::Display for Position {
    fn fmt(&self, f: &mut std::fmt::Formatter<'_>) -> std::fmt::Result {
        write!(f, "{}:{}", self.line, self.column)
    }
}

impl Source {
    /// The text of this file.
    pub fn new(path: &Path, text: Vec<u8>) -> Self {
        let name = escape::path(path);
        Source { name, text }
    }

    /// Where the line of this place starts.
    fn line_start(&self, place: usize) -> usize {
        let before = &self.text[..place];
        let break_before = before.iter().rposition(|byte| *byte == b'\n');
        break_before.map_or(0, |at| at + 1)
    }

    /// The line and column of a place, which is at most the text's length.
    pub fn position(&self, place: usize) -> Position {
        let place = place.min(self.text.len());
        let start = self.line_start(place);
        let breaks = self.text[..start].iter().filter(|byte| **byte == b'\n');
        Position {
            line: breaks.count() + 1,
            column: escape::characters(&self.text[start..place]).len() + 1,
        }
    }

    /// What stands in this part of the text, on one line.
    pub fn shown(&self, part: Range<usize>) -> String {
        let words = self.text[part].split(|byte| b" \t\r\n".contains(byte));
        let words = words.filter(|word| !word.is_empty()).map(escape::text);
        words.collect::<Vec<String>>().join(" ")
    }

    /// Writes the line where this part starts, with its number, and underlines the part there.
    pub fn write_line(&self, part: Range<usize>, out: &mut impl Write) -> io::Result<()> {
        let place = part.start.min(self.text.len());
        let start = self.line_start(place);
        let rest = &self.text[start..];
        let end = rest.iter().position(|byte| *byte == b'\n');
        let end = start + end.unwrap_or(rest.len());
        let before = escape::characters(&self.text[start..place]);
        let marked = escape::characters(&self.text[place..part.end.clamp(place, end)]);
        let after = escape::characters(&self.text[place.max(part.end.min(end))..end]);
        let (shown, caret, length) = cut(&before, &marked, &after);
        let number = self.position(place).line.to_string();
        let margin = " ".repeat(number.len());
        let shown = format!("  {number} | {shown}");
        writeln!(out, "{}", shown.trim_end())?;
        writeln!(
            out,
            "  {margin} | {}{}",
            " ".repeat(caret),
            "^".repeat(length)
        )
    }
}

/// How many columns these characters take.
fn width(characters: &[Shown]) -> usize {
    characters.iter().map(|character| character.width).sum()
}

/// A line cut to what stands round its marked part; where the part is then, and its width.
fn cut(before: &[Shown], marked: &[Shown], after: &[Shown]) -> (String, usize, usize) {
    let whole = width(before) + width(marked) + width(after);
    let mut line = String::new();
    let mut caret = width(before);
    let mut start = 0;
    if whole > WIDTH {
        let wanted = caret.saturating_sub(WIDTH / 3).min(whole - WIDTH);
        let mut left_out = 0;
        while left_out < wanted {
            left_out += before.get(start).map_or(wanted, |shown| shown.width);
            start += 1;
        }
        start = start.min(before.len());
        caret = width(&before[start..]);
        if start > 0 {
            line.push_str(CUT);
            caret += CUT.len();
        }
    }
    let mut room = WIDTH;
    let mut length = 0;
    let kept = before[start..].iter().map(|shown| (shown, false));
    let kept = kept.chain(marked.iter().map(|shown| (shown, true)));
    for (shown, marked) in kept.chain(after.iter().map(|shown| (shown, false))) {
        if shown.width > room {
            line.push_str(CUT);
            break;
        }
        room -= shown.width;
        length += if marked { shown.width } else { 0 };
        line.push_str(&shown.text);
    }
    (line, caret, length.max(1))
}

#[cfg(test)]
mod tests {
    use super::*;

    /// A source with this text.
    fn source(text: impl Into<Vec<u8>>) -> Source {
        Source::new(Path::new("f"), text.into())
    }

    /// The line and caret of a place.
    fn shown(text: impl Into<Vec<u8>>, part: Range<usize>) -> String {
        let mut out = Vec::new();
        source(text).write_line(part, &mut out).unwrap();
        String::from_utf8(out).unwrap()
    }

    #[test]
    fn places_have_lines_and_columns() {
        let source = source("ab\ncd\n");
        let at = |place| source.position(place).to_string();
        assert_eq!(
            [at(0), at(2), at(3), at(5), at(6)],
            ["1:1", "1:3", "2:1", "2:3", "3:1"]
        );
    }

    #[test]
    fn the_whole_part_is_underlined() {
        assert_eq!(shown("int x", 5..5), "  1 | int x\n    |      ^\n");
        assert_eq!(shown("int x", 0..3), "  1 | int x\n    | ^^^\n");
        assert_eq!(shown("a\n\tb cd\n", 5..7), "  2 |  b cd\n    |    ^^\n");
        assert_eq!(shown("a\n", 2..2), "  2 |\n    | ^\n");
        assert_eq!(shown("a b\nc", 2..5), "  1 | a b\n    |   ^\n");
        assert_eq!(
            shown("// ü\n".repeat(9) + "ü\x01yy", 57..59),
            "  10 | ü\\x01yy\n     |      ^^\n"
        );
    }

    #[test]
    fn long_lines_are_cut_round_the_caret() {
        let text = "a".repeat(100) + "b" + &"c".repeat(100);
        let expected = format!(
            "  1 | ...{}b{}...\n    | {}^\n",
            "a".repeat(22),
            "c".repeat(43),
            " ".repeat(25)
        );
        assert_eq!(shown(text.clone(), 100..101), expected);
        assert!(shown(text.clone(), 0..1).starts_with("  1 | aaa"));
        let at_end = format!("    | {}^\n", " ".repeat(69));
        assert!(shown(text.clone(), 201..201).ends_with(&at_end));
        assert!(shown(text, 0..201).ends_with(&format!("    | {}\n", "^".repeat(66))));
    }

    #[test]
    fn a_part_is_shown_on_one_line() {
        assert_eq!(source("a  =\n\tb ;").shown(0..9), "a = b ;");
    }
}
