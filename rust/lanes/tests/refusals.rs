//! What is told of a refused text: the texts of `golden/refusals.texts`, each with what the
//! program says of it in `golden/refusals.told`.
//!
//! With `LANES_GOLDEN=write` the second file is written instead; read the difference before it
//! is kept.

mod common;

use common::{folder, lanes_with};
use std::collections::BTreeSet;

/// What stands between two texts.
const BETWEEN: &[u8] = b"\n---\n";

/// The texts of the file.
fn texts() -> Vec<Vec<u8>> {
    let bytes = std::fs::read(folder().join("refusals.texts")).expect("the texts can be read");
    let mut texts = vec![Vec::new()];
    let mut at = 0;
    while at < bytes.len() {
        if bytes[at..].starts_with(BETWEEN) {
            texts.push(Vec::new());
            at += BETWEEN.len();
        } else {
            let last = texts.len() - 1;
            texts[last].push(bytes[at]);
            at += 1;
        }
    }
    texts
}

#[test]
fn every_refusal_is_told_with_its_place_and_facts() {
    let mut told = String::new();
    let mut codes = BTreeSet::new();
    for text in texts() {
        let output = lanes_with(&["judge", "-"], &text);
        assert_eq!(output.status.code(), Some(1), "{text:?}");
        assert_eq!(output.stdout, b"");
        let message = String::from_utf8(output.stderr).expect("the message is UTF-8");
        let hidden = |c: char| c.is_control() && c != '\n' || c == '\u{202e}';
        assert!(!message.contains(hidden), "{message:?}");
        let last = message.lines().last().unwrap_or_default();
        let code = last.split([' ', ',']).nth(1).unwrap_or_default();
        codes.insert(code.parse::<u32>().expect("the last line has the code"));
        told.push_str(&message);
        told.push('\n');
    }
    assert_eq!(codes, (2..=11).collect());
    let path = folder().join("refusals.told");
    if std::env::var_os("LANES_GOLDEN").map_or(false, |word| word == "write") {
        std::fs::write(&path, &told).expect("the file can be written");
    }
    let expected = std::fs::read_to_string(&path).expect("the file can be read");
    assert_eq!(told, expected);
}
