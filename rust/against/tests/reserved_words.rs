//! Document 02, R-4: the reserved words, on the archive; and every text of two bytes, for the signs.

use ruihmento as side;

#[path = "../../cases/common.rs"]
mod common;
#[path = "../../cases/reserved_words.rs"]
mod reserved_words;

#[test]
fn every_text_of_two_bytes_is_judged_as_by_the_independent_implementation() {
    for pair in 0..=u16::MAX {
        let text = pair.to_be_bytes();
        let other = oracle::judge(&text);
        let expected = [other.code, other.place, other.need, other.steps];
        assert_eq!(common::numbers(side::judge(&text)), expected, "{text:?}");
    }
}
