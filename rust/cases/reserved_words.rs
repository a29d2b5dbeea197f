//! Document 02, R-4: the reserved words, and words that are nearly one, checked by hand.

use crate::common::{after, numbers, verdict};
use crate::side::judge;

/// "Reserved: int bool block if else while scalar current_mask true false.", and by R-2 `float`.
const RESERVED: &str = "int bool block if else while scalar current_mask true false float";

/// The reserved words, one by one.
fn reserved() -> impl Iterator<Item = &'static str> {
    RESERVED.split(' ')
}

/// "letters, digits, `_`"
fn word_bytes() -> impl Iterator<Item = char> {
    let cases = ('a'..='z').chain('A'..='Z');
    cases.chain('0'..='9').chain(['_'])
}

/// Is a word a name? It stands where only a name may, and is else refused with 3 at its place.
fn is_name(word: &str) -> bool {
    match verdict(format!("int block[1] {word};")) {
        (0, 0) => true,
        (3, 13) => false,
        other => panic!("{word}: {other:?}"),
    }
}

/// A word that is nearly reserved is a name, unless it is another reserved word.
fn check_near(word: &str) {
    let free = !reserved().any(|other| other == word);
    assert_eq!(is_name(word), free, "{word}");
}

#[test]
fn scalar_and_current_mask_are_no_names() {
    assert_eq!(verdict("int scalar;"), (3, 4));
    assert_eq!(verdict("int current_mask;"), (3, 4));
}

/// Reserved since R-2.
#[test]
fn float_is_no_name() {
    assert_eq!(verdict("int float;"), (3, 4));
}

#[test]
fn part_of_a_reserved_word_or_more_than_one_is_a_name() {
    let text = "int blocks; int ints; int current_mas; int current_masks;";
    assert_eq!(numbers(judge(text.as_bytes())), [0, 0, 16, 0]);
    assert_eq!(after(text, &[5; 16]), ([0, 0, 16, 4], vec![5; 16]));
}

#[test]
fn a_reserved_word_in_another_case_or_with_a_stroke_is_a_name() {
    let text = "int If; int TRUE; int else_; bool _scalar;";
    assert_eq!(numbers(judge(text.as_bytes())), [0, 0, 13, 0]);
}

#[test]
fn words_of_other_languages_are_names() {
    let text = "int struct; int return;";
    assert_eq!(numbers(judge(text.as_bytes())), [0, 0, 8, 0]);
}

#[test]
fn every_reserved_word_is_no_name() {
    for word in reserved() {
        assert!(!is_name(word), "{word}");
    }
}

#[test]
fn every_part_of_a_reserved_word_is_a_name() {
    for word in reserved() {
        for cut in 1..word.len() {
            check_near(&word[..cut]);
            check_near(&word[cut..]);
        }
    }
}

#[test]
fn a_reserved_word_in_large_letters_is_a_name() {
    for word in reserved() {
        check_near(&word.to_uppercase());
    }
}

#[test]
fn one_letter_more_makes_a_name() {
    for word in reserved() {
        for letter in word_bytes() {
            check_near(&format!("{word}{letter}"));
            if !letter.is_ascii_digit() {
                check_near(&format!("{letter}{word}"));
            }
        }
    }
}

#[test]
fn one_other_letter_makes_a_name() {
    for word in reserved() {
        for place in 0..word.len() {
            for letter in word_bytes() {
                let near = format!("{}{letter}{}", &word[..place], &word[place + 1..]);
                if !near.starts_with(|first: char| first.is_ascii_digit()) {
                    check_near(&near);
                }
            }
        }
    }
}

#[test]
fn two_reserved_words_in_one_are_a_name() {
    for one in reserved() {
        for other in reserved() {
            check_near(&format!("{one}{other}"));
        }
    }
}
