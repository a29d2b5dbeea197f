//! Document 02, R-2: single floats, on the archive.

use ruihmento as side;

#[path = "../../cases/common.rs"]
mod common;
#[path = "../../cases/single_floats.rs"]
mod single_floats;

/// Where the variables of an accepted text lie, in text order.
fn addresses(text: &str) -> Vec<usize> {
    let listed = side::variables(text.as_bytes()).unwrap();
    listed.list.iter().map(|row| row.address).collect()
}

/// The next text of these bytes, counted up from the last place; none behind the last of them all.
fn next(text: &mut [usize], bytes: usize) -> bool {
    for digit in text.iter_mut().rev() {
        *digit = (*digit + 1) % bytes;
        if *digit > 0 {
            return true;
        }
    }
    false
}

/// Judges this as the value of a float, on both sides.
fn check_value(value: &[u8]) {
    let text = [b"float x=", value, b";"].concat();
    let other = oracle::judge(&text);
    let expected = [other.code, other.place, other.need, other.steps];
    let shown = String::from_utf8_lossy(&text);
    assert_eq!(common::numbers(side::judge(&text)), expected, "{shown}");
}

#[test]
fn every_short_constant_is_judged_as_by_the_independent_implementation() {
    let bytes = b"017. x-";
    for length in 1..=5 {
        let mut at = vec![0; length];
        loop {
            let value: Vec<u8> = at.iter().map(|byte| bytes[*byte]).collect();
            check_value(&value);
            if !next(&mut at, bytes.len()) {
                break;
            }
        }
    }
}

#[test]
fn constants_round_the_limits_are_judged_as_by_the_independent_implementation() {
    let limits = [
        1u64 << 24,
        1 << 31,
        1 << 32,
        1 << 33,
        (1 << 32) + (1 << 24),
        99_999_999,
    ];
    for limit in limits {
        for whole in limit - 3..limit + 3 {
            for end in [".0", ".", "", ".00", ".5", "0.0", ".0.0", ".0x"] {
                check_value(format!("{whole}{end}").as_bytes());
            }
        }
    }
}
