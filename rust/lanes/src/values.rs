//! The value of a lane: as bytes, for readers, for programs, and as it is given.

use crate::json::string;
use crate::routine::{Kind, Variable};

/// The lanes that a reader can count; where there are more, lines of them have numbers.
pub const COUNTED: usize = 16;

/// The largest float.
const LARGEST: &str = "3.4028235e38";

/// The word in a lane: its four bytes, or whether its one byte is a true.
pub fn word(bytes: &[u8]) -> u32 {
    match bytes {
        [a, b, c, d] => u32::from_le_bytes([*a, *b, *c, *d]),
        bytes => u32::from(bytes != [0]),
    }
}

/// A lane's value for readers: a bool as 1 or 0, a float as the shortest decimal that reads back as
/// that float, or as NaN, inf or -inf.
pub fn shown(kind: Kind, bytes: &[u8]) -> String {
    match kind {
        Kind::Int => (word(bytes) as i32).to_string(),
        Kind::Bool => word(bytes).to_string(),
        Kind::Float => format!("{:?}", f32::from_bits(word(bytes))),
    }
}

/// A lane's value for JSON: a bool as true or false; a float that is no number there as a text.
pub fn json(kind: Kind, bytes: &[u8]) -> String {
    let value = shown(kind, bytes);
    match kind {
        Kind::Int => value,
        Kind::Bool => (word(bytes) == 1).to_string(),
        Kind::Float if f32::from_bits(word(bytes)).is_finite() => value,
        Kind::Float => string(&value),
    }
}

/// The values of all lanes of a variable.
pub fn lanes<'m>(variable: &'m Variable, memory: &'m [u8]) -> impl Iterator<Item = &'m [u8]> {
    (0..variable.length).map(move |lane| &memory[variable.lane(lane)])
}

/// The values of all lanes of a variable for readers.
pub fn shown_lanes(variable: &Variable, memory: &[u8]) -> Vec<String> {
    let lanes = lanes(variable, memory);
    lanes.map(|bytes| shown(variable.kind, bytes)).collect()
}

/// The values of all lanes of a variable for readers, with this between them.
pub fn joined(variable: &Variable, memory: &[u8], between: &str) -> String {
    shown_lanes(variable, memory).join(between)
}

/// The bytes of a value as it is given, or why it is none.
pub fn given(word: &str, kind: Kind) -> Result<Vec<u8>, String> {
    match kind {
        Kind::Int => match word.parse::<i32>() {
            Ok(value) => Ok(value.to_le_bytes().to_vec()),
            Err(_) => Err(format!(
                "`{}` is no int: a number from -2147483648 to 2147483647",
                crate::escape::text(word.as_bytes())
            )),
        },
        Kind::Bool => match word {
            "0" | "false" => Ok(vec![0]),
            "1" | "true" => Ok(vec![1]),
            _ => Err(format!(
                "`{}` is no bool: 0, 1, false or true",
                crate::escape::text(word.as_bytes())
            )),
        },
        Kind::Float => float(word).map(|pattern| pattern.to_le_bytes().to_vec()),
    }
}

/// The pattern of a float as it is given: of a decimal the nearest float, and of every
/// not-a-number the one that a run stores.
fn float(word: &str) -> Result<u32, String> {
    let shown = || crate::escape::text(word.as_bytes());
    match word.parse::<f32>() {
        Ok(value) if value.is_nan() => Ok(0x7fc0_0000),
        Ok(value) if value.is_infinite() && word.contains(|digit: char| digit.is_ascii_digit()) => {
            Err(format!(
                "`{}` is past the largest float, {LARGEST}",
                shown()
            ))
        }
        Ok(value) => Ok(value.to_bits()),
        Err(_) => Err(format!(
            "`{}` is no float: a decimal such as -0.5 or 1e-3, NaN, inf or -inf",
            shown()
        )),
    }
}

/// So many of something, in words.
pub fn counted(count: u64, what: &str) -> String {
    match count {
        1 => format!("1 {what}"),
        _ => format!("{count} {what}s"),
    }
}

/// Puts a value as it is given into one lane.
pub fn put(word: &str, variable: &Variable, lane: usize, memory: &mut [u8]) -> Result<(), String> {
    let bytes = given(word, variable.kind);
    let bytes = bytes.map_err(|why| format!("`{}`: {why}", variable.name))?;
    memory[variable.lane(lane)].copy_from_slice(&bytes);
    Ok(())
}

#[cfg(test)]
mod tests {
    use super::*;

    #[test]
    fn values_are_given_and_shown() {
        assert_eq!(given("-7", Kind::Int), Ok(vec![249, 255, 255, 255]));
        assert_eq!(given("true", Kind::Bool), Ok(vec![1]));
        assert!(given("2147483648", Kind::Int).is_err());
        assert!(given("2", Kind::Bool).is_err());
        assert!(given("", Kind::Int).is_err());
        assert_eq!(shown(Kind::Int, &[0, 0, 0, 128]), "-2147483648");
        assert_eq!(shown(Kind::Bool, &[5]), "1");
        assert_eq!(json(Kind::Bool, &[5]), "true");
    }

    #[test]
    fn floats_that_are_shown_read_back() {
        for (pattern, expected) in [
            (0x3f80_0000, "1.0"),
            (0x3dcc_cccd, "0.1"),
            (0x8000_0000, "-0.0"),
            (0x0000_0001, "1e-45"),
            (0x4b80_0000, "16777216.0"),
            (0x7f7f_ffff, LARGEST),
            (0x7f80_0000, "inf"),
            (0xff80_0000, "-inf"),
            (0x7fc0_0000, "NaN"),
        ] {
            let bytes = u32::to_le_bytes(pattern);
            assert_eq!(shown(Kind::Float, &bytes), expected);
            assert_eq!(given(expected, Kind::Float), Ok(bytes.to_vec()));
        }
        for index in 0..200_000_u32 {
            let pattern = index.wrapping_mul(0x9e37_79b9);
            let shown = shown(Kind::Float, &pattern.to_le_bytes());
            let expected = match f32::from_bits(pattern).is_nan() {
                true => 0x7fc0_0000,
                false => pattern,
            };
            assert_eq!(float(&shown), Ok(expected), "{pattern:08x} as {shown}");
        }
    }

    #[test]
    fn floats_are_given_as_decimals() {
        for (word, value) in [("-7", -7.0), (".5", 0.5), ("+2.5e1", 25.0), ("1e-60", 0.0)] {
            assert_eq!(float(word), Ok(f32::to_bits(value)), "{word}");
        }
        for (word, pattern) in [
            ("nan", 0x7fc0_0000),
            ("-NaN", 0x7fc0_0000),
            ("-Inf", 0xff80_0000),
        ] {
            assert_eq!(float(word), Ok(pattern), "{word}");
        }
        for word in ["", "true", "0x1", "1,5", "1.0f", "1 000"] {
            assert!(float(word).is_err(), "{word}");
        }
        let past = "`1e39` is past the largest float, 3.4028235e38";
        assert_eq!(float("1e39"), Err(past.into()));
    }

    #[test]
    fn what_is_no_number_in_json_is_a_text() {
        let json = |pattern: u32| json(Kind::Float, &pattern.to_le_bytes());
        assert_eq!([json(0x8000_0000), json(1)], ["-0.0", "1e-45"]);
        assert_eq!(
            [json(0xff80_0000), json(0xffff_ffff)],
            ["\"-inf\"", "\"NaN\""]
        );
    }
}
