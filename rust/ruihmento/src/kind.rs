//! The kinds of variables, and lanes of any kind.

use std::fmt;

/// The kind of a variable.
#[derive(Clone, Copy, Debug, PartialEq, Eq, Hash)]
#[non_exhaustive]
pub enum Kind {
    /// 32 bits, two's complement, 4 bytes little-endian.
    Int,
    /// One byte, false exactly at 0.
    Bool,
    /// An IEEE single, 4 bytes little-endian.
    Float,
}

impl Kind {
    /// The kind that has this number in the table of variables.
    pub(crate) fn from_number(number: u32) -> Option<Self> {
        match number {
            0 => Some(Kind::Int),
            1 => Some(Kind::Bool),
            2 => Some(Kind::Float),
            _ => None,
        }
    }

    /// The size of one lane in bytes.
    #[must_use]
    pub fn size(self) -> usize {
        match self {
            Kind::Int | Kind::Float => 4,
            Kind::Bool => 1,
        }
    }
}

impl fmt::Display for Kind {
    fn fmt(&self, f: &mut fmt::Formatter<'_>) -> fmt::Result {
        f.write_str(match self {
            Kind::Int => "int",
            Kind::Bool => "bool",
            Kind::Float => "float",
        })
    }
}

/// The values of a variable, lane by lane, where the kind is known only when the program runs.
///
/// Floats are equal as Rust's are: a not-a-number to none, and zero to minus zero.
#[derive(Clone, Debug, PartialEq)]
#[non_exhaustive]
pub enum Lanes {
    /// Ints.
    Int(Vec<i32>),
    /// Bools, by truth: any byte other than 0 is true.
    Bool(Vec<bool>),
    /// Floats.
    Float(Vec<f32>),
}

impl Lanes {
    /// The kind of these lanes.
    #[must_use]
    pub fn kind(&self) -> Kind {
        match self {
            Lanes::Int(_) => Kind::Int,
            Lanes::Bool(_) => Kind::Bool,
            Lanes::Float(_) => Kind::Float,
        }
    }
}

impl fmt::Display for Lanes {
    fn fmt(&self, f: &mut fmt::Formatter<'_>) -> fmt::Result {
        let words: Vec<String> = match self {
            Lanes::Int(values) => values.iter().map(i32::to_string).collect(),
            Lanes::Bool(values) => values.iter().map(bool::to_string).collect(),
            Lanes::Float(values) => values.iter().map(|value| format!("{value:?}")).collect(),
        };
        f.write_str(&words.join(" "))
    }
}

#[cfg(test)]
mod tests {
    use super::Kind;

    #[test]
    fn a_kind_that_is_not_known_is_none() {
        assert_eq!(Kind::from_number(0), Some(Kind::Int));
        assert_eq!(Kind::from_number(1), Some(Kind::Bool));
        assert_eq!(Kind::from_number(2), Some(Kind::Float));
        assert_eq!(Kind::from_number(3), None);
        assert_eq!(Kind::from_number(u32::MAX), None);
    }
}
