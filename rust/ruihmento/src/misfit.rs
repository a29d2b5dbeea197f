//! What does not fit where values are put into a memory, or taken from it.

use crate::Kind;
use std::error::Error;
use std::fmt;

/// Why values and a variable do not go together. Nothing was written.
#[derive(Clone, Debug, PartialEq, Eq, Hash)]
#[non_exhaustive]
pub enum Misfit {
    /// The text declares no variable of this name.
    UnknownName {
        /// The name that was asked for.
        name: String,
        /// The declared name that is most like it, if one is.
        nearest: Option<String>,
    },
    /// The values are of another kind than the variable.
    WrongKind {
        /// The variable.
        name: String,
        /// Its kind.
        kind: Kind,
        /// The kind of the values.
        given: Kind,
    },
    /// There are more or fewer values than the variable has lanes.
    WrongLength {
        /// The variable.
        name: String,
        /// How many lanes it has.
        length: usize,
        /// How many values there are.
        given: usize,
    },
    /// The memory ends before the variable does.
    MemoryTooShort {
        /// The variable.
        name: String,
        /// Where its last byte ends.
        end: usize,
        /// How many bytes the memory has.
        given: usize,
    },
}

impl fmt::Display for Misfit {
    fn fmt(&self, f: &mut fmt::Formatter<'_>) -> fmt::Result {
        match self {
            Misfit::UnknownName {
                name,
                nearest: Some(nearest),
            } => write!(
                f,
                "no variable is named `{name}`; the nearest is `{nearest}`"
            ),
            Misfit::UnknownName { name, .. } => write!(f, "no variable is named `{name}`"),
            Misfit::WrongKind { name, kind, given } => {
                write!(f, "`{name}` is {kind}, and the values are {given}")
            }
            Misfit::WrongLength {
                name,
                length,
                given,
            } => write!(
                f,
                "`{name}` has length {length}, and the values have length {given}"
            ),
            Misfit::MemoryTooShort { name, end, given } => {
                write!(
                    f,
                    "`{name}` ends at byte {end}, and the memory at byte {given}"
                )
            }
        }
    }
}

impl Error for Misfit {}
