//! What each code other than 0 means, in words.

use std::error::Error;
use std::fmt;

/// Why a text was not accepted, or a run did not come to its end.
///
/// The names are those of the proved definitions, in the order of the codes. Shown, it is a few
/// words:
///
/// ```
/// let refusal = ruihmento::judge(b"int block[3] v;").refusal().unwrap();
/// assert_eq!(refusal.to_string(), "a block has 1, 2, 4, 8, 16, 32 or 64 lanes");
/// ```
#[derive(Clone, Copy, Debug, PartialEq, Eq, Hash)]
#[non_exhaustive]
pub enum Refusal {
    /// Code 1: the text is above 4,096 bytes.
    TextTooLong,
    /// Code 2: a byte outside the text rules, a name too long, a bad number, or a bad constant of
    /// a float.
    BadBytes,
    /// Code 3: a token that is not allowed where it stands, or a text that ends too soon.
    NotAllowed,
    /// Code 4: nesting above 32.
    TooDeep,
    /// Code 5: an unknown name.
    UnknownName,
    /// Code 6: a name that is already open.
    AlreadyOpen,
    /// Code 7: a block length that is not in the list.
    LengthNotListed,
    /// Code 8: a wrong kind.
    WrongKind,
    /// Code 9: a wrong length.
    WrongLength,
    /// Code 10: a target of length 1 where the context is longer.
    LengthOneTarget,
    /// Code 11: the 65th declaration.
    TooManyDeclarations,
    /// Code 12: a memory shorter than the text needs.
    MemoryTooShort,
    /// Code 13: the budget is spent with a step still due.
    BudgetSpent,
    /// A code that this crate does not know: the archive is of another version.
    Other(u32),
    /// A variable of a kind that this crate does not know, by its number: the archive is of
    /// another version. The judge has accepted the text, so the code is 0.
    OtherKind(u32),
}

impl Refusal {
    /// The refusals in the order of their codes, from code 1 on.
    pub const ALL: [Refusal; 13] = [
        Refusal::TextTooLong,
        Refusal::BadBytes,
        Refusal::NotAllowed,
        Refusal::TooDeep,
        Refusal::UnknownName,
        Refusal::AlreadyOpen,
        Refusal::LengthNotListed,
        Refusal::WrongKind,
        Refusal::WrongLength,
        Refusal::LengthOneTarget,
        Refusal::TooManyDeclarations,
        Refusal::MemoryTooShort,
        Refusal::BudgetSpent,
    ];

    /// The refusal of this code; none for code 0.
    #[must_use]
    pub fn from_code(code: u32) -> Option<Refusal> {
        let known = Self::ALL.get(code.checked_sub(1)? as usize);
        Some(known.copied().unwrap_or(Refusal::Other(code)))
    }

    /// The code of this refusal.
    #[must_use]
    pub fn code(self) -> u32 {
        match self {
            Refusal::TextTooLong => 1,
            Refusal::BadBytes => 2,
            Refusal::NotAllowed => 3,
            Refusal::TooDeep => 4,
            Refusal::UnknownName => 5,
            Refusal::AlreadyOpen => 6,
            Refusal::LengthNotListed => 7,
            Refusal::WrongKind => 8,
            Refusal::WrongLength => 9,
            Refusal::LengthOneTarget => 10,
            Refusal::TooManyDeclarations => 11,
            Refusal::MemoryTooShort => 12,
            Refusal::BudgetSpent => 13,
            Refusal::Other(code) => code,
            Refusal::OtherKind(_) => 0,
        }
    }

    /// Whether the text itself is refused, whatever memory and budget it is run with.
    #[must_use]
    pub fn is_of_text(self) -> bool {
        !matches!(self, Refusal::MemoryTooShort | Refusal::BudgetSpent)
    }

    /// Whether the place that comes with it is a place in the text; otherwise it is 0 and says
    /// nothing.
    #[must_use]
    pub fn has_place(self) -> bool {
        !matches!(self, Refusal::TextTooLong | Refusal::MemoryTooShort)
    }

    /// What the refusal means.
    fn words(self) -> &'static str {
        match self {
            Refusal::TextTooLong => "the text is longer than 4,096 bytes",
            Refusal::BadBytes => {
                "this is a byte outside the text rules, a name of more than 31 bytes, a number \
                 that is above 2147483647 or starts with a spare zero, or a float other than a \
                 whole number up to 16777216 followed by `.0`"
            }
            Refusal::NotAllowed => "this token is not allowed here, or the text ends too soon",
            Refusal::TooDeep => "this token opens the 33rd level of nesting; the limit is 32",
            Refusal::UnknownName => "no variable of this name is open here",
            Refusal::AlreadyOpen => "a variable of this name is already open here",
            Refusal::LengthNotListed => "a block has 1, 2, 4, 8, 16, 32 or 64 lanes",
            Refusal::WrongKind => {
                "the kind is wrong: ints, bools and floats do not go together, a condition is a \
                 bool, and not every operator takes every kind"
            }
            Refusal::WrongLength => {
                "the length is wrong: lengths must be equal or one of them 1, and under a block \
                 condition each is 1 or the condition's"
            }
            Refusal::LengthOneTarget => {
                "a variable of length 1 is not written under a block condition, unless by a \
                 `scalar` statement"
            }
            Refusal::TooManyDeclarations => "this is the 65th declaration; the limit is 64",
            Refusal::MemoryTooShort => "the memory is shorter than the text needs",
            Refusal::BudgetSpent => "the budget is spent, and a step of this statement is due",
            Refusal::Other(_) => "the code is not known to this version",
            Refusal::OtherKind(_) => "the variable's kind is not known to this version",
        }
    }
}

impl fmt::Display for Refusal {
    fn fmt(&self, f: &mut fmt::Formatter<'_>) -> fmt::Result {
        f.write_str(self.words())
    }
}

impl Error for Refusal {}

/// A text that is not accepted.
///
/// ```
/// use ruihmento::variables;
///
/// let refused = variables(b"int a; int a;").unwrap_err();
/// let words = "code 6 at byte 11: a variable of this name is already open here";
/// assert_eq!(refused.to_string(), words);
///
/// let refused = variables(&[b';'; 5000]).unwrap_err();
/// assert_eq!(refused.to_string(), "code 1: the text is longer than 4,096 bytes");
/// ```
#[derive(Clone, Copy, Debug, PartialEq, Eq, Hash)]
pub struct Refused {
    /// Why.
    pub refusal: Refusal,
    /// Where: a byte offset in the text.
    pub place: usize,
}

impl fmt::Display for Refused {
    fn fmt(&self, f: &mut fmt::Formatter<'_>) -> fmt::Result {
        let Refused { refusal, place } = self;
        write!(f, "code {}", refusal.code())?;
        if refusal.has_place() {
            write!(f, " at byte {place}")?;
        }
        write!(f, ": {refusal}")
    }
}

impl Error for Refused {}

/// A run that did not come to its end, or a text that is not accepted.
///
/// ```
/// use ruihmento::run;
///
/// let text = b"int x; while (true) x = x + 1;";
/// let stopped = run(text, &mut [0; 4], 100).into_result().unwrap_err();
/// assert_eq!((stopped.need, stopped.steps), (4, 100));
/// let words = "code 13 at byte 20: the budget is spent, and a step of this statement is due \
///     (need 4, steps 100)";
/// assert_eq!(stopped.to_string(), words);
///
/// let stopped = run(text, &mut [0; 3], 100).into_result().unwrap_err();
/// let words = "code 12: the memory is shorter than the text needs (need 4, steps 0)";
/// assert_eq!(stopped.to_string(), words);
/// ```
#[derive(Clone, Copy, Debug, PartialEq, Eq, Hash)]
pub struct Stopped {
    /// Why.
    pub refusal: Refusal,
    /// Where: a byte offset in the text.
    pub place: usize,
    /// How many bytes of memory the text needs; 0 for a text that is not accepted.
    pub need: usize,
    /// How many steps were taken, which is the budget where it is spent; the memory is as after
    /// exactly these.
    pub steps: u32,
}

impl fmt::Display for Stopped {
    fn fmt(&self, f: &mut fmt::Formatter<'_>) -> fmt::Result {
        let Stopped {
            refusal,
            place,
            need,
            steps,
        } = *self;
        Refused { refusal, place }.fmt(f)?;
        match refusal.is_of_text() {
            true => Ok(()),
            false => write!(f, " (need {need}, steps {steps})"),
        }
    }
}

impl Error for Stopped {}

/// A text that is not accepted takes no step.
impl From<Refused> for Stopped {
    fn from(refused: Refused) -> Self {
        Stopped {
            refusal: refused.refusal,
            place: refused.place,
            need: 0,
            steps: 0,
        }
    }
}
