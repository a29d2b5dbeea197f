//! Document 01, "Codes": the four numbers, and how a refusal reaches them.

/// What is built: "16 bytes, into which code, place, need, steps are written".
pub const ANSWER: usize = 16;

/// What is built: "Each answers four numbers: code, place (a byte offset in the text), need
/// (bytes of memory), steps."
#[derive(Clone, Copy, Debug, PartialEq, Eq)]
pub struct Answer {
    /// Codes: the first column of the table.
    pub code: u32,
    /// Codes: the third column of the table, "a byte offset in the text".
    pub place: u32,
    /// Memory: "Need is the end of the last one".
    pub need: u32,
    /// Execution: the sum of "One step each".
    pub steps: u32,
}

/// Codes: the table, row by row.
#[derive(Clone, Copy, Debug, PartialEq, Eq)]
#[repr(u32)]
pub enum Code {
    /// Codes: "accepted, or run ended".
    Ended = 0,
    /// Codes: "text above 4,096 bytes".
    TextTooLong = 1,
    /// Codes: "byte outside the text rules, name too long, bad number".
    BadBytes = 2,
    /// Codes: "token not allowed, or text ends too soon".
    NotAllowed = 3,
    /// Codes: "nesting above 32".
    TooDeep = 4,
    /// Codes: "unknown name".
    UnknownName = 5,
    /// Codes: "name already open".
    AlreadyOpen = 6,
    /// Codes: "N not in the list".
    LengthNotListed = 7,
    /// Codes: "wrong kind".
    WrongKind = 8,
    /// Codes: "wrong length".
    WrongLength = 9,
    /// Codes: "length-1 target where C is above 1".
    LengthOneTarget = 10,
    /// Codes: "65th declaration".
    TooManyDeclarations = 11,
    /// Codes: "memory shorter than need".
    MemoryTooShort = 12,
    /// Codes: "budget spent with a step still due".
    BudgetSpent = 13,
}

/// Codes: "The first refusal met ends the reading", with its code and place.
#[derive(Clone, Copy, Debug, PartialEq, Eq)]
pub struct Refusal {
    /// Codes: one of 1 to 11.
    pub code: Code,
    /// Codes: the third column of the table.
    pub place: u32,
}

impl Refusal {
    /// Codes: a refusal of this code at this place.
    pub fn new(code: Code, place: u32) -> Self {
        Refusal { code, place }
    }
}

impl Answer {
    /// What is built: "code, place, need, steps are written as four 32-bit little-endian
    /// numbers".
    pub fn to_bytes(self) -> [u8; ANSWER] {
        let mut bytes = [0; ANSWER];
        let numbers = [self.code, self.place, self.need, self.steps];
        for (bytes, number) in bytes.chunks_exact_mut(4).zip(numbers) {
            bytes.copy_from_slice(&number.to_le_bytes());
        }
        bytes
    }

    /// Codes: "Code 0: need given, steps as taken."
    pub(crate) fn ended(need: u32, steps: u32) -> Self {
        Answer {
            code: Code::Ended as u32,
            place: 0,
            need,
            steps,
        }
    }

    /// Codes: "Code 12: need given, steps 0."
    pub(crate) fn memory_too_short(need: u32) -> Self {
        Answer {
            code: Code::MemoryTooShort as u32,
            place: 0,
            need,
            steps: 0,
        }
    }

    /// Codes: "Code 13: need given, steps equal to the budget".
    pub(crate) fn budget_spent(place: u32, need: u32, budget: u32) -> Self {
        Answer {
            code: Code::BudgetSpent as u32,
            place,
            need,
            steps: budget,
        }
    }
}

/// Codes: "Codes 1 to 11: need and steps 0."
impl From<Refusal> for Answer {
    fn from(refusal: Refusal) -> Self {
        Answer {
            code: refusal.code as u32,
            place: refusal.place,
            need: 0,
            steps: 0,
        }
    }
}
