//! The refusals, by the paper's numbers.

/// The rows of "What is refused, and the order".
#[derive(Clone, Copy, Debug, PartialEq, Eq)]
pub enum Code {
    TooLong = 1,
    Malformed = 2,
    UnknownTag = 3,
    UnfitKeyTag = 4,
    OutOfRange = 5,
    UnknownOrdinal = 6,
    NoCapacity = 7,
    TooDeep = 8,
    EqualKey = 9,
    Trailing = 10,
    NoArray = 11,
    NoPlace = 12,
    UnfitText = 13,
    NoOutput = 14,
}

impl Code {
    /// This refusal at a position of the source.
    pub fn at(self, at: usize) -> Refusal {
        Refusal { code: self, at }
    }
}

/// Why a plan is refused, and where.
#[derive(Clone, Copy, Debug, PartialEq, Eq)]
pub struct Refusal {
    pub code: Code,
    pub at: usize,
}
