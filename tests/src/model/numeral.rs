//! The integers and numbers of a plan as the source spells them. The tree keeps their values alone.

use super::value::Span;

/// What an integer or number is for.
#[derive(Clone, Copy, Debug, PartialEq, Eq)]
pub enum Role {
    Integer,
    IntegerKey,
    TextLength,
    TextKeyLength,
    ClassLength,
    ArrayCount,
    ObjectCount,
    /// The ordinal that an `r` names.
    Copy,
    /// The ordinal that an `R` names.
    Alias,
}

impl Role {
    /// Whether it is for a number, and not for an integer.
    pub fn is_number(self) -> bool {
        !matches!(self, Role::Integer | Role::IntegerKey)
    }
}

/// An integer or a number, its sign included. Where its digits are missing, the sign alone, if there
/// is one: the plan is refused there.
#[derive(Clone, Copy, Debug)]
pub struct Numeral {
    pub role: Role,
    pub span: Span,
}
