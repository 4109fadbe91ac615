//! The spellings that canonical text does away with, looked for in the bytes of a plan themselves.

use crate::model::{Numeral, Role};

/// The integers, by name. They alone have a minus sign.
const INTEGERS: [(Role, &str); 2] = [(Role::Integer, "an integer"), (Role::IntegerKey, "a key")];

/// Every place of a number, by name.
pub const NUMBERS: [(Role, &str); 7] = [
    (Role::TextLength, "a length"),
    (Role::TextKeyLength, "a key's length"),
    (Role::ClassLength, "a class's length"),
    (Role::ArrayCount, "an array's count"),
    (Role::ObjectCount, "an object's count"),
    (Role::Copy, "an r"),
    (Role::Alias, "an R"),
];

/// What is spelled oddly is so in one of these ways.
#[derive(Clone, Copy, PartialEq, Eq)]
enum Oddity {
    Plus,
    PlusAndZeros,
    Zeros,
    MinusZero,
}

const ODDITIES: [(Oddity, &str); 4] = [
    (Oddity::Plus, "+ in"),
    (Oddity::PlusAndZeros, "+ and zeros in"),
    (Oddity::Zeros, "zeros in"),
    (Oddity::MinusZero, "-0 as"),
];

/// Which odd spellings an accepted plan has, in the order of `names`.
pub fn of(source: &[u8], numerals: &[Numeral]) -> impl Iterator<Item = bool> {
    let spelled = numerals.iter().filter_map(|numeral| {
        let oddity = oddity(numeral.span.of(source))?;
        Some((numeral.role, oddity))
    });
    let found: Vec<_> = spelled.collect();
    all().map(move |((role, _), (oddity, _))| found.contains(&(role, oddity)))
}

pub fn names() -> impl Iterator<Item = String> {
    all().map(|((_, what), (_, how))| format!("{how} {what}"))
}

fn all() -> impl Iterator<Item = ((Role, &'static str), (Oddity, &'static str))> {
    let roles = INTEGERS.into_iter().chain(NUMBERS);
    let every = roles.flat_map(|role| ODDITIES.map(|oddity| (role, oddity)));
    every.filter(|((role, _), (oddity, _))| !role.is_number() || *oddity != Oddity::MinusZero)
}

/// How an integer or number is not in shortest form; none if it is.
fn oddity(text: &[u8]) -> Option<Oddity> {
    let digits = match text {
        [b'+' | b'-', digits @ ..] => digits,
        digits => digits,
    };
    let zeros = digits.len() > 1 && digits.starts_with(b"0");
    match (text.first(), zeros) {
        (Some(b'+'), false) => Some(Oddity::Plus),
        (Some(b'+'), true) => Some(Oddity::PlusAndZeros),
        (Some(b'-'), _) if digits.iter().all(|&digit| digit == b'0') => Some(Oddity::MinusZero),
        (_, true) => Some(Oddity::Zeros),
        _ => None,
    }
}
