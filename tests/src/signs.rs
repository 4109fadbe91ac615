//! What reading refuses about signs: the circumstances of refused plans, by name.

use crate::model::{self, Code, Numeral, Refusal, Role, LONGEST_PLAN};
use crate::oddities::NUMBERS;

/// A refused plan, with the last integer or number met. Where its digits are missing, or it is out
/// of its range, it is what the plan is refused for.
struct Refused<'a> {
    source: &'a [u8],
    refusal: Refusal,
    role: Option<Role>,
    numeral: &'a [u8],
    /// What stands behind the numeral; none at the plan's end.
    next: Option<u8>,
}

/// A name, and whether a refused plan is of that sort.
type Circumstance = (&'static str, fn(&Refused) -> bool);

/// In every place of a number. "A `-` there is still 2."
const OF_NUMBERS: &[Circumstance] = &[
    ("2 for + and no digit in", |it| it.lacks_digits(b"+")),
    ("2 for - in", |it| {
        it.lacks_digits(b"") && it.next == Some(b'-')
    }),
    ("5 behind + in", |it| {
        it.is(Code::OutOfRange) && it.has_plus()
    }),
];

const OTHERS: &[Circumstance] = &[
    ("2 for + at the plan's end", |it| {
        it.is_number() && it.lacks_digits(b"+") && it.next.is_none()
    }),
    ("2 for ++ before a number", |it| {
        it.is_number() && it.is_double_plus()
    }),
    ("2 for +- before a number", |it| {
        it.is_number() && it.lacks_digits(b"+") && it.next == Some(b'-')
    }),
    ("2 for ++ in an integer", |it| {
        it.is_of(Role::Integer) && it.is_double_plus()
    }),
    ("2 for ++ in a key", |it| {
        it.is_of(Role::IntegerKey) && it.is_double_plus()
    }),
    ("2 for + in a b", |it| {
        it.is(Code::Malformed) && it.source[it.refusal.at..].starts_with(b"b:+")
    }),
    ("6 behind + in an r", |it| {
        it.is(Code::UnknownOrdinal) && it.is_of(Role::Copy) && it.has_plus()
    }),
    ("6 behind + in an R", |it| {
        it.is(Code::UnknownOrdinal) && it.is_of(Role::Alias) && it.has_plus()
    }),
    ("9 behind + in a key's length", |it| {
        it.is(Code::EqualKey) && it.is_of(Role::TextKeyLength) && it.has_plus()
    }),
    ("1 for one + too many", |it| it.is_too_long_by_a_plus()),
];

/// Which of them a refused plan is, in the order of `names`.
pub fn of(source: &[u8], refusal: Refusal, numerals: &[Numeral]) -> Vec<bool> {
    let it = Refused::new(source, refusal, numerals.last());
    let of_numbers = OF_NUMBERS.iter().flat_map(|(_, is_met)| {
        let is_met = is_met(&it);
        NUMBERS.map(|(role, _)| is_met && it.is_of(role))
    });
    let others = OTHERS.iter().map(|(_, is_met)| is_met(&it));
    of_numbers.chain(others).collect()
}

pub fn names() -> impl Iterator<Item = String> {
    let of_numbers = OF_NUMBERS
        .iter()
        .flat_map(|(how, _)| NUMBERS.map(|(_, what)| format!("{how} {what}")));
    of_numbers.chain(OTHERS.iter().map(|(name, _)| name.to_string()))
}

impl<'a> Refused<'a> {
    fn new(source: &'a [u8], refusal: Refusal, last: Option<&Numeral>) -> Self {
        let span = last.map(|numeral| numeral.span);
        Refused {
            source,
            refusal,
            role: last.map(|numeral| numeral.role),
            numeral: span.map_or(b"", |span| span.of(source)),
            next: span.and_then(|span| source.get(span.offset + span.length).copied()),
        }
    }

    fn is(&self, code: Code) -> bool {
        self.refusal.code == code
    }

    fn is_of(&self, role: Role) -> bool {
        self.role == Some(role)
    }

    fn is_number(&self) -> bool {
        self.role.is_some_and(Role::is_number)
    }

    fn has_plus(&self) -> bool {
        self.numeral.starts_with(b"+")
    }

    /// Whether there is nothing but this sign, or no sign at all. Any other numeral has digits.
    fn lacks_digits(&self, sign: &[u8]) -> bool {
        self.role.is_some() && self.numeral == sign
    }

    fn is_double_plus(&self) -> bool {
        self.lacks_digits(b"+") && self.next == Some(b'+')
    }

    /// Whether the plan is one byte too long and accepted without its first `+`, a number's.
    fn is_too_long_by_a_plus(&self) -> bool {
        let plus = self.source.iter().position(|&byte| byte == b'+');
        let Some(plus) = plus.filter(|_| self.source.len() == LONGEST_PLAN + 1) else {
            return false;
        };
        let shorter = [&self.source[..plus], &self.source[plus + 1..]].concat();
        let survey = model::survey(&shorter, usize::MAX);
        let mut there = survey.numerals.iter();
        let there = there.find(|numeral| numeral.span.offset == plus);
        survey.answer.is_ok() && there.is_some_and(|numeral| numeral.role.is_number())
    }
}
