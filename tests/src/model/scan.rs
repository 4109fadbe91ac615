//! The texts of the grammar: literals, runs of digits, quoted bytes, float texts.

use super::float::is_float_text;
use super::numeral::{Numeral, Role};
use super::refusal::Code;
use super::value::Span;

/// "*Number* below means digits [...] of value at most 65,536."
const LARGEST_NUMBER: u64 = 65_536;

/// A place in the source, moving to the right, and the integers and numbers that it passed.
pub struct Scanner<'a> {
    source: &'a [u8],
    position: usize,
    numerals: Vec<Numeral>,
}

impl<'a> Scanner<'a> {
    pub fn new(source: &'a [u8]) -> Self {
        Scanner {
            source,
            position: 0,
            numerals: Vec::new(),
        }
    }

    pub fn source(&self) -> &'a [u8] {
        self.source
    }

    pub fn position(&self) -> usize {
        self.position
    }

    pub fn rest(&self) -> &'a [u8] {
        &self.source[self.position..]
    }

    /// What was passed from a position on.
    pub fn since(&self, position: usize) -> &'a [u8] {
        &self.source[position..self.position]
    }

    pub fn into_numerals(self) -> Vec<Numeral> {
        self.numerals
    }

    /// Exactly these bytes.
    pub fn literal(&mut self, bytes: &[u8]) -> Result<(), Code> {
        if !self.rest().starts_with(bytes) {
            return Err(Code::Malformed);
        }
        self.position += bytes.len();
        Ok(())
    }

    /// A number: a count, a length or an ordinal named. It "may have one leading `+`" (paper 02, L1).
    pub fn number(&mut self, role: Role) -> Result<usize, Code> {
        let (_, digits) = self.signed(b"+", role)?;
        match magnitude(digits) {
            Some(value) if value <= LARGEST_NUMBER => Ok(value as usize),
            _ => Err(Code::OutOfRange),
        }
    }

    /// An integer of 64 bits with its optional sign.
    pub fn integer(&mut self, role: Role) -> Result<i64, Code> {
        let (sign, digits) = self.signed(b"+-", role)?;
        let magnitude = magnitude(digits).ok_or(Code::OutOfRange)?;
        let value = match sign {
            Some(b'-') => -i128::from(magnitude),
            _ => i128::from(magnitude),
        };
        i64::try_from(value).map_err(|_| Code::OutOfRange)
    }

    /// Number, `:"`, that many bytes of any kind, `"`.
    pub fn quoted(&mut self, length_role: Role) -> Result<Span, Code> {
        let length = self.number(length_role)?;
        self.literal(b":\"")?;
        if self.rest().len() < length {
            return Err(Code::Malformed);
        }
        let span = self.take(length);
        self.literal(b"\"")?;
        Ok(span)
    }

    /// All up to the next `;`, which no float text contains.
    pub fn float(&mut self) -> Result<Span, Code> {
        let end = self.rest().iter().position(|&byte| byte == b';');
        let length = end.ok_or(Code::Malformed)?;
        if !is_float_text(&self.rest()[..length]) {
            return Err(Code::Malformed);
        }
        Ok(self.take(length))
    }

    /// A sign, if one of these stands here, and the digits behind it. Kept as a numeral also where no
    /// digits follow.
    fn signed(&mut self, signs: &[u8], role: Role) -> Result<(Option<u8>, &'a [u8]), Code> {
        let start = self.position;
        let first = self.rest().first().copied();
        let sign = first.filter(|byte| signs.contains(byte));
        self.position += usize::from(sign.is_some());
        let digits = self.digits();
        self.passed(role, start);
        Ok((sign, digits?))
    }

    /// "A run of digits is taken whole, then 5 is tested, then the next byte."
    fn digits(&mut self) -> Result<&'a [u8], Code> {
        let run = self.rest().iter().take_while(|byte| byte.is_ascii_digit());
        match run.count() {
            0 => Err(Code::Malformed),
            length => Ok(self.take(length).of(self.source)),
        }
    }

    /// Keeps the integer or number that ends here.
    fn passed(&mut self, role: Role, start: usize) {
        let span = Span {
            offset: start,
            length: self.position - start,
        };
        self.numerals.push(Numeral { role, span });
    }

    fn take(&mut self, length: usize) -> Span {
        let offset = self.position;
        self.position += length;
        Span { offset, length }
    }
}

/// The value of a run of digits; none for more than 19 digits that count, which is above every
/// range of the format and might be above 64 bits.
fn magnitude(digits: &[u8]) -> Option<u64> {
    let zeros = digits.iter().take_while(|&&digit| digit == b'0').count();
    let significant = &digits[zeros..];
    (significant.len() <= 19).then(|| {
        significant
            .iter()
            .fold(0, |value, digit| value * 10 + u64::from(digit - b'0'))
    })
}
