//! Tokens of any spelling, byte by byte, and what is at fault with them.

use super::token::{Head, Reference, Token};
use super::trace::Trace;
use super::{float, refused, Step};
use std::ops::Range;

const NUMBER_LIMIT: u64 = 65_536;

/// A token whose tag stands at `start`, where a fault is told.
pub struct Scan<'a, T> {
    source: &'a [u8],
    start: usize,
    at: usize,
    trace: &'a mut T,
}

impl<'a, T: Trace> Scan<'a, T> {
    /// Behind the tag that stands at a position.
    pub fn new(source: &'a [u8], start: usize, trace: &'a mut T) -> Self {
        Scan {
            source,
            start,
            at: start + 1,
            trace,
        }
    }

    pub fn scalar(&mut self, tag: u8) -> Step<Token> {
        match tag {
            b'N' => {
                self.expect(b";")?;
                Ok(self.token(tag, 0, 0))
            }
            b'b' => self.boolean(),
            b'i' => self.integer(),
            b'd' => self.float(),
            _ => {
                let text = self.quoted(b"\";")?;
                Ok(self.token(tag, text.start as u64, text.len()))
            }
        }
    }

    pub fn reference(&mut self, tag: u8) -> Step<Reference> {
        self.expect(b":")?;
        let named = self.number()?;
        self.expect(b";")?;
        Ok(Reference {
            tag,
            named,
            end: self.at,
        })
    }

    pub fn head(&mut self, tag: u8) -> Step<Head> {
        let mut name = 0..0;
        if tag == b'O' {
            name = self.quoted(b"\":")?;
        } else {
            self.expect(b":")?;
        }
        let from = self.at;
        let pairs = self.number()?;
        let count = from..self.at;
        self.expect(b":{")?;
        Ok(Head {
            tag,
            content: name.start as u64,
            size: name.len(),
            pairs,
            count,
            end: self.at,
        })
    }

    fn token(&self, tag: u8, content: u64, size: usize) -> Token {
        Token {
            tag,
            content,
            size,
            end: self.at,
        }
    }

    fn rest(&self) -> &'a [u8] {
        &self.source[self.at..]
    }

    fn expect(&mut self, text: &[u8]) -> Step<()> {
        if !self.rest().starts_with(text) {
            return refused(2, self.start);
        }
        self.at += text.len();
        Ok(())
    }

    /// The value of a run of digits, or the highest that 64 bits hold; taken whole before it is tested.
    fn digits(&mut self, limit: u64) -> Step<u64> {
        let run = self.rest().iter().take_while(|byte| byte.is_ascii_digit());
        let (count, value) = run.fold((0, 0u64), |(count, value), byte| {
            let digit = u64::from(byte - b'0');
            (count + 1, value.saturating_mul(10).saturating_add(digit))
        });
        if count == 0 {
            return refused(2, self.start);
        }
        self.at += count;
        if value > limit {
            return refused(5, self.start);
        }
        Ok(value)
    }

    fn number(&mut self) -> Step<usize> {
        let from = self.at;
        self.at += usize::from(self.rest().first() == Some(&b'+'));
        let first_digit = self.at;
        let value = self.digits(NUMBER_LIMIT)?;
        self.tell_zeros(from, first_digit);
        Ok(value as usize)
    }

    /// Tells what shortest form leaves out of the digits up to here: the zeros in front but a last
    /// one, and what stands from a position on before them.
    fn tell_zeros(&mut self, from: usize, first_digit: usize) {
        let digits = &self.source[first_digit..self.at - 1];
        let zeros = digits.iter().take_while(|&&digit| digit == b'0').count();
        if first_digit + zeros > from {
            self.trace.surplus(from..first_digit + zeros);
        }
    }

    fn boolean(&mut self) -> Step<Token> {
        self.expect(b":")?;
        let content = u64::from(self.rest().first() == Some(&b'1'));
        self.expect(if content == 1 { b"1;" } else { b"0;" })?;
        Ok(self.token(b'b', content, 0))
    }

    fn integer(&mut self) -> Step<Token> {
        self.expect(b":")?;
        let from = self.at;
        let sign = self.rest().first();
        let negative = sign == Some(&b'-');
        if negative || sign == Some(&b'+') {
            self.at += 1;
        }
        let first_digit = self.at;
        let magnitude = self.digits(i64::MAX as u64 + u64::from(negative))?;
        let keeps_sign = negative && magnitude > 0;
        self.tell_zeros(if keeps_sign { first_digit } else { from }, first_digit);
        self.expect(b";")?;
        let content = if negative {
            magnitude.wrapping_neg()
        } else {
            magnitude
        };
        Ok(self.token(b'i', content, 0))
    }

    fn float(&mut self) -> Step<Token> {
        self.expect(b":")?;
        let from = self.at;
        let Some(size) = float::size(self.source, from) else {
            return refused(2, self.start);
        };
        self.at += size;
        self.expect(b";")?;
        Ok(self.token(b'd', from as u64, size))
    }

    /// A length, a quote, so many bytes, and what closes them; where they stand.
    fn quoted(&mut self, close: &[u8]) -> Step<Range<usize>> {
        self.expect(b":")?;
        let size = self.number()?;
        self.expect(b":\"")?;
        let from = self.at;
        if self.rest().len() < size {
            return refused(2, self.start);
        }
        self.at += size;
        self.expect(close)?;
        Ok(from..from + size)
    }
}
