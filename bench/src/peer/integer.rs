//! Integers in shortest form, eight digits at a time.

use super::token::Token;
use super::words::{byte, first, load, others, value};

/// So many digits never have a value that is out of range.
const SAFE_DIGITS: usize = 18;
const POWERS: [u64; 9] = [
    1,
    10,
    100,
    1_000,
    10_000,
    100_000,
    1_000_000,
    10_000_000,
    100_000_000,
];

/// The count of digits that the last key had, as a guess of the next one's: where it is right, what
/// stands behind is read without waiting for the digits to be counted.
#[derive(Clone, Copy)]
pub struct Guess {
    mark: u64,
    count: usize,
}

impl Guess {
    /// One digit.
    pub const ONE: Guess = Guess {
        mark: 0x8000,
        count: 1,
    };

    #[cold]
    #[inline(never)]
    fn of(mark: u64) -> Self {
        Guess {
            mark,
            count: first(mark),
        }
    }
}

/// An integer from the word that its tag begins, its digits as many as guessed.
#[inline(always)]
pub fn guessed(source: &[u8], at: usize, word: u64, guess: &mut Guess) -> Option<Token> {
    let text = word >> 16;
    let marks = others(text);
    let mark = marks & marks.wrapping_neg();
    if mark != guess.mark {
        *guess = Guess::of(mark);
    }
    let count = guess.count;
    let is_shortest = (text as u8).wrapping_sub(b'1') < 9;
    if count < 6 && is_shortest && byte(text, count) == b';' {
        return Some(token(value(text, count), at + count + 3));
    }
    other(source, at, text)
}

/// An integer from the word that its tag begins.
#[inline(always)]
pub fn counted(source: &[u8], at: usize, word: u64) -> Option<Token> {
    let text = word >> 16;
    // Most have one digit or a few. What stands behind one digit is read without counting.
    if byte(text, 1) != b';' {
        let count = first(others(text));
        let is_shortest = (text as u8).wrapping_sub(b'1') < 9;
        if count < 6 && is_shortest && byte(text, count) == b';' {
            return Some(token(value(text, count), at + count + 3));
        }
    }
    other(source, at, text)
}

/// One digit, a minus sign or more digits than a word has.
#[inline(always)]
fn other(source: &[u8], at: usize, text: u64) -> Option<Token> {
    if byte(text, 1) == b';' {
        let digit = (text as u8).wrapping_sub(b'0');
        return (digit < 10).then(|| token(digit.into(), at + 4));
    }
    let (content, end) = long(source, at + 2);
    (end > 0).then(|| token(content, end))
}

#[inline(always)]
fn token(content: u64, end: usize) -> Token {
    Token {
        tag: b'i',
        content,
        size: 0,
        end,
    }
}

/// One with a minus sign or of more digits than a word has: its word 2 and the position behind it,
/// 0 if it has another spelling. A pair goes through registers, where an option of it would not.
fn long(source: &[u8], from: usize) -> (u64, usize) {
    let negative = source.get(from) == Some(&b'-');
    let first_digit = from + usize::from(negative);
    let (mut at, mut magnitude, mut count) = (first_digit, 0u64, 8);
    while count == 8 {
        let text = load(source, at);
        count = first(others(text));
        if count > 0 {
            let power = POWERS[count];
            magnitude = magnitude
                .wrapping_mul(power)
                .wrapping_add(value(text, count));
        }
        at += count;
    }
    let is_shortest = matches!(source.get(first_digit), Some(b'1'..=b'9'));
    let is_safe = is_shortest && at - first_digit <= SAFE_DIGITS;
    if !is_safe || source.get(at) != Some(&b';') {
        return (0, 0);
    }
    let content = if negative {
        magnitude.wrapping_neg()
    } else {
        magnitude
    };
    (content, at + 1)
}
