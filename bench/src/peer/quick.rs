//! Tokens as they are mostly spelled, each from its first eight bytes. What is not read here, since
//! it has another spelling or is at fault, is read carefully.

use super::float;
use super::token::{Head, Reference, Token};
use super::words::{byte, first, others, value};

/// The first two bytes of each, lowest first.
pub const INTEGER: u16 = u16::from_le_bytes(*b"i:");
pub const FLOAT: u16 = u16::from_le_bytes(*b"d:");
pub const STRING: u16 = u16::from_le_bytes(*b"s:");
pub const NULL: u16 = u16::from_le_bytes(*b"N;");
pub const BOOLEAN: u16 = u16::from_le_bytes(*b"b:");
pub const ARRAY: u16 = u16::from_le_bytes(*b"a:");
pub const OBJECT_REFERENCE: u16 = u16::from_le_bytes(*b"r:");
pub const REFERENCE: u16 = u16::from_le_bytes(*b"R:");

/// A number in shortest form in front of a word, and the count of its digits.
#[inline(always)]
fn number(text: u64) -> Option<(u64, usize)> {
    let digit = (text as u8).wrapping_sub(b'0');
    // Most have one digit: what stands behind is then read without waiting for a multiplication.
    if !byte(text, 1).is_ascii_digit() {
        return (digit < 10).then_some((digit.into(), 1));
    }
    let count = first(others(text));
    (digit.wrapping_sub(1) < 9).then(|| (value(text, count), count))
}

/// A float from the word that its tag begins.
#[inline(always)]
pub fn float(source: &[u8], at: usize, word: u64) -> Option<Token> {
    let text = word >> 16;
    let size = match float::short_size(text) {
        Some(size) => size,
        None => float::closed_size(source, at + 2)?,
    };
    Some(Token {
        tag: b'd',
        content: at as u64 + 2,
        size,
        end: at + size + 3,
    })
}

/// A string from the word that its tag begins.
#[inline(always)]
pub fn string(source: &[u8], at: usize, word: u64) -> Option<Token> {
    let text = word >> 16;
    let (size, count) = number(text)?;
    if count > 4 || (text >> (8 * count)) as u16 != u16::from_le_bytes(*b":\"") {
        return None;
    }
    let from = at + count + 4;
    let close = from + size as usize;
    (source.get(close..close + 2)? == b"\";").then_some(Token {
        tag: b's',
        content: from as u64,
        size: size as usize,
        end: close + 2,
    })
}

/// `N;`.
#[inline(always)]
pub fn null(at: usize) -> Option<Token> {
    Some(Token {
        tag: b'N',
        content: 0,
        size: 0,
        end: at + 2,
    })
}

/// A boolean from the word that its tag begins.
#[inline(always)]
pub fn boolean(at: usize, word: u64) -> Option<Token> {
    let text = word >> 16;
    let content = text & 1;
    (text as u16 & 0xFFFE == u16::from_le_bytes(*b"0;")).then_some(Token {
        tag: b'b',
        content,
        size: 0,
        end: at + 4,
    })
}

/// A reference from the word that its tag begins. Numbers of five digits may be too high.
#[inline(always)]
pub fn reference(at: usize, word: u64) -> Option<Reference> {
    let text = word >> 16;
    let (named, count) = number(text)?;
    (count < 5 && byte(text, count) == b';').then_some(Reference {
        tag: word as u8,
        named: named as usize,
        end: at + count + 3,
    })
}

/// An array up to its brace from the word that its tag begins.
#[inline(always)]
pub fn array(at: usize, word: u64) -> Option<Head> {
    let text = word >> 16;
    let (pairs, count) = number(text)?;
    let is_open = count < 5 && (text >> (8 * count)) as u16 == u16::from_le_bytes(*b":{");
    is_open.then_some(Head {
        tag: b'a',
        content: 0,
        size: 0,
        pairs: pairs as usize,
        count: at + 2..at + 2 + count,
        end: at + count + 4,
    })
}
