//! Float texts, found in one pass.

use super::words::{byte, first, load, others, run_end};

/// The size of one that stands in a word with the `;` behind it, and has no sign or exponent.
#[inline(always)]
pub fn short_size(text: u64) -> Option<usize> {
    let marks = others(text);
    let whole = first(marks);
    if whole > 5 {
        return None;
    }
    if byte(text, whole) == b';' {
        return (whole > 0).then_some(whole);
    }
    // A point leaves the marks behind it right.
    let size = first(marks & (marks - 1));
    let is_plain = byte(text, whole) == b'.' && size < 6 && byte(text, size) == b';';
    (is_plain && size > 1).then_some(size)
}

/// The size of the float text at a position, if a `;` stands behind it.
#[inline(never)]
pub fn closed_size(source: &[u8], from: usize) -> Option<usize> {
    let size = size(source, from)?;
    (source.get(from + size) == Some(&b';')).then_some(size)
}

/// The size of the float text at a position.
pub fn size(source: &[u8], from: usize) -> Option<usize> {
    let first_digit = behind_sign(source, from);
    let point = run_end(source, first_digit);
    let mut digits = point - first_digit;
    let mut end = point;
    if source.get(point) == Some(&b'.') {
        end = run_end(source, point + 1);
        digits += end - point - 1;
    }
    if digits == 0 {
        return named_size(source.get(from..)?);
    }
    Some(behind_exponent(source, end)? - from)
}

fn named_size(text: &[u8]) -> Option<usize> {
    let mut names = ["INF", "-INF", "NAN"].into_iter();
    let name = names.find(|name| text.starts_with(name.as_bytes()))?;
    Some(name.len())
}

/// The position behind an exponent, if one stands there.
fn behind_exponent(source: &[u8], at: usize) -> Option<usize> {
    if !matches!(source.get(at), Some(b'e' | b'E')) {
        return Some(at);
    }
    let first_digit = behind_sign(source, at + 1);
    let end = run_end(source, first_digit);
    (end > first_digit).then_some(end)
}

fn behind_sign(source: &[u8], at: usize) -> usize {
    let is_sign = matches!(byte(load(source, at), 0), b'+' | b'-');
    at + usize::from(is_sign)
}
