//! What sort of text it is that did not fit.

use super::super::digits;
use super::number::{is_grouped, is_grouped_integer};
use super::quotes::{opening, unquoted};
use tonschnecke::{Plan, Reason};

/// A text without blanks around it.
#[derive(Clone, Copy, Debug, PartialEq, Eq)]
pub enum Shape<'a> {
    Empty,
    /// An array or an object, in PHP's form or in JSON's.
    Container,
    Reference,
    /// One value, and more behind it.
    Followed {
        first: &'a [u8],
        rest: &'a [u8],
    },
    /// Begins with the letter of a plain kind, though perhaps not so spelled.
    Lettered {
        letter: u8,
        body: &'a [u8],
    },
    /// A number in groups of digits: of its marks, none is surely the point.
    Grouped,
    /// Has no letter of a kind, only what would stand behind it.
    Bare {
        body: &'a [u8],
    },
}

pub fn shape(text: &[u8]) -> Shape<'_> {
    match text {
        _ if text.iter().all(|byte| b",;".contains(byte)) => Shape::Empty,
        [b'{', .., b'}'] | [b'[', .., b']'] => Shape::Container,
        [b'r' | b'R', b':', rest @ ..] if digits::stand_in_front(rest) => Shape::Reference,
        [b'a' | b'A' | b'o' | b'O' | b'C' | b'E', b':', rest @ ..]
            if digits::stand_in_front(rest) =>
        {
            Shape::Container
        }
        _ => followed(text)
            .or_else(|| lettered(text))
            .unwrap_or_else(|| unlettered(text)),
    }
}

fn unlettered(text: &[u8]) -> Shape<'_> {
    let body = strip_end(text, b";,");
    // `1,5,` may be a list.
    let list = text.ends_with(b",") && body.contains(&b',');
    if is_grouped(body) || list && body.iter().all(in_number) {
        Shape::Grouped
    } else {
        Shape::Bare { body }
    }
}

/// Where one value ends is asked of the library.
fn followed(text: &[u8]) -> Option<Shape<'_>> {
    let refusal = Plan::read(text).err()?;
    if refusal.reason != Reason::TrailingBytes {
        return None;
    }
    let (first, rest) = text.split_at(refusal.at);
    Some(Shape::Followed { first, rest })
}

/// A letter counts with a colon behind it, or with a semicolon at the end: `i5` may be a name.
fn lettered(text: &[u8]) -> Option<Shape<'_>> {
    let (first, rest) = text.split_first()?;
    let letter = match first.to_ascii_lowercase() {
        b'n' => b'N',
        letter @ (b'b' | b'i' | b'd' | b's') => letter,
        _ => return None,
    };
    // In a string, what else stands at the end may belong to it.
    let body = strip_end(
        after_colon(rest),
        if letter == b's' { b";" } else { b";,:" },
    );
    let meant = match letter {
        b'N' => body.is_empty() && !rest.is_empty(),
        _ if rest.trim_ascii_start().first().is_some_and(is_colon) => true,
        b's' => text.ends_with(b";") && opening(body).is_some(),
        _ => text.ends_with(b";") && body.iter().all(in_number),
    };
    let number = unquoted(body).unwrap_or(body);
    let grouped = match letter {
        b'i' => is_grouped_integer(number),
        b'd' => is_grouped(number),
        _ => false,
    };
    meant.then_some(if grouped {
        Shape::Grouped
    } else {
        Shape::Lettered { letter, body }
    })
}

fn in_number(byte: &u8) -> bool {
    b"+-.,0123456789".contains(byte)
}

/// A colon, or what is typed for it.
pub fn is_colon(byte: &u8) -> bool {
    b":=;".contains(byte)
}

/// Without what was written between a letter and its body.
fn after_colon(text: &[u8]) -> &[u8] {
    let between = |byte: &u8| is_colon(byte) || b" \t".contains(byte);
    let length = text.iter().take_while(|byte| between(byte)).count();
    &text[length..]
}

/// Without the semicolon, or one of the marks that were written for it.
fn strip_end<'a>(text: &'a [u8], marks: &[u8]) -> &'a [u8] {
    match text {
        _ if text.ends_with(b"&quot;") => text,
        [start @ .., mark] if marks.contains(mark) => start.trim_ascii_end(),
        _ => text.trim_ascii_end(),
    }
}
