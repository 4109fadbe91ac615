//! What was probably meant by a key or a value that the library refused as unfit (13). These are
//! guesses: each is put to the library, and none is told that it would refuse again, or that may
//! well be wrong: who copies it would put wrong data in.

mod guesses;
mod number;
mod quotes;
mod shape;
#[cfg(test)]
mod tests;
mod word;

use guesses::guesses;
use number::is_integer;
use shape::{shape, Shape};
use std::fmt;
use tonschnecke::escape::printable;
use tonschnecke::{Plan, Reason};

/// A longer text is not told: nobody would copy it from a terminal.
const LONGEST: usize = 200;

/// What a text was to be put in as.
#[derive(Clone, Copy, Debug, PartialEq, Eq)]
pub enum Role {
    Key,
    Value,
}

impl Role {
    /// Whether the library takes the text as such, asked by inserting it beside a fit one.
    pub fn fits(self, text: &[u8]) -> bool {
        let (key, value): (&[u8], &[u8]) = match self {
            Role::Key => (text, b"N;"),
            Role::Value => (b"i:0;", text),
        };
        let empty = Plan::read("a:0:{}").expect("a plan");
        let answer = empty.root().insert(0, key, value);
        !answer.is_err_and(|refused| refused.reason == Reason::UnfitText)
    }
}

/// What to say of an unfit text.
#[derive(Debug, PartialEq, Eq)]
pub struct Meant {
    /// What is wrong, in words that stand alone.
    why: String,
    /// A fit text; none where it is doubtful what is meant.
    text: Option<Vec<u8>>,
}

impl fmt::Display for Meant {
    fn fmt(&self, out: &mut fmt::Formatter<'_>) -> fmt::Result {
        match self.text.as_deref().and_then(copyable) {
            Some(text) => {
                // As a shell takes it.
                let text = text.replace('\'', r"'\''");
                write!(out, "probably meant: '{text}'   ({})", self.why)
            }
            None => out.write_str(&self.why),
        }
    }
}

/// The text, if what a terminal shows of it is the text itself.
fn copyable(text: &[u8]) -> Option<&str> {
    let text = str::from_utf8(text).ok()?;
    (text.len() <= LONGEST && text.chars().all(printable)).then_some(text)
}

/// What was meant by a text; nothing is said of one that fits.
pub fn meant(text: &[u8], role: Role) -> Option<Meant> {
    if role.fits(text) {
        return None;
    }
    let text = text.trim_ascii();
    let fit = guesses(text)
        .into_iter()
        .find(|guess| role.fits(&guess.text));
    let (why, text) = match fit {
        Some(guess) => (guess.why, Some(guess.text)),
        None => (hopeless(text, role).into(), None),
    };
    Some(Meant { why, text })
}

/// Why nothing is told that is fit.
fn hopeless(text: &[u8], role: Role) -> &'static str {
    match (shape(text), role) {
        (Shape::Empty, _) => "nothing was given; the empty string is s:0:\"\";",
        (Shape::Followed { .. }, _) => "exactly one is put in, and more stands behind the first",
        (Shape::Grouped, _) => "a number has a point at most, and no groups: i:1000; or d:9.5;",
        (Shape::Lettered { letter: b'i', body } | Shape::Bare { body }, _) if is_integer(body) => {
            "an integer has at most 64 bits"
        }
        (Shape::Lettered { letter: b's', .. }, _) if text.starts_with(b"S") => {
            "S has escapes: write the bytes that they mean, with s"
        }
        (Shape::Lettered { letter: b's', .. }, _) => {
            "behind s: stand the length and the text, as in s:3:\"may\";"
        }
        (_, Role::Key) => "a key is an integer or a string: i:5; or s:3:\"may\";",
        (Shape::Container, _) => "an array or an object cannot be put in, only a plain value",
        (Shape::Reference, _) => "a reference cannot be put in, only a plain value",
        (Shape::Lettered { letter: b'i', .. }, _) => {
            "between i: and ; stands an integer, as in i:29;"
        }
        (Shape::Lettered { letter: b'd', .. }, _) => {
            "between d: and ; stands a float, as in d:9.5;"
        }
        (Shape::Lettered { .. }, _) => guesses::BOOLEAN,
        (Shape::Bare { .. }, _) => "a value is N;, b:1;, i:5;, d:9.5; or s:3:\"may\";",
    }
}
