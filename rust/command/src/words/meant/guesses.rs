//! Texts that may have been meant, the likeliest first.

use super::super::digits;
use super::number::{is_integer, numeral, pointed};
use super::quotes::{closing, opening, plainly_unquoted, unquoted};
use super::shape::{is_colon, shape, Shape};
use super::word::{may_be_escaped, word};
use super::Role;
use tonschnecke::serialized;

pub const KEY: &str = "a key is an integer or a string";
pub const INTEGER: &str = "an integer has i: before it and ; behind it";
pub const FLOAT: &str = "a float has d: before it and ; behind it";
pub const BOOLEAN: &str = "true is b:1; and false is b:0;";
const NULL: &str = "null is N;";
const NO_INTEGER: &str = "an integer has no point; the letter of a float is d";
const TOO_LARGE: &str = "an integer has at most 64 bits; a larger number is a float";
const COMMA: &str = "a float has a point, no comma";
const CAPITALS: &str = "INF and NAN are written in capitals";
const END: &str = "the ; at the end is missing; \
                   a shell takes it away unless it stands in single quotes";

pub struct Guess {
    pub why: String,
    pub text: Vec<u8>,
}

fn guess(why: impl Into<String>, text: impl Into<Vec<u8>>) -> Guess {
    Guess {
        why: why.into(),
        text: text.into(),
    }
}

/// Texts that may have been meant by one without blanks around it.
pub fn guesses(text: &[u8]) -> Vec<Guess> {
    let mut guesses = vec![
        guess("no blank or newline stands around it", text),
        guess(END, [text, b";"].concat()),
    ];
    if let Some(inside) = unquoted(text) {
        guesses.push(guess("no quotes stand around it", inside));
    }
    guesses.extend(match shape(text) {
        Shape::Followed { first, rest } => only_marks(rest)
            .then(|| guess("nothing stands behind the ;", first))
            .into_iter()
            .collect(),
        Shape::Lettered { letter, body } => of_kind(letter, text, body),
        Shape::Bare { body } => bare(text, body),
        Shape::Empty | Shape::Container | Shape::Reference | Shape::Grouped => Vec::new(),
    });
    guesses
}

fn only_marks(text: &[u8]) -> bool {
    text.iter().all(|byte| b";:,.'\" \t\r\n".contains(byte))
}

/// Guesses for a text that begins with the letter of a plain kind.
fn of_kind(letter: u8, text: &[u8], body: &[u8]) -> Vec<Guess> {
    let why = |otherwise: &str| spelling(letter, text).unwrap_or_else(|| otherwise.into());
    let inside = unquoted(body).unwrap_or(body);
    match letter {
        b'i' => numbers(inside, &why(INTEGER), NO_INTEGER),
        b'd' => floats(inside, &why(FLOAT)),
        b'b' => booleans(inside, &why(BOOLEAN)),
        b'N' => vec![guess(why(NULL), "N;")],
        _ => strings(text, body),
    }
}

/// What is wrong with the letter and the byte behind it.
fn spelling(letter: u8, text: &[u8]) -> Option<String> {
    let letter = char::from(letter);
    match text {
        [first, ..] if char::from(*first) != letter => Some(format!(
            "the letter is {letter}, not {}",
            char::from(*first)
        )),
        [_, b':', ..] => None,
        _ => Some("a colon stands behind the letter".into()),
    }
}

/// An integer if it can be one, else a float.
fn numbers(body: &[u8], integer: &str, float: &str) -> Vec<Guess> {
    let body = numeral(body);
    let float = if is_integer(&body) { TOO_LARGE } else { float };
    let mut guesses = vec![guess(integer, framed("i:", &body, ";"))];
    // A point at the end may be a sentence's.
    if !body.ends_with(b".") {
        guesses.extend(floats(&body, float));
    }
    guesses
}

fn floats(body: &[u8], why: &str) -> Vec<Guess> {
    let body = numeral(body);
    vec![
        guess(why, framed("d:", &body, ";")),
        guess(COMMA, framed("d:", &pointed(&body), ";")),
        guess(CAPITALS, framed("d:", &body.to_ascii_uppercase(), ";")),
        guess(KEY, framed("i:", &body, ";")),
    ]
}

fn booleans(body: &[u8], why: &str) -> Vec<Guess> {
    let text = match body.to_ascii_lowercase().as_slice() {
        b"1" | b"true" => "b:1;",
        b"0" | b"false" => "b:0;",
        _ => return Vec::new(),
    };
    vec![guess(why, text)]
}

/// A string whose length, quotes or letter are wrong.
fn strings(text: &[u8], body: &[u8]) -> Vec<Guess> {
    let Some((bytes, length)) = string(body) else {
        return Vec::new();
    };
    // PHP's S has escapes, which mean other bytes.
    if text.starts_with(b"S") && bytes.contains(&b'\\') {
        return Vec::new();
    }
    let count = bytes.len();
    let why = match length {
        Some(length) if length != count => {
            format!("the number behind s: counts bytes, and this text has {count}")
        }
        _ => spelling(b's', text).unwrap_or_else(|| string_form(count)),
    };
    vec![guess(why, serialized::string(bytes))]
}

/// The bytes of a string, and its length, if there is one. A quote that is missing, one that may
/// not be the last, and escapes leave open which bytes are meant, unless the length says it.
fn string(body: &[u8]) -> Option<(&[u8], Option<usize>)> {
    let sure = |text| plainly_unquoted(text).filter(|bytes| !may_be_escaped(bytes));
    let (digits, rest) = digits::split(body);
    if digits.is_empty() {
        let bytes = sure(body).or_else(|| word(body));
        return bytes.map(|bytes| (bytes, None));
    }
    let bytes = rest.split_first().filter(|(mark, _)| is_colon(mark))?.1;
    let quoted = bytes.trim_ascii_start();
    let length = str::from_utf8(digits).ok()?.parse().unwrap_or(usize::MAX);
    let inside = match unquoted(quoted) {
        None if opening(quoted).is_none() && closing(quoted).is_none() => Some(bytes),
        inside => inside,
    };
    let counted = inside.filter(|bytes| bytes.len() == length);
    let bytes = counted.or_else(|| sure(quoted))?;
    Some((bytes, Some(length)))
}

/// Guesses for a text without letter: a number, a word of PHP's, a string.
fn bare(text: &[u8], body: &[u8]) -> Vec<Guess> {
    let numbers = numbers(body, INTEGER, FLOAT);
    // A float is no key, and no string either.
    if numbers.iter().any(|guess| Role::Value.fits(&guess.text)) {
        return numbers;
    }
    let mut guesses = match text.to_ascii_lowercase().as_slice() {
        b"true" => vec![guess(BOOLEAN, "b:1;")],
        b"false" => vec![guess(BOOLEAN, "b:0;")],
        b"null" => vec![guess(NULL, "N;")],
        _ => Vec::new(),
    };
    if let Some(bytes) = word(text) {
        guesses.push(guess(string_form(bytes.len()), serialized::string(bytes)));
    }
    guesses
}

fn string_form(count: usize) -> String {
    format!("a string is in quotes, behind s: and its length in bytes, here {count}")
}

fn framed(before: &str, bytes: &[u8], behind: &str) -> Vec<u8> {
    [before.as_bytes(), bytes, behind.as_bytes()].concat()
}
