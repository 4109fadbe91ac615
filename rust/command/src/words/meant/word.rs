//! Texts that are words and nothing else, so that a string can be meant.

use super::quotes::{closing, plainly_unquoted};
use tonschnecke::escape::printable;

/// The bytes of a word, as it is or in a pair of quotes.
pub fn word(text: &[u8]) -> Option<&[u8]> {
    let bytes = plainly_unquoted(text).unwrap_or(text);
    let quoted = bytes.len() < text.len();
    let empty = quoted && bytes.is_empty();
    let is_fit = |text: &str| is_word(text) && (quoted || closing(bytes).is_none());
    (empty || str::from_utf8(bytes).is_ok_and(is_fit)).then_some(bytes)
}

/// Words that are values in other notations.
const VALUES: [&str; 10] = [
    "inf",
    "infinity",
    "nan",
    "nil",
    "none",
    "undefined",
    "yes",
    "no",
    "on",
    "off",
];

fn is_word(text: &str) -> bool {
    let rest = text.trim_start_matches(char::is_alphabetic);
    let letters = text[..text.len() - rest.len()].to_lowercase();
    let readable = text.chars().all(|c| printable(c) && c != ';');
    let ended = text.ends_with(',');
    let value = VALUES.contains(&text.to_lowercase().as_str());
    // Such a letter alone may be that of a kind.
    let kind = letters.len() == 1 && "nbidsaor".contains(&letters);
    let kind = kind && (rest.is_empty() || rest.starts_with(' '));
    let doubtful = ended || value || kind || begins_notation(rest);
    !letters.is_empty() && readable && !doubtful && !may_be_escaped(text.as_bytes())
}

/// Whether some of its bytes may stand for others: `\n`, `&amp;`, `%20`.
pub fn may_be_escaped(text: &[u8]) -> bool {
    text.iter().any(|byte| b"\\&%".contains(byte))
}

/// Whether behind a name it goes on as `d9.5`, `int:5`, `float(9.5)`, `air = 5` or `i-5` do.
fn begins_notation(rest: &str) -> bool {
    let rest = rest.trim_start();
    let unmarked = rest.trim_start_matches(|c: char| !c.is_alphanumeric() && c != ' ');
    rest.starts_with([':', '(', '=', '[', '{']) || unmarked.starts_with(char::is_numeric)
}
