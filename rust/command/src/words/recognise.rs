//! What bytes that are no plan probably are. Only what is sure enough is named; the refusal itself
//! stays the library's, and what begins a plan is asked of it.

mod base64;
mod json;
mod starts;
#[cfg(test)]
mod tests;

use super::digits;
use json::is_json;
use starts::by_start;
use tonschnecke::{Plan, Reason, Refusal, SOURCE_LIMIT};

const JSON: &str = "this is JSON; in PHP, serialize(json_decode(..., true)) makes a plan of it; \
                    classes and sharing are not in JSON";
const JSON_STRING: &str = "this is a JSON string; in PHP, json_decode gives the plan";
const FULL: &str = "its first 65,536 bytes are a plan, and a newline follows; \
                    without it: head -c 65536 FILE > NEW";
const SESSION: &str = "this is a PHP session, a plan behind each |; \
                       in PHP, serialize($_SESSION) makes one plan of all";

/// Letters that PHP knows and the library does not take.
const LETTERS: [(u8, &str); 3] = [
    (
        b'E',
        "this is a case of an enum; let PHP serialize its value or its name instead",
    ),
    (
        b'C',
        "this is an object in its class's own form; with __serialize in its class it is an O",
    ),
    (
        b'S',
        "this is a string with escapes; PHP's serialize(unserialize(...)) makes it an s",
    ),
];

/// What the refused bytes probably are, and what to do.
pub fn recognise(source: &[u8], refusal: Refusal) -> Option<String> {
    let here = &source[refusal.at..];
    match refusal.reason {
        Reason::TrailingBytes if is_newline(here) => Some(format!(
            "this is a newline at the end; without it: head -c {} FILE > NEW",
            refusal.at
        )),
        Reason::ValueTag | Reason::KeyTag => letter(here).or_else(|| whole(source)),
        Reason::Malformed => string(here).or_else(|| whole(source)),
        Reason::SourceTooLong => full(source).or_else(|| whole(source)),
        _ => None,
    }
}

fn is_newline(bytes: &[u8]) -> bool {
    bytes.iter().all(|byte| b"\r\n".contains(byte))
}

/// A plan as long as can be, and a newline. What else may follow was not read.
fn full(source: &[u8]) -> Option<String> {
    let (plan, rest) = source.split_at_checked(SOURCE_LIMIT)?;
    (is_newline(rest) && Plan::read(plan).is_ok()).then(|| FULL.into())
}

fn letter(text: &[u8]) -> Option<String> {
    let [first, b':', rest @ ..] = text else {
        return None;
    };
    if !digits::stand_in_front(rest) {
        return None;
    }
    let (_, what) = LETTERS.iter().find(|(letter, _)| letter == first)?;
    Some((*what).into())
}

/// A string whose quotes or bytes were changed on the way.
fn string(text: &[u8]) -> Option<String> {
    let [b's' | b'O', b':', rest @ ..] = text else {
        return None;
    };
    let (digits, rest) = digits::split(rest);
    let rest = rest.strip_prefix(b":")?;
    let what = if rest.starts_with(b"&quot;") {
        "its quotes were changed for HTML, to &quot;; take the plan as it was before"
    } else if rest.starts_with(b"\\\"") {
        "backslashes were put before its quotes; take the plan as it was before"
    } else if counts_characters(digits, rest.strip_prefix(b"\"")?) {
        "its length counts letters, not bytes; \
         if it was converted to UTF-8, take the plan as bytes"
    } else {
        return None;
    };
    Some(what.into())
}

/// Whether so many characters, and not so many bytes, stand before the closing quote.
fn counts_characters(digits: &[u8], text: &[u8]) -> bool {
    let count = str::from_utf8(digits)
        .ok()
        .and_then(|digits| digits.parse().ok());
    let valid = text.utf8_chunks().next().map_or("", |chunk| chunk.valid());
    let end = count.and_then(|count| valid.char_indices().nth(count));
    end.is_some_and(|(end, _)| !valid[..end].is_ascii() && valid[end..].starts_with("\";"))
}

/// What the source is as a whole.
fn whole(source: &[u8]) -> Option<String> {
    if let Some(what) = by_start(source) {
        return Some(what.into());
    }
    let unspaced = source.trim_ascii_start();
    let what = match source {
        [] => "it is empty",
        _ if json::unescaped(source).is_some_and(|text| begins_plan(&text)) => JSON_STRING,
        [quote @ (b'"' | b'\''), rest @ ..] if begins_plan(rest) => {
            if rest.trim_ascii_end().last() == Some(quote) {
                "quotes stand around it; take them away"
            } else {
                "a quote stands before it; take it away"
            }
        }
        _ if unspaced.len() < source.len() && begins_plan(unspaced) => {
            "blanks or newlines stand before it; take them away"
        }
        _ if is_json(source) => JSON,
        _ if is_session(source) => SESSION,
        _ => base64::advice(source, begins_plan)?,
    };
    Some(what.into())
}

/// Whether the library reads a plan there, or gets beyond the text of its first value.
fn begins_plan(bytes: &[u8]) -> bool {
    use Reason::{Malformed, SourceTooLong, ValueTag};
    match Plan::read(bytes) {
        Err(Refusal { reason, at: 0 }) => !matches!(reason, SourceTooLong | Malformed | ValueTag),
        _ => true,
    }
}

/// `name|value`, as PHP's session_encode writes it.
fn is_session(source: &[u8]) -> bool {
    let in_name = |byte: &u8| byte.is_ascii_alphanumeric() || b"_-.".contains(byte) || *byte > 127;
    let length = source.iter().take_while(|byte| in_name(byte)).count();
    match &source[length..] {
        [b'|', value @ ..] => length > 0 && begins_plan(value),
        _ => false,
    }
}
