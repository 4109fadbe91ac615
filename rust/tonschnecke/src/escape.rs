//! Bytes as text that a terminal shows and a path can hold: what is not literal is `%HH`.

use std::fmt::Write;

/// The bytes, each character that is `literal` as it is, every other byte and each `%` as `%HH`.
///
/// ```
/// use tonschnecke::escape::{escape, printable};
/// assert_eq!(escape(b"5 %\x00\xff", printable), "5 %25%00%FF");
/// ```
pub fn escape(bytes: &[u8], literal: impl Fn(char) -> bool) -> String {
    let mut text = String::with_capacity(bytes.len());
    for chunk in bytes.utf8_chunks() {
        for character in chunk.valid().chars() {
            if character != '%' && literal(character) {
                text.push(character);
            } else {
                hexadecimal(character.encode_utf8(&mut [0; 4]).as_bytes(), &mut text);
            }
        }
        hexadecimal(chunk.invalid(), &mut text);
    }
    text
}

fn hexadecimal(bytes: &[u8], text: &mut String) {
    for byte in bytes {
        write!(text, "%{byte:02X}").expect("a String takes all");
    }
}

/// The text in double quotes.
///
/// ```
/// assert_eq!(tonschnecke::escape::quoted(b"a \"b\""), "\"a %22b%22\"");
/// ```
pub fn quoted(bytes: &[u8]) -> String {
    format!("\"{}\"", escape(bytes, |c| c != '"' && printable(c)))
}

/// Whether a terminal shows it: no control, no mark that acts on its neighbours.
pub fn printable(character: char) -> bool {
    match character {
        ' '..='~' => true,
        _ => !character.is_ascii() && character.escape_debug().len() == 1,
    }
}

/// The first `limit` bytes of a text that may be long, shown by `show`, with a mark where it is
/// cut.
///
/// ```
/// use tonschnecke::escape::{quoted, shortened};
/// assert_eq!(shortened(b"basin", 3, quoted), "\"bas\"...");
/// assert_eq!(shortened("März".as_bytes(), 2, quoted), "\"M\"...");
/// ```
pub fn shortened(bytes: &[u8], limit: usize, show: impl Fn(&[u8]) -> String) -> String {
    if bytes.len() <= limit {
        return show(bytes);
    }
    // No character is parted.
    let within = |end: &usize| bytes[*end] & 0xC0 == 0x80;
    let end = (0..=limit).rev().take(4).find(|end| !within(end));
    show(&bytes[..end.unwrap_or(limit)]) + "..."
}
