//! Bytes for a terminal.

use std::ffi::OsStr;
use std::os::unix::ffi::OsStrExt;
use tonschnecke::escape::{escape, printable};

/// Every byte in as many columns as it has characters, so that a caret can stand under one.
pub fn columns(bytes: &[u8]) -> String {
    escape(bytes, |c| c.is_ascii() && printable(c))
}

/// A file's name or an argument: as it is, unless a terminal would not show it so.
pub fn shown(text: &OsStr) -> String {
    match text.to_str() {
        Some(text) if text.chars().all(printable) => text.into(),
        _ => escape(text.as_bytes(), printable),
    }
}

#[cfg(test)]
mod tests {
    use super::*;

    #[test]
    fn names_are_shown_as_they_are_if_they_can_be() {
        let cases: [(&[u8], &str); 4] = [
            (b"100 %.plan", "100 %.plan"),
            ("M\u{e4}rz".as_bytes(), "M\u{e4}rz"),
            (b"m\xe4rz %", "m%E4rz %25"),
            (b"a\n\x1b[1m", "a%0A%1B[1m"),
        ];
        for (name, text) in cases {
            assert_eq!(shown(OsStr::from_bytes(name)), text);
        }
    }
}
