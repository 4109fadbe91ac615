//! Keys, and how a component of a path writes them.

use crate::escape::{escape, printable};
use crate::path::PathSyntax;
use crate::serialized;
use std::borrow::Cow;
use std::fmt;
use std::str::FromStr;

/// A key. It is shown as the component of a path that leads back to it.
///
/// ```
/// use tonschnecke::Key;
/// assert_eq!(Key::from("a/5").to_string(), "a%2F5");
/// assert_eq!(Key::from("5").to_string(), "\"5\"");
/// assert_eq!(Key::from(5).to_string(), "5");
/// ```
#[derive(Clone, PartialEq, Eq, PartialOrd, Ord, Hash)]
pub enum Key<'a> {
    /// `i`
    Integer(i64),
    /// `s`
    String(Cow<'a, [u8]>),
}

macro_rules! from {
    ($($type:ty, $given:ident => $key:expr;)*) => {
        $(impl<'a> From<$type> for Key<'a> {
            fn from($given: $type) -> Self {
                $key
            }
        })*
    };
}

from! {
    i64, integer => Key::Integer(integer);
    i32, integer => Key::Integer(integer.into());
    u32, integer => Key::Integer(integer.into());
    &'a str, text => Key::String(text.as_bytes().into());
    &'a String, text => Key::String(text.as_bytes().into());
    &'a [u8], bytes => Key::String(bytes.into());
    Vec<u8>, bytes => Key::String(bytes.into());
    &'a Key<'_>, key => match key {
        Key::Integer(integer) => Key::Integer(*integer),
        Key::String(bytes) => Key::String(Cow::Borrowed(bytes)),
    };
}

impl<'a, const N: usize> From<&'a [u8; N]> for Key<'a> {
    fn from(bytes: &'a [u8; N]) -> Self {
        Key::String(bytes[..].into())
    }
}

impl FromStr for Key<'static> {
    type Err = PathSyntax;

    fn from_str(component: &str) -> Result<Self, PathSyntax> {
        Key::parse(component.as_bytes())
    }
}

impl Key<'_> {
    /// The key that a component of a path writes.
    ///
    /// # Errors
    ///
    /// It writes none: it is empty, or its quotes or its `%HH` are wrong.
    ///
    /// ```
    /// use tonschnecke::Key;
    /// assert_eq!(Key::parse(b"-5"), Ok(Key::from(-5)));
    /// assert_eq!(Key::parse(b"05"), Ok(Key::from("05")));
    /// assert_eq!(Key::parse(b"\"5\""), Ok(Key::from("5")));
    /// ```
    pub fn parse(component: &[u8]) -> Result<Key<'static>, PathSyntax> {
        if let Some(integer) = integer(component) {
            return Ok(Key::Integer(integer));
        }
        let quoted = component
            .strip_prefix(b"\"")
            .and_then(|rest| rest.strip_suffix(b"\""));
        if component.is_empty() {
            return Err(PathSyntax::EmptyComponent);
        }
        unescape(quoted.unwrap_or(component)).map(|bytes| Key::String(bytes.into()))
    }

    /// The same key, with its bytes its own.
    pub fn into_owned(self) -> Key<'static> {
        match self {
            Key::Integer(integer) => Key::Integer(integer),
            Key::String(bytes) => Key::String(bytes.into_owned().into()),
        }
    }

    /// The serialized text, as `i:5;` or `s:3:"may";`.
    pub fn serialized(&self) -> Vec<u8> {
        match self {
            Key::Integer(integer) => serialized::integer(*integer),
            Key::String(bytes) => serialized::string(bytes),
        }
    }

    /// The string key that is written as this integer key is, or the other way round.
    pub(crate) fn counterpart(&self) -> Option<Key<'static>> {
        match self {
            Key::Integer(integer) => Some(Key::String(integer.to_string().into_bytes().into())),
            Key::String(bytes) => integer(bytes).map(Key::Integer),
        }
    }

    /// How many bytes a string key has.
    pub(crate) fn string_len(&self) -> usize {
        match self {
            Key::Integer(_) => 0,
            Key::String(bytes) => bytes.len(),
        }
    }
}

/// The integer whose shortest decimal form this is.
fn integer(text: &[u8]) -> Option<i64> {
    let text = str::from_utf8(text).ok()?;
    let integer: i64 = text.parse().ok()?;
    (integer.to_string() == text).then_some(integer)
}

fn unescape(text: &[u8]) -> Result<Vec<u8>, PathSyntax> {
    let mut bytes = Vec::with_capacity(text.len());
    let mut rest = text.iter();
    while let Some(&byte) = rest.next() {
        bytes.push(match byte {
            b'%' => match (rest.next().and_then(digit), rest.next().and_then(digit)) {
                (Some(high), Some(low)) => high * 16 + low,
                _ => return Err(PathSyntax::Escape),
            },
            b'"' => return Err(PathSyntax::Quotes),
            _ => byte,
        });
    }
    Ok(bytes)
}

fn digit(byte: &u8) -> Option<u8> {
    let digit = char::from(*byte).to_digit(16)?;
    u8::try_from(digit).ok()
}

impl fmt::Display for Key<'_> {
    fn fmt(&self, out: &mut fmt::Formatter<'_>) -> fmt::Result {
        match self {
            Key::Integer(integer) => write!(out, "{integer}"),
            Key::String(bytes) if bytes.is_empty() || integer(bytes).is_some() => {
                write!(out, "\"{}\"", escape(bytes, plain))
            }
            Key::String(bytes) => out.write_str(&escape(bytes, plain)),
        }
    }
}

impl fmt::Debug for Key<'_> {
    fn fmt(&self, out: &mut fmt::Formatter<'_>) -> fmt::Result {
        write!(out, "Key({self})")
    }
}

/// What stands unescaped in a component: nothing that a shell, the syntax or a tree takes for its
/// own.
fn plain(character: char) -> bool {
    match character {
        'a'..='z' | 'A'..='Z' | '0'..='9' => true,
        '-' | '_' | '.' | ',' | '+' | ':' | '@' | '=' => true,
        _ => !character.is_ascii() && printable(character),
    }
}

#[cfg(test)]
mod tests {
    use super::*;

    #[test]
    fn keys_are_shown_so() {
        let cases: [(Key, &str); 10] = [
            (Key::Integer(-5), "-5"),
            (b"5"[..].into(), "\"5\""),
            (b"-5"[..].into(), "\"-5\""),
            (b""[..].into(), "\"\""),
            (b"05"[..].into(), "05"),
            (b"a b/c"[..].into(), "a%20b%2Fc"),
            (b"\"%$\0\xff"[..].into(), "%22%25%24%00%FF"),
            ("M\u{e4}rz".into(), "M\u{e4}rz"),
            ("\u{202e}x".into(), "%E2%80%AEx"),
            ("it's: x".into(), "it%27s:%20x"),
        ];
        for (key, component) in cases {
            assert_eq!(key.to_string(), component);
        }
    }

    #[test]
    fn keys_are_made_of_what_is_at_hand() {
        let (text, bytes) = (String::from("5"), vec![b'5']);
        let strings: [Key; 5] = [
            "5".into(),
            (&text).into(),
            b"5".into(),
            b"5"[..].into(),
            bytes.into(),
        ];
        assert!(strings
            .iter()
            .all(|key| *key == Key::String(b"5"[..].into())));
        let integers: [Key; 3] = [5_i64.into(), 5_i32.into(), 5_u32.into()];
        assert!(integers.iter().all(|key| *key == Key::Integer(5)));
        assert_eq!(Key::from(&strings[0]), strings[0]);
        assert_eq!("5".parse(), Ok(Key::Integer(5)));
        assert_eq!(
            format!("{:?} {:?}", strings[0], integers[0]),
            "Key(\"5\") Key(5)"
        );
    }

    #[test]
    fn the_text_of_a_key_is_its_own() {
        assert_eq!(
            Key::Integer(i64::MIN).serialized(),
            b"i:-9223372036854775808;"
        );
        assert_eq!(
            Key::from("M\u{e4}rz").serialized(),
            "s:5:\"M\u{e4}rz\";".as_bytes()
        );
    }
}
