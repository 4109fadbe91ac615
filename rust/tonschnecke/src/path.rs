//! The path syntax: `/2026/may`, the keys that lead from the root to a value. Both ways.

use crate::key::Key;
use std::error::Error;
use std::fmt;
use std::str::FromStr;

/// The keys that lead from the root to a value. Its text has a slash before each key, and is `/`
/// for the root itself:
///
/// - A component that is an integer of 64 bits in shortest decimal form is an integer key: `2`,
///   `-7`. Any other is a string key: `months`, `02`.
/// - In double quotes it is always a string key: `"2"`, and `""` for the empty one.
/// - `%HH`, two hexadecimal digits, is any byte: `%2F` a slash, `%22` a quote, `%25` a percent
///   sign.
///
/// What is shown of a path leads back.
///
/// ```
/// use tonschnecke::{Key, Path};
/// let path: Path = "/months/2/\"05\"".parse()?;
/// assert_eq!(path.keys(), [Key::from("months"), Key::from(2), Key::from("05")]);
/// assert_eq!(path.to_string(), "/months/2/05");
/// # Ok::<(), tonschnecke::PathSyntax>(())
/// ```
#[derive(Clone, PartialEq, Eq, PartialOrd, Ord, Hash)]
pub struct Path<'a> {
    keys: Vec<Key<'a>>,
}

impl<'a> Path<'a> {
    /// The path of these keys.
    pub const fn new(keys: Vec<Key<'a>>) -> Path<'a> {
        Path { keys }
    }

    /// The keys, that of the root's own pair first.
    pub fn keys(&self) -> &[Key<'a>] {
        &self.keys
    }

    /// The same path, with its bytes its own.
    pub fn into_owned(self) -> Path<'static> {
        Path::new(self.keys.into_iter().map(Key::into_owned).collect())
    }

    /// The path that the bytes write.
    ///
    /// # Errors
    ///
    /// They write none.
    pub fn parse(text: &[u8]) -> Result<Path<'static>, PathSyntax> {
        let components = text.strip_prefix(b"/").ok_or(PathSyntax::NoSlash)?;
        if components.is_empty() {
            return Ok(Path::new(Vec::new()));
        }
        let keys = components.split(|&byte| byte == b'/').map(Key::parse);
        keys.collect::<Result<_, _>>().map(Path::new)
    }
}

impl FromStr for Path<'static> {
    type Err = PathSyntax;

    fn from_str(text: &str) -> Result<Self, PathSyntax> {
        Path::parse(text.as_bytes())
    }
}

impl fmt::Display for Path<'_> {
    fn fmt(&self, out: &mut fmt::Formatter<'_>) -> fmt::Result {
        if self.keys.is_empty() {
            return out.write_str("/");
        }
        self.keys.iter().try_for_each(|key| write!(out, "/{key}"))
    }
}

impl fmt::Debug for Path<'_> {
    fn fmt(&self, out: &mut fmt::Formatter<'_>) -> fmt::Result {
        write!(out, "Path({self})")
    }
}

/// Why a text is no path.
#[derive(Clone, Copy, Debug, PartialEq, Eq)]
pub enum PathSyntax {
    /// It does not begin with a slash.
    NoSlash,
    /// A component is empty.
    EmptyComponent,
    /// A `%` without two hexadecimal digits.
    Escape,
    /// A double quote that does not stand around a whole component.
    Quotes,
}

impl fmt::Display for PathSyntax {
    fn fmt(&self, out: &mut fmt::Formatter<'_>) -> fmt::Result {
        out.write_str(match self {
            PathSyntax::NoSlash => "a path begins with /",
            PathSyntax::EmptyComponent => {
                "a path has no empty component; the empty string key is \"\""
            }
            PathSyntax::Escape => "in a path, two hexadecimal digits follow each %",
            PathSyntax::Quotes => {
                "in a path, double quotes stand around a whole component; \
                 inside it, a quote is %22 and a slash %2F"
            }
        })
    }
}

impl Error for PathSyntax {}

/// Where a path leads no further.
#[derive(Clone, Debug, PartialEq, Eq)]
pub struct Nowhere {
    /// The path of the last value that was reached.
    pub path: Path<'static>,
    /// The key that it does not have.
    pub key: Key<'static>,
    /// The key that it has instead, which is written alike: the string `"2"` for the integer 2.
    pub near: Option<Key<'static>>,
    /// What it is, if it holds no pairs at all.
    pub is: Option<String>,
}

impl fmt::Display for Nowhere {
    fn fmt(&self, out: &mut fmt::Formatter<'_>) -> fmt::Result {
        write!(out, "{} has no key {}", self.path, self.key)?;
        if let Some(near) = &self.near {
            let kind = match near {
                Key::Integer(_) => "integer",
                Key::String(_) => "string",
            };
            write!(out, ", but the {kind} key {near}")?;
        }
        let mut is = self.is.iter();
        is.try_for_each(|is| write!(out, ": it is {is}"))
    }
}

impl Error for Nowhere {}

/// Why a text leads to no value.
#[derive(Clone, Debug, PartialEq, Eq)]
pub enum PathError {
    /// It is no path.
    Syntax(PathSyntax),
    /// It leads nowhere in this plan.
    Nowhere(Nowhere),
}

impl fmt::Display for PathError {
    fn fmt(&self, out: &mut fmt::Formatter<'_>) -> fmt::Result {
        match self {
            PathError::Syntax(error) => error.fmt(out),
            PathError::Nowhere(error) => error.fmt(out),
        }
    }
}

impl Error for PathError {
    fn source(&self) -> Option<&(dyn Error + 'static)> {
        Some(match self {
            PathError::Syntax(error) => error,
            PathError::Nowhere(error) => error,
        })
    }
}

impl From<PathSyntax> for PathError {
    fn from(error: PathSyntax) -> Self {
        PathError::Syntax(error)
    }
}

impl From<Nowhere> for PathError {
    fn from(error: Nowhere) -> Self {
        PathError::Nowhere(error)
    }
}

#[cfg(test)]
mod tests {
    use super::*;

    fn string(bytes: &[u8]) -> Key<'_> {
        Key::from(bytes)
    }

    #[test]
    fn components_are_integers_in_shortest_form_or_strings() {
        let cases: [(&str, Key); 16] = [
            ("0", Key::Integer(0)),
            ("-5", Key::Integer(-5)),
            ("2026", Key::Integer(2026)),
            ("9223372036854775807", Key::Integer(i64::MAX)),
            ("-9223372036854775808", Key::Integer(i64::MIN)),
            ("9223372036854775808", string(b"9223372036854775808")),
            ("-0", string(b"-0")),
            ("05", string(b"05")),
            ("+5", string(b"+5")),
            ("may", string(b"may")),
            ("\"5\"", string(b"5")),
            ("\"\"", string(b"")),
            ("%35", string(b"5")),
            ("a%2Fb%22%25%00", string(b"a/b\"%\0")),
            ("\"a%2fb\"", string(b"a/b")),
            ("\"%35 x\"", string(b"5 x")),
        ];
        for (component, key) in cases {
            let path = Path::from_str(&format!("/{component}/x"));
            assert_eq!(path.unwrap().keys(), [key, string(b"x")], "{component}");
        }
        assert_eq!(Path::parse(b"/"), Ok(Path::new(vec![])));
        assert_eq!(Path::parse(b"/\xff").unwrap().keys(), [string(b"\xff")]);
    }

    #[test]
    fn what_is_no_path_is_told() {
        let cases = [
            ("", PathSyntax::NoSlash),
            ("may", PathSyntax::NoSlash),
            ("//", PathSyntax::EmptyComponent),
            ("/may/", PathSyntax::EmptyComponent),
            ("//may", PathSyntax::EmptyComponent),
            ("/%", PathSyntax::Escape),
            ("/%4", PathSyntax::Escape),
            ("/%4/1", PathSyntax::Escape),
            ("/%g0", PathSyntax::Escape),
            ("/%+1", PathSyntax::Escape),
            ("/\"", PathSyntax::Quotes),
            ("/\"a", PathSyntax::Quotes),
            ("/a\"b", PathSyntax::Quotes),
            ("/\"a\"b\"", PathSyntax::Quotes),
        ];
        for (path, error) in cases {
            assert_eq!(Path::from_str(path), Err(error), "{path}");
        }
    }

    #[test]
    fn what_is_shown_leads_back() {
        let singles = (0..=255).map(|byte| vec![byte]);
        let pairs = (0..=255).map(|byte| vec![byte, b'1']);
        let others =
            ["", "-0", "00", "-1", "12", "\u{e4}\u{301}"].map(|text| text.as_bytes().to_vec());
        let strings = singles
            .chain(pairs)
            .chain(others)
            .map(|bytes| Key::String(bytes.into()));
        let integers = [0, -1, 10, i64::MIN, i64::MAX].map(Key::Integer);
        for key in strings.chain(integers) {
            let path = Path::new(vec![Key::Integer(1), key]);
            assert_eq!(path.to_string().parse(), Ok(path));
        }
        assert_eq!(Path::new(vec![]).to_string(), "/");
    }
}
