//! Options told apart from words, before either is understood.

use crate::words::escape::shown;
use std::collections::BTreeMap;
use std::ffi::{OsStr, OsString};
use std::os::unix::ffi::{OsStrExt, OsStringExt};

/// Each option, and whether a value follows it.
const OPTIONS: [(&str, bool); 25] = [
    ("-o", true),
    ("--wait", true),
    ("--in-place", false),
    ("--dry-run", false),
    ("--quiet", false),
    ("--places", false),
    ("--array", true),
    ("--node", true),
    ("--at", true),
    ("--before", true),
    ("--after", true),
    ("--key", true),
    ("--int-key", true),
    ("--string-key", true),
    ("--value", true),
    ("--int", true),
    ("--float", true),
    ("--string", true),
    ("--null", false),
    ("--true", false),
    ("--false", false),
    ("--help", false),
    ("-h", false),
    ("--version", false),
    ("-V", false),
];

/// The arguments told apart.
#[derive(Default)]
pub struct Given {
    /// What is no option, in order.
    pub words: Vec<OsString>,
    /// By name; those that take no value have an empty one.
    options: BTreeMap<&'static str, OsString>,
}

impl Given {
    pub fn scan(mut arguments: impl Iterator<Item = OsString>) -> Result<Given, String> {
        let mut given = Given::default();
        while let Some(argument) = arguments.next() {
            match argument.as_bytes() {
                b"--" => {
                    given.words.extend(arguments);
                    break;
                }
                [b'-', _, ..] => {
                    let (name, value) = option(&argument, &mut arguments)?;
                    if given.options.insert(name, value).is_some() {
                        return Err(format!("{name} is given twice"));
                    }
                }
                _ => given.words.push(argument),
            }
        }
        Ok(given)
    }

    pub fn has(&self, name: &str) -> bool {
        self.options.contains_key(name)
    }

    /// The option's value, once.
    pub fn take(&mut self, name: &str) -> Option<OsString> {
        self.options.remove(name)
    }

    /// Whether the option stood there, once.
    pub fn flag(&mut self, name: &str) -> bool {
        self.take(name).is_some()
    }

    /// The one of these options that stands there, which must be one. `what` says what they give.
    pub fn one_of(
        &mut self,
        names: &[&'static str],
        what: &str,
    ) -> Result<(&'static str, OsString), String> {
        let mut taken = names
            .iter()
            .filter_map(|&name| Some((name, self.options.remove(name)?)));
        match (taken.next(), taken.next()) {
            (Some(one), None) => Ok(one),
            (Some((one, _)), Some((other, _))) => {
                Err(format!("{one} and {other} exclude each other"))
            }
            (None, _) => Err(format!("insert needs {what}: {}", listed(names))),
        }
    }

    /// An option that nobody has taken.
    pub fn left(&self) -> Option<&'static str> {
        self.options.keys().next().copied()
    }
}

/// The names in a sentence: `--at, --before or --after`.
fn listed(names: &[&str]) -> String {
    match names {
        [others @ .., last] if !others.is_empty() => format!("{} or {last}", others.join(", ")),
        _ => names.concat(),
    }
}

/// An option's name, and its value: behind `=`, behind the letter of `-o`, or the next argument.
fn option(
    argument: &OsStr,
    rest: &mut impl Iterator<Item = OsString>,
) -> Result<(&'static str, OsString), String> {
    let (name, attached) = parted(argument.as_bytes());
    let known = OPTIONS.into_iter().find(|known| known.0.as_bytes() == name);
    match (known, attached) {
        (Some((name, true)), Some(value)) => Ok((name, OsString::from_vec(value.to_vec()))),
        (Some((name, true)), None) => match rest.next() {
            // Who means the text says so, with the sign.
            Some(value) if value == "--" || OPTIONS.iter().any(|known| value == known.0) => Err(
                format!("{name} needs a value, and {} is an option", shown(&value)),
            ),
            Some(value) => Ok((name, value)),
            None => Err(format!("{name} needs a value")),
        },
        (Some((name, false)), None) => Ok((name, OsString::new())),
        (Some((name, false)), Some(_)) => Err(format!("{name} takes no value")),
        (None, _) => Err(format!("unknown option {}", shown(argument))),
    }
}

/// An option and the value attached to it. `-o=x` is none: it might mean a file `=x`, and does not.
fn parted(argument: &[u8]) -> (&[u8], Option<&[u8]>) {
    match argument {
        [b'-', b'o', b'=', ..] => (argument, None),
        [b'-', b'o', _, ..] => (&argument[..2], Some(&argument[2..])),
        [b'-', b'-', ..] => match argument.iter().position(|&byte| byte == b'=') {
            Some(at) => (&argument[..at], Some(&argument[at + 1..])),
            None => (argument, None),
        },
        _ => (argument, None),
    }
}

/// Digits alone: no sign.
pub fn number(text: &OsStr) -> Option<usize> {
    let text = text.to_str()?;
    let digits = text.bytes().all(|byte| byte.is_ascii_digit());
    text.parse().ok().filter(|_| digits)
}
