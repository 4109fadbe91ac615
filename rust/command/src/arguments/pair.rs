//! The pair to put in, and where: as people type it.

use crate::arguments::options::{number, Given};
use crate::words::escape::shown;
use crate::words::meant::Role;
use std::ffi::OsStr;
use std::os::unix::ffi::{OsStrExt, OsStringExt};
use tonschnecke::{serialized, Key, Kind, Path, Plan};

/// A pair, and where it goes.
#[derive(Debug, Clone)]
pub struct Pair {
    pub array: Array,
    pub place: Place,
    /// Serialized.
    pub key: Vec<u8>,
    /// Serialized.
    pub value: Vec<u8>,
}

#[derive(Debug, Clone)]
pub enum Array {
    Path(Path<'static>),
    Node(usize),
}

#[derive(Debug, Clone)]
pub enum Place {
    Index(usize),
    End,
    Before(Key<'static>),
    After(Key<'static>),
}

impl Pair {
    pub fn parse(given: &mut Given) -> Result<Pair, String> {
        Ok(Pair {
            array: array(given)?,
            place: place(given)?,
            key: key(given)?,
            value: value(given)?,
        })
    }
}

fn array(given: &mut Given) -> Result<Array, String> {
    let (name, text) = given.one_of(&["--array", "--node"], "an array")?;
    match name {
        "--array" => Path::parse(text.as_bytes())
            .map(Array::Path)
            .map_err(|error| unfit(name, &text, &error.to_string())),
        _ => number(&text)
            .map(Array::Node)
            .ok_or_else(|| unfit(name, &text, "an index is a whole number, 0 or more")),
    }
}

fn place(given: &mut Given) -> Result<Place, String> {
    let (name, text) = given.one_of(&["--at", "--before", "--after"], "a place")?;
    if name == "--at" {
        return match number(&text) {
            Some(index) => Ok(Place::Index(index)),
            None if text == "end" => Ok(Place::End),
            None => {
                let message = "neither a whole number, 0 or more, nor the word end";
                Err(unfit(name, &text, message))
            }
        };
    }
    if let Some(key) = serialized_key(text.as_bytes()) {
        let message = format!("here a key is written as in a path: {key}");
        return Err(unfit(name, &text, &message));
    }
    let key = Key::parse(text.as_bytes());
    let place = match name {
        "--before" => Place::Before,
        _ => Place::After,
    };
    key.map(place)
        .map_err(|error| unfit(name, &text, &error.to_string()))
}

/// The key whose serialized text this is.
fn serialized_key(text: &[u8]) -> Option<Key<'static>> {
    match Plan::read(text).ok()?.root().kind() {
        Kind::Integer(integer) => Some(integer.into()),
        Kind::String(bytes) => Some(Key::from(bytes).into_owned()),
        _ => None,
    }
}

fn key(given: &mut Given) -> Result<Vec<u8>, String> {
    let (name, text) = given.one_of(&["--key", "--int-key", "--string-key"], "a key")?;
    match name {
        "--key" => Ok(text.into_vec()),
        "--int-key" => integer(name, &text),
        _ => Ok(serialized::string(text.as_bytes())),
    }
}

/// The options that give a value.
const VALUES: [&str; 7] = [
    "--value", "--int", "--float", "--string", "--null", "--true", "--false",
];

fn value(given: &mut Given) -> Result<Vec<u8>, String> {
    let (name, text) = given.one_of(&VALUES, "a value")?;
    match name {
        "--value" => Ok(text.into_vec()),
        "--int" => {
            integer(name, &text).map_err(|message| message + "; one with a point is a --float")
        }
        "--float" => float(name, &text),
        "--string" => Ok(serialized::string(text.as_bytes())),
        "--null" => Ok(serialized::null()),
        _ => Ok(serialized::boolean(name == "--true")),
    }
}

fn integer(name: &str, text: &OsStr) -> Result<Vec<u8>, String> {
    let integer = text.to_str().and_then(|text| text.parse().ok());
    integer
        .map(serialized::integer)
        .ok_or_else(|| unfit(name, text, "no integer of 64 bits"))
}

/// The library says what is a float.
fn float(name: &str, text: &OsStr) -> Result<Vec<u8>, String> {
    let float = serialized::float(text.as_bytes());
    if Role::Value.fits(&float) {
        return Ok(float);
    }
    Err(unfit(
        name,
        text,
        "no float; it has digits and a point, as 9.5, or is INF, -INF or NAN",
    ))
}

fn unfit(name: &str, text: &OsStr, message: &str) -> String {
    format!("{name} {}: {message}", shown(text))
}
