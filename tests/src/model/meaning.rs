//! What a plan means, and what it should mean once a pair was put in: references are paths here,
//! and no ordinal is left.

use super::parse::{lone_key, lone_plain_value, parse};
use super::refusal::Refusal;
use super::value::{Identity, Kind, Value};
use crate::call::{Lent, Place};
use std::fmt;

/// "the list of the places of the pairs that lead down to it; the plan's own is empty"
type Path = Vec<usize>;

/// "A pair means its key and its value's meaning, a key its integer or bytes"
type Pair<'s> = (Identity<'s>, Meaning<'s>);

/// "A value means its letter and:"
#[derive(Debug, PartialEq, Eq)]
enum Meaning<'s> {
    Null,
    Bool(bool),
    Integer(i64),
    Float(&'s [u8]),
    Text(&'s [u8]),
    Array(Vec<Pair<'s>>),
    Object {
        class: &'s [u8],
        pairs: Vec<Pair<'s>>,
    },
    Copy(Path),
    Alias(Path),
}

/// How what was written fails to mean what it should.
#[derive(Clone, Debug)]
pub enum Strange {
    NoPlan(Refusal),
    /// The first value, by its path, that means something else, or whose key does.
    At {
        path: Path,
        expected: String,
        found: String,
    },
}

impl fmt::Display for Strange {
    fn fmt(&self, out: &mut fmt::Formatter<'_>) -> fmt::Result {
        match self {
            Strange::NoPlan(refusal) => write!(out, "no plan, {refusal:?}"),
            Strange::At {
                path,
                expected,
                found,
            } => write!(out, "at path {path:?}: expected {expected}, found {found}"),
        }
    }
}

/// Holds what was written for an insertion that the model accepts to the meaning of the plan given.
pub fn judge(texts: Lent, place: Place, written: &[u8]) -> Option<Strange> {
    let expected = expected(texts, place).expect("the model accepts the insertion");
    match parse(written, usize::MAX).outcome {
        Err(refusal) => Some(Strange::NoPlan(refusal)),
        Ok(new) => first_strange(&expected, &of(&new, written), Vec::new()),
    }
}

/// "The new meaning is the old one with every path that a reference names so shifted and the new
/// pair at place p of that array's pairs."
fn expected(texts: Lent<'_>, place: Place) -> Option<Meaning<'_>> {
    let old = parse(texts.source, usize::MAX).outcome.ok()?;
    let array = path_of(&old, &mut place.array_node.clone())?;
    let mut meaning = of(&old, texts.source);
    shift(&mut meaning, &array, place.pair_index);
    let pairs = meaning.pairs_at(&array);
    pairs.insert(place.pair_index, new_pair(texts)?);
    Some(meaning)
}

fn new_pair(texts: Lent<'_>) -> Option<Pair<'_>> {
    let key = lone_key(texts.key)?.identity(texts.key);
    Some((key, of(&lone_plain_value(texts.value)?, texts.value)))
}

/// The meaning of a plan, parsed from this source.
fn of<'s>(root: &Value, source: &'s [u8]) -> Meaning<'s> {
    let mut paths = Vec::new();
    number(root, &mut Vec::new(), &mut paths);
    meaning(root, source, &paths)
}

/// Collects the paths of the values that take ordinals, in their order.
fn number(value: &Value, path: &mut Path, paths: &mut Vec<Path>) {
    if value.takes_ordinal() {
        paths.push(path.clone());
    }
    for (place, pair) in value.pairs().iter().enumerate() {
        path.push(place);
        number(&pair.value, path, paths);
        path.pop();
    }
}

fn meaning<'s>(value: &Value, source: &'s [u8], paths: &[Path]) -> Meaning<'s> {
    let pairs = || {
        let each = value.pairs().iter().map(|pair| {
            let key = pair.key.identity(source);
            (key, meaning(&pair.value, source, paths))
        });
        each.collect()
    };
    match &value.kind {
        Kind::Null => Meaning::Null,
        Kind::Bool(value) => Meaning::Bool(*value),
        Kind::Integer(value) => Meaning::Integer(*value),
        Kind::Float(span) => Meaning::Float(span.of(source)),
        Kind::Text(span) => Meaning::Text(span.of(source)),
        Kind::Array(_) => Meaning::Array(pairs()),
        Kind::Object { class, .. } => Meaning::Object {
            class: class.of(source),
            pairs: pairs(),
        },
        Kind::Copy(ordinal) => Meaning::Copy(paths[ordinal - 1].clone()),
        Kind::Alias(ordinal) => Meaning::Alias(paths[ordinal - 1].clone()),
    }
}

/// The path of the value whose node is so many further on; counts that down on the way. A key takes
/// a node too.
fn path_of(value: &Value, further: &mut usize) -> Option<Path> {
    if *further == 0 {
        return Some(Vec::new());
    }
    *further -= 1;
    for (place, pair) in value.pairs().iter().enumerate() {
        *further = further.checked_sub(1)?;
        if let Some(rest) = path_of(&pair.value, further) {
            return Some([vec![place], rest].concat());
        }
    }
    None
}

/// "An old path that starts with A and then a q ≥ p is shifted: that q becomes q + 1. Other paths
/// stay."
fn shift(meaning: &mut Meaning, array: &[usize], place: usize) {
    match meaning {
        Meaning::Copy(path) | Meaning::Alias(path) if path.starts_with(array) => {
            let next = path.get_mut(array.len());
            if let Some(next) = next.filter(|next| **next >= place) {
                *next += 1;
            }
        }
        Meaning::Array(pairs) | Meaning::Object { pairs, .. } => {
            for (_, value) in pairs {
                shift(value, array, place);
            }
        }
        _ => {}
    }
}

impl<'s> Meaning<'s> {
    fn pairs(&self) -> &[Pair<'s>] {
        match self {
            Meaning::Array(pairs) | Meaning::Object { pairs, .. } => pairs,
            _ => &[],
        }
    }

    /// The pairs of the container at a path.
    fn pairs_at(&mut self, path: &[usize]) -> &mut Vec<Pair<'s>> {
        let (Meaning::Array(pairs) | Meaning::Object { pairs, .. }) = self else {
            panic!("a path leads through containers and ends at an array");
        };
        match path {
            [] => pairs,
            [place, rest @ ..] => pairs[*place].1.pairs_at(rest),
        }
    }

    /// In short: of a container only how many pairs it has.
    fn shown(&self) -> String {
        match self {
            Meaning::Array(pairs) => format!("Array of {} pairs", pairs.len()),
            Meaning::Object { pairs, .. } => format!("Object of {} pairs", pairs.len()),
            Meaning::Float(text) => format!("Float {}", text.escape_ascii()),
            Meaning::Text(text) => format!("Text \"{}\"", text.escape_ascii()),
            other => format!("{other:?}"),
        }
    }
}

/// Where two meanings part, if they do; `path` leads to both.
fn first_strange(expected: &Meaning, found: &Meaning, path: Path) -> Option<Strange> {
    if expected == found {
        return None;
    }
    let both = expected.pairs().iter().zip(found.pairs());
    for (place, ((old_key, old), (new_key, new))) in both.enumerate() {
        let path = [path.as_slice(), &[place]].concat();
        if old_key != new_key {
            return Some(Strange::At {
                path,
                expected: format!("key {old_key}"),
                found: format!("key {new_key}"),
            });
        }
        if let Some(strange) = first_strange(old, new, path) {
            return Some(strange);
        }
    }
    Some(Strange::At {
        path,
        expected: expected.shown(),
        found: found.shown(),
    })
}
