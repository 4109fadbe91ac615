//! The tree a plan is parsed into.

use std::borrow::Cow;
use std::fmt;

/// A stretch of the source.
#[derive(Clone, Copy, Debug, PartialEq, Eq)]
pub struct Span {
    pub offset: usize,
    pub length: usize,
}

impl Span {
    /// The bytes it stands for.
    pub fn of(self, source: &[u8]) -> &[u8] {
        &source[self.offset..self.offset + self.length]
    }
}

/// The key of a pair.
#[derive(Clone, Copy, Debug, PartialEq, Eq)]
pub enum Key {
    Integer(i64),
    Text(Span),
}

/// What makes two keys equal: integers by value, texts by bytes, never one with the other.
#[derive(Clone, Copy, Debug, PartialEq, Eq, Hash)]
pub enum Identity<'s> {
    Integer(i64),
    Text(&'s [u8]),
}

impl fmt::Display for Identity<'_> {
    fn fmt(&self, out: &mut fmt::Formatter<'_>) -> fmt::Result {
        match self {
            Identity::Integer(value) => write!(out, "{value}"),
            Identity::Text(text) => write!(out, "\"{}\"", text.escape_ascii()),
        }
    }
}

impl Key {
    /// The identity of a key of this source.
    pub fn identity(self, source: &[u8]) -> Identity<'_> {
        match self {
            Key::Integer(value) => Identity::Integer(value),
            Key::Text(span) => Identity::Text(span.of(source)),
        }
    }
}

/// "A pair is a key, then a value."
#[derive(Debug)]
pub struct Pair<'a> {
    pub key: Key,
    /// The key as its source spells it.
    pub key_text: &'a [u8],
    pub value: Value<'a>,
}

/// A value, and its own text.
#[derive(Debug)]
pub struct Value<'a> {
    /// Index of its node in the plan it was parsed from; none once it is in another one.
    pub node: Option<usize>,
    /// As its source spells it, from the tag to the `;`, of a container to the `{`.
    pub text: Cow<'a, [u8]>,
    pub kind: Kind<'a>,
}

/// What a value of one of the nine kinds holds.
#[derive(Debug)]
pub enum Kind<'a> {
    Null,
    Bool(bool),
    Integer(i64),
    Float(Span),
    Text(Span),
    Array(Vec<Pair<'a>>),
    Object {
        class: Span,
        pairs: Vec<Pair<'a>>,
    },
    /// `r`, a value of its own: it takes an ordinal. Holds the ordinal named.
    Copy(usize),
    /// `R`, another name for a value: it takes none. Holds the ordinal named.
    Alias(usize),
}

impl<'a> Value<'a> {
    /// What a container holds; nothing for the other kinds.
    pub fn pairs(&self) -> &[Pair<'a>] {
        match &self.kind {
            Kind::Array(pairs) | Kind::Object { pairs, .. } => pairs,
            _ => &[],
        }
    }

    /// The same, to be changed.
    pub fn pairs_mut(&mut self) -> &mut [Pair<'a>] {
        match &mut self.kind {
            Kind::Array(pairs) | Kind::Object { pairs, .. } => pairs,
            _ => &mut [],
        }
    }

    pub fn is_container(&self) -> bool {
        matches!(self.kind, Kind::Array(_) | Kind::Object { .. })
    }

    pub fn is_reference(&self) -> bool {
        matches!(self.kind, Kind::Copy(_) | Kind::Alias(_))
    }

    /// "Two things take none: keys, and every R. An r does take one."
    pub fn takes_ordinal(&self) -> bool {
        !matches!(self.kind, Kind::Alias(_))
    }

    /// Depth of the deepest value inside, this one counted as 1.
    pub fn depth(&self) -> usize {
        let below = self.pairs().iter().map(|pair| pair.value.depth()).max();
        1 + below.unwrap_or(0)
    }
}
