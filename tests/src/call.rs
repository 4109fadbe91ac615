//! One call of a service: what is asked with, and what is returned.

use crate::library::{Reading, Writing};
use std::fmt;

#[derive(Clone, Copy, Debug, PartialEq, Eq)]
pub enum Service {
    Read,
    Canonicalize,
    Insert,
}

impl Service {
    pub const ALL: [Service; 3] = [Service::Read, Service::Canonicalize, Service::Insert];
}

impl fmt::Display for Service {
    fn fmt(&self, out: &mut fmt::Formatter<'_>) -> fmt::Result {
        out.write_str(match self {
            Service::Read => "ton_read",
            Service::Canonicalize => "ton_canonicalize",
            Service::Insert => "ton_insert",
        })
    }
}

/// The texts that a call reads: a plan and, for inserting alone, those of a key and a value.
#[derive(Clone, Copy, Debug, Default, PartialEq, Eq)]
pub struct Texts<T> {
    pub source: T,
    pub key: T,
    pub value: T,
}

/// The texts as a call gets them.
pub type Lent<'a> = Texts<&'a [u8]>;

impl<T> Texts<T> {
    pub fn map<'a, U>(&'a self, each: impl Fn(&'a T) -> U) -> Texts<U> {
        Texts {
            source: each(&self.source),
            key: each(&self.key),
            value: each(&self.value),
        }
    }
}

impl<'a> Texts<&'a [u8]> {
    /// A plan alone.
    pub fn plan(source: &'a [u8]) -> Self {
        Texts {
            source,
            ..Texts::default()
        }
    }

    pub fn kept(&self) -> Texts<Vec<u8>> {
        self.map(|text| text.to_vec())
    }
}

impl Texts<Vec<u8>> {
    pub fn lent(&self) -> Lent<'_> {
        self.map(Vec::as_slice)
    }
}

/// Where inserting puts its pair.
#[derive(Clone, Copy, Debug, Default, PartialEq, Eq)]
pub struct Place {
    pub array_node: usize,
    pub pair_index: usize,
}

/// A service, and what is asked of it and lent to it besides the texts.
#[derive(Clone, Copy, Debug)]
pub struct Call {
    pub service: Service,
    /// For inserting alone.
    pub place: Place,
    /// In words.
    pub table_len: usize,
    /// In bytes; 0 for reading, to which no output is lent.
    pub out_len: usize,
}

impl Call {
    pub fn read(table_len: usize) -> Self {
        Call {
            service: Service::Read,
            place: Place::default(),
            table_len,
            out_len: 0,
        }
    }

    pub fn canonicalize(table_len: usize, out_len: usize) -> Self {
        Call {
            service: Service::Canonicalize,
            place: Place::default(),
            table_len,
            out_len,
        }
    }

    pub fn insert(place: Place, table_len: usize, out_len: usize) -> Self {
        Call {
            service: Service::Insert,
            place,
            table_len,
            out_len,
        }
    }
}

/// What a service returns.
#[derive(Clone, Copy, Debug, PartialEq, Eq)]
pub enum Reply {
    Reading(Reading),
    Writing(Writing),
}

impl Reply {
    /// The refusal's number; 0 if accepted.
    pub fn code(self) -> u64 {
        match self {
            Reply::Reading(reading) => reading.code,
            Reply::Writing(writing) => writing.code,
        }
    }

    /// The refusal's position; 0 if accepted.
    pub fn at(self) -> u64 {
        match self {
            Reply::Reading(reading) => reading.at,
            Reply::Writing(writing) => writing.at,
        }
    }

    /// Bytes written; 0 for reading.
    pub fn length(self) -> u64 {
        match self {
            Reply::Reading(_) => 0,
            Reply::Writing(writing) => writing.length,
        }
    }
}

/// Every field on one line, since any of them may be the wrong one.
impl fmt::Display for Reply {
    fn fmt(&self, out: &mut fmt::Formatter<'_>) -> fmt::Result {
        write!(out, "code {}, at {}", self.code(), self.at())?;
        match self {
            Reply::Reading(Reading {
                nodes, ordinals, ..
            }) => write!(out, ", nodes {nodes}, ordinals {ordinals}"),
            Reply::Writing(Writing { length, .. }) => write!(out, ", length {length}"),
        }
    }
}
